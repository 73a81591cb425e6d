//! Judgements: single calls on any capture, and runs through all that a capture may
//! hold and all that may be wrong with one.

use crate::calls::{compared, equal, met, Compared};
use crate::draw::{self, Plan};
use crate::generator::Generator;
use crate::lent::Lent;
use crate::tally::Met;
use crate::tally::Outcome::{self, Different, Judged, Refused, RefusedFor, Same};
use crate::waveform;
use oracle::annex_c::AnnexC;
use oracle::checks::{CAPTURE, COORDINATE, FORMAT, LENGTH, PASSED};
use oracle::judge::{self, Judgement};
use oracle::tables::{Format, SECTION};
use oracle::waveform::{constellation, Point, FORMATS};
use std::sync::OnceLock;

/// The bits of a pair's coordinates; none of a lost sample.
type Sample = Option<[u64; 2]>;

/// The lines of a capture, each with its line feed.
type Lines = Vec<Vec<u8>>;

/// What a good capture may hold: a name, and how a sample of it is drawn.
type Kind = (&'static str, fn(&mut Generator) -> Sample);

const KINDS: [Kind; 8] = [
    ("points", |generator| pair(point(generator))),
    ("near points", |generator| pair(near_point(generator))),
    ("ties", |generator| pair(tie(generator))),
    ("beside ties", |generator| pair(beside_tie(generator))),
    ("any place", |generator| pair(any_place(generator))),
    ("ends", |generator| Some([(); 2].map(|()| end(generator)))),
    ("any size", |generator| {
        Some([(); 2].map(|()| generator.number() & BELOW_TWO))
    }),
    ("lost", |_| None),
];

/// What makes the lines of a capture those of none.
type Fault = (&'static str, fn(&mut Generator, &mut Lines));

const FAULTS: [Fault; 17] = [
    ("no text", |_, lines| lines.clear()),
    ("any text", |generator, lines| {
        let length = generator.below(3000);
        *lines = vec![generator.bytes(length)];
    }),
    ("line less", |generator, lines| {
        lines.remove(place(generator));
    }),
    ("line more", |generator, lines| {
        let at = place(generator);
        lines.insert(at, lines[at].clone());
    }),
    ("empty line", |generator, lines| {
        lines[place(generator)] = b"\n".to_vec();
    }),
    ("no line feed", |generator, lines| {
        lines[place(generator)].pop();
    }),
    ("carriage return", |generator, lines| {
        let at = place(generator);
        let these = generator.pick(&[(at, at + 1), (0, SECTION)]);
        for line in &mut lines[these.0..these.1] {
            line.insert(line.len() - 1, b'\r');
        }
    }),
    ("text behind", |generator, lines| {
        let any = generator.bytes(9);
        let more: [&[u8]; 8] = [b"\n", b"\r\n", b" ", b"\0", b"0", b"LOST", &any, &any[..1]];
        lines.push(generator.pick(&more).to_vec());
    }),
    ("space", |generator, lines| {
        let space = generator.pick(b"  \t");
        let line = &mut lines[place(generator)];
        line.insert(generator.below(line.len()), space);
    }),
    ("another word", |generator, lines| {
        let words: [&[u8]; 9] = [
            b"lost",
            b"Lost",
            b"LOSt",
            b"L0ST",
            b"LOS",
            b"OST",
            b"LOSTT",
            b"LOST\0",
            b"LOST,LOST",
        ];
        let word = generator.pick(&words);
        lines[place(generator)] = [word, b"\n"].concat();
    }),
    ("half lost", |generator, lines| {
        let line = pair_line(generator, lines);
        let half = generator.pick(&[(0, COMMA), (COMMA + 1, line.len() - 1)]);
        line.splice(half.0..half.1, *b"LOST");
    }),
    ("small digit", |generator, lines| {
        let digit = generator.pick(b"abcdef");
        pair_line(generator, lines)[digit_place(generator)] = digit;
    }),
    ("no digit", |generator, lines| {
        let byte = no_digit(generator);
        pair_line(generator, lines)[digit_place(generator)] = byte;
    }),
    ("digit less", |generator, lines| {
        pair_line(generator, lines).remove(digit_place(generator));
    }),
    ("digit more", |generator, lines| {
        let digit = generator.pick(b"0123456789ABCDEF");
        pair_line(generator, lines).insert(digit_place(generator), digit);
    }),
    ("no comma", |generator, lines| {
        let line = pair_line(generator, lines);
        if generator.coin() {
            line.remove(COMMA);
        } else {
            line[COMMA] = generator.pick(b";. \t-0F\0");
        }
    }),
    ("comma more", |generator, lines| {
        let line = &mut lines[place(generator)];
        line.insert(generator.below(line.len()), b',');
    }),
];

/// The bits of a coordinate that is no number from -2 to 2.
type Outside = (&'static str, fn(&mut Generator) -> u64);

const OUTSIDES: [Outside; 3] = [
    ("beyond", |generator| {
        let more = 1 + generator.number() % (INFINITE - TWO - 1);
        signed(generator, &[TWO + 1, TWO + more, INFINITE - 1])
    }),
    ("infinite", |generator| signed(generator, &[INFINITE])),
    ("no number", |generator| {
        let any = 1 + generator.number() % (2 * QUIET - 1);
        let payloads = [1, QUIET - 1, QUIET, QUIET + 1, 2 * QUIET - 1, any, any];
        signed(generator, &payloads.map(|payload| INFINITE + payload))
    }),
];

/// The checks of a call, in order, but for 3: of eight bits every byte is a label.
const CHECKS: &[u64] = &[FORMAT, LENGTH, CAPTURE, COORDINATE];

/// What the calls of a run meet: formats 1 to 32 have no points.
pub const OUTCOMES: &[Outcome] = &outcomes();

const fn outcomes() -> [Outcome; COUNT] {
    let mut outcomes = [Refused(FORMAT); COUNT];
    let mut i = 1;
    while i < COUNT {
        outcomes[i] = outcome(i - 1);
        i += 1;
    }
    outcomes
}

const COUNT: usize = 1 + KINDS.len() + FAULTS.len() + OUTSIDES.len();

/// What kinds meet, and then what is wrong.
const fn outcome(i: usize) -> Outcome {
    if i < KINDS.len() {
        return Judged(KINDS[i].0);
    }
    let i = i - KINDS.len();
    if i < FAULTS.len() {
        return RefusedFor(CAPTURE, FAULTS[i].0);
    }
    RefusedFor(COORDINATE, OUTSIDES[i - FAULTS.len()].0)
}

/// Where a pair's line has its comma.
const COMMA: usize = 16;

/// The bits of 2 and of the infinite number, and the first bit of what is no number
/// and quiet.
const TWO: u64 = 1 << 62;
const INFINITE: u64 = 0x7FF << 52;
const QUIET: u64 = 1 << 51;

/// The bits that numbers between -2 and 2 may have.
const BELOW_TWO: u64 = !TWO;

pub fn judge_call(generator: &mut Generator, _: &AnnexC) -> Compared {
    let plan = Plan::new(generator, CHECKS);
    let fails = CHECKS.iter().map(|&check| plan.fails(generator, check));
    let fails: Vec<bool> = fails.collect();
    let f = waveform::format(generator);
    let format = waveform::format_number(generator, &f, fails[0]);
    let (name, draw) = generator.pick(&KINDS);
    let lost = generator.pick(&[0, 0, 1, 50]);
    let mut samples = samples(generator, draw, lost);
    let mut labels = match fails.contains(&true) {
        true => generator.bytes(SECTION),
        false => labels_read(generator, &samples),
    };
    labels.resize(draw::exact_length(generator, &f, |_| SECTION, fails[1]), 0);
    if fails[3] {
        let (_, outside) = generator.pick(&OUTSIDES);
        put_outside(generator, &mut samples, outside);
    }
    let mut lines = lines(&samples);
    if fails[2] {
        let (_, spoil) = generator.pick(&FAULTS);
        spoil(generator, &mut lines);
    }

    let given = judgement(generator, format, &labels, &lines, name)?;
    let mut met = met(given.number, &f);
    if given.number == PASSED {
        met.outcome = given.first.map_or(Same, |_| Different);
    }
    Ok(met)
}

/// A good capture of each kind, and one with each fault and with each coordinate that
/// is not inside. Most is lost, which is soon read.
pub fn run(generator: &mut Generator, _: &AnnexC, f: &Format) -> Compared<Vec<Met>> {
    let any_labels = generator.bytes(SECTION);
    let few = samples(generator, |generator| pair(point(generator)), 98);
    if !FORMATS.contains(&f.number) {
        let met = named(generator, f, &any_labels, &lines(&few), "points");
        return met.map(|met| vec![met]);
    }
    let mut met = vec![];
    for (name, draw) in KINDS {
        let samples = samples(generator, draw, 75);
        let labels = labels_read(generator, &samples);
        met.push(named(generator, f, &labels, &lines(&samples), name)?);
    }
    for (name, spoil) in FAULTS {
        let mut lines = lines(&few);
        spoil(generator, &mut lines);
        met.push(named(generator, f, &any_labels, &lines, name)?);
    }
    for (name, outside) in OUTSIDES {
        let mut samples = few.clone();
        put_outside(generator, &mut samples, outside);
        met.push(named(generator, f, &any_labels, &lines(&samples), name)?);
    }
    Ok(met)
}

/// A call on both sides, and what it gives.
fn judgement(
    generator: &mut Generator,
    format: u64,
    labels: &[u8],
    lines: &Lines,
    name: &str,
) -> Compared<Judgement> {
    let labels = Lent::new(generator, labels);
    let capture = Lent::new(generator, &lines.concat());
    let expected = judge::judge(format, labels.list(), capture.list());
    let none = expected.number == PASSED && expected.first.is_none();
    let answer = interface::Judgement {
        number: expected.number,
        agreeing: expected.agreeing,
        differing: expected.differing,
        lost: expected.lost,
        none: none.into(),
        first: expected.first.unwrap_or(0),
    };
    let found = interface::judge(format, labels.list(), capture.list());
    let [count, length] = [&labels, &capture].map(|lent| lent.list().len());
    compared(
        format!("format {format}, {count} labels, capture of {length} bytes, {name}"),
        expected,
        [
            equal(found, answer),
            labels.unchanged("the list of labels"),
            capture.unchanged("the capture"),
        ],
    )
}

/// The same in a run: what is met has the name of the kind or of what is wrong.
fn named(
    generator: &mut Generator,
    f: &Format,
    labels: &[u8],
    lines: &Lines,
    name: &'static str,
) -> Compared {
    let given = judgement(generator, f.number, labels, lines, name)?;
    let mut met = met(given.number, f);
    met.outcome = match given.number {
        PASSED => Judged(name),
        CAPTURE | COORDINATE => RefusedFor(given.number, name),
        _ => met.outcome,
    };
    Ok(met)
}

/// Drawn samples, and of a hundred so many lost.
fn samples(
    generator: &mut Generator,
    draw: fn(&mut Generator) -> Sample,
    lost: usize,
) -> Vec<Sample> {
    let sample = |_| match generator.below(100) < lost {
        true => None,
        false => draw(generator),
    };
    (0..SECTION).map(sample).collect()
}

/// The labels that samples are read as, as often as not with changes. So whatever is
/// read wrong is seen.
fn labels_read(generator: &mut Generator, samples: &[Sample]) -> Vec<u8> {
    let label = |sample: &Sample| match sample.map(|bits| bits.map(f64::from_bits)) {
        Some([i, q]) => judge::nearest(Point { I: i, Q: q }),
        None => generator.below(256) as u8,
    };
    let mut labels: Vec<u8> = samples.iter().map(label).collect();
    if generator.coin() {
        draw::change(generator, &mut labels, 8);
    }
    labels
}

fn lines(samples: &[Sample]) -> Lines {
    samples.iter().map(|&sample| line(sample)).collect()
}

fn line(sample: Sample) -> Vec<u8> {
    match sample {
        None => b"LOST\n".to_vec(),
        Some([i, q]) => format!("{i:016X},{q:016X}\n").into_bytes(),
    }
}

fn pair(coordinates: [f64; 2]) -> Sample {
    Some(coordinates.map(f64::to_bits))
}

/// The point of any label.
fn point(generator: &mut Generator) -> [f64; 2] {
    let point = generator.pick(constellation());
    [point.I, point.Q]
}

/// Near it, and now and then nearer to another one.
fn near_point(generator: &mut Generator) -> [f64; 2] {
    let [i, q] = point(generator);
    let noise = any_place(generator).map(|coordinate| 0.05 * coordinate);
    [i + noise[0], q + noise[1]]
}

fn any_place(generator: &mut Generator) -> [f64; 2] {
    [(); 2].map(|()| generator.below(1 << 53) as f64 / 2f64.powi(51) - 2.0)
}

/// The origin, on an axis anywhere or at the foot of a point, or in the middle of two
/// points: so it is nearest to several, but in some middles for rounding.
fn tie(generator: &mut Generator) -> [f64; 2] {
    let [zero, other] = [(); 2].map(|()| generator.pick(&[0.0, -0.0]));
    let [x, y] = any_place(generator);
    let [i, q] = point(generator);
    let middle = generator.pick(middles());
    generator.pick(&[
        [zero, other],
        [x, zero],
        [zero, y],
        [i, zero],
        [zero, q],
        middle,
        middle,
    ])
}

/// The middles of the points that are less than a quarter apart.
fn middles() -> &'static [[f64; 2]] {
    static MIDDLES: OnceLock<Vec<[f64; 2]>> = OnceLock::new();
    MIDDLES.get_or_init(|| {
        let points = constellation();
        let twos = (0..points.len()).flat_map(|i| (0..i).map(move |j| [points[i], points[j]]));
        let near = twos.filter(|[a, b]| (a.I - b.I).hypot(a.Q - b.Q) < 0.25);
        near.map(|[a, b]| [(a.I + b.I) / 2.0, (a.Q + b.Q) / 2.0])
            .collect()
    })
}

/// The same with coordinates that are some floats further on or back.
fn beside_tie(generator: &mut Generator) -> [f64; 2] {
    tie(generator).map(|coordinate| {
        let bits = coordinate.to_bits();
        let by = generator.below(4) as u64;
        let back = coordinate.abs() >= f64::MIN_POSITIVE && generator.coin();
        f64::from_bits(if back { bits - by } else { bits + by })
    })
}

/// The largest coordinate, the one before it, the least ones that are more than 0, 0
/// itself, or any of them negated.
fn end(generator: &mut Generator) -> u64 {
    let normal = f64::MIN_POSITIVE.to_bits();
    signed(generator, &[TWO, TWO, TWO - 1, 0, 1, normal - 1, normal])
}

fn signed(generator: &mut Generator, magnitudes: &[u64]) -> u64 {
    generator.pick(magnitudes) + generator.pick(&[0, 1 << 63])
}

/// Puts a coordinate that is not inside into one sample, or some.
fn put_outside(
    generator: &mut Generator,
    samples: &mut [Sample],
    outside: fn(&mut Generator) -> u64,
) {
    for _ in 0..generator.pick(&[1, 1, 5]) {
        let sample = samples[place(generator)].get_or_insert([0; 2]);
        sample[generator.below(2)] = outside(generator);
    }
}

/// The first place, the last or any.
fn place(generator: &mut Generator) -> usize {
    let any = generator.below(SECTION);
    generator.pick(&[0, SECTION - 1, any, any])
}

/// A line that has a pair.
fn pair_line<'a>(generator: &mut Generator, lines: &'a mut Lines) -> &'a mut Vec<u8> {
    let at = place(generator);
    if lines[at].starts_with(b"LOST") {
        lines[at] = line(pair(point(generator)));
    }
    &mut lines[at]
}

/// Where such a line has a digit.
fn digit_place(generator: &mut Generator) -> usize {
    let at = generator.below(2 * COMMA);
    at + usize::from(at >= COMMA)
}

/// A byte that is no digit, and as often as not nearly one.
fn no_digit(generator: &mut Generator) -> u8 {
    loop {
        let any = generator.below(256) as u8;
        let near = generator.pick(b"/:@Gg`\0\x80\xB0\xFF");
        let byte = generator.pick(&[any, near]);
        if !byte.is_ascii_digit() && !(b'A'..=b'F').contains(&byte) {
            return byte;
        }
    }
}

#[cfg(test)]
mod tests {
    use super::*;

    fn drawn(draw: fn(&mut Generator) -> Sample, generator: &mut Generator) -> Vec<[f64; 2]> {
        let samples = (0..1000).filter_map(|_| draw(generator));
        samples.map(|bits| bits.map(f64::from_bits)).collect()
    }

    /// How many points are nearest to a pair.
    fn nearest(generator: &mut Generator) -> usize {
        let [i, q] = tie(generator);
        let distance = |point: &Point| (i - point.I).powi(2) + (q - point.Q).powi(2);
        let distances: Vec<f64> = constellation().iter().map(distance).collect();
        let least = distances.iter().copied().fold(f64::INFINITY, f64::min);
        distances.iter().filter(|&&d| d - least < 1e-12).count()
    }

    #[test]
    fn good_samples_are_inside() {
        let mut generator = Generator::of_case(1, 1);
        for (name, draw) in KINDS {
            let pairs = drawn(draw, &mut generator);
            assert_eq!(pairs.is_empty(), name == "lost");
            let inside = |pair: &[f64; 2]| pair.iter().all(|c| (-2.0..=2.0).contains(c));
            assert!(pairs.iter().all(inside), "{name}");
        }
        for (name, outside) in OUTSIDES {
            for _ in 0..1000 {
                let coordinate = f64::from_bits(outside(&mut generator));
                assert!(!(-2.0..=2.0).contains(&coordinate), "{name}");
                assert_eq!(coordinate.is_nan(), name == "no number");
                assert_eq!(coordinate.is_infinite(), name == "infinite");
            }
        }
    }

    #[test]
    fn ties_are_nearest_to_several_points() {
        let mut generator = Generator::of_case(1, 1);
        let counts: Vec<usize> = (0..1000).map(|_| nearest(&mut generator)).collect();
        // In the middle of two points there may be a third.
        assert!(counts.iter().filter(|&&count| count > 1).count() > 900);
        assert!(counts.contains(&4));
    }

    #[test]
    fn faults_leave_no_capture() {
        let mut generator = Generator::of_case(1, 1);
        for draw in [
            |_: &mut Generator| None,
            |generator: &mut Generator| pair(point(generator)),
        ] {
            let lines = lines(&samples(&mut generator, draw, 1));
            assert!(judge::samples(&lines.concat()).is_some());
            for (name, spoil) in FAULTS {
                for _ in 0..10 {
                    let mut lines = lines.clone();
                    spoil(&mut generator, &mut lines);
                    assert!(judge::samples(&lines.concat()).is_none(), "{name}");
                }
            }
        }
    }
}
