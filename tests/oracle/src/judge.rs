//! Document 02, L14: what a modulator sent, judged against the labels of one
//! codeword.

use crate::checks::{self, PASSED};
use crate::tables::SECTION;
use crate::waveform::{constellation, Point};

/// The largest coordinate, and negated the smallest one.
const LARGEST: f64 = 2.0;

/// The line of a lost sample.
const LOST: &[u8] = b"LOST";

/// Digits of a coordinate, of four bits each.
const DIGITS: usize = 16;

/// What a capture has for a symbol.
#[derive(Clone, Copy, Debug, PartialEq)]
pub enum Sample {
    Lost,
    Pair(Point),
}

impl Sample {
    /// The sample of a line, its line feed taken off.
    fn read(line: &[u8]) -> Option<Sample> {
        let fields: Vec<&[u8]> = line.split(|&byte| byte == b',').collect();
        match fields[..] {
            [LOST] => Some(Sample::Lost),
            [I, Q] => Some(Sample::Pair(Point {
                I: coordinate(I)?,
                Q: coordinate(Q)?,
            })),
            _ => None,
        }
    }

    /// Its line.
    fn line(&self) -> Vec<u8> {
        match self {
            Sample::Lost => [LOST, b"\n"].concat(),
            Sample::Pair(point) => {
                let [I, Q] = point.bits();
                format!("{I:016X},{Q:016X}\n").into_bytes()
            }
        }
    }

    /// Whether each of its coordinates is a number from -2 to 2. What is no number
    /// is in no range.
    pub fn is_inside(&self) -> bool {
        match self {
            Sample::Lost => true,
            Sample::Pair(Point { I, Q }) => {
                let range = -LARGEST..=LARGEST;
                range.contains(I) && range.contains(Q)
            }
        }
    }
}

/// The float that sixteen digits are the bits of, the heaviest first.
fn coordinate(digits: &[u8]) -> Option<f64> {
    if digits.len() != DIGITS {
        return None;
    }
    let add = |bits, &digit| Some(16 * bits + value(digit)?);
    digits.iter().try_fold(0, add).map(f64::from_bits)
}

fn value(digit: u8) -> Option<u64> {
    match digit {
        b'0'..=b'9' => Some((digit - b'0').into()),
        b'A'..=b'F' => Some((digit - b'A' + 10).into()),
        _ => None,
    }
}

/// The samples of a capture, if it is 8,100 lines, each ended by a line feed.
pub fn samples(capture: &[u8]) -> Option<Vec<Sample>> {
    let lines = capture.strip_suffix(b"\n")?.split(|&byte| byte == b'\n');
    let samples: Vec<Sample> = lines.map(Sample::read).collect::<Option<_>>()?;
    Some(samples).filter(|samples| samples.len() == SECTION)
}

/// The text of samples.
pub fn text(samples: &[Sample]) -> Vec<u8> {
    samples.iter().flat_map(Sample::line).collect()
}

/// The square of the distance of two points, each operation rounded.
fn distance(a: Point, b: Point) -> f64 {
    let [I, Q] = [a.I - b.I, a.Q - b.Q];
    I * I + Q * Q
}

/// The label whose point is nearest, of equal distances the lowest.
pub fn nearest(pair: Point) -> u8 {
    let distances = constellation().iter().map(|&point| distance(pair, point));
    let mut nearest = (0, f64::INFINITY);
    for (label, distance) in (0..=u8::MAX).zip(distances) {
        if distance < nearest.1 {
            nearest = (label, distance);
        }
    }
    nearest.0
}

/// What becomes of a label.
#[derive(Clone, Copy, PartialEq, Eq)]
enum Verdict {
    Agreeing,
    Differing,
    Lost,
}

fn verdict(label: u8, sample: Sample) -> Verdict {
    match sample {
        Sample::Lost => Verdict::Lost,
        Sample::Pair(pair) if nearest(pair) == label => Verdict::Agreeing,
        Sample::Pair(_) => Verdict::Differing,
    }
}

/// What a judgement gives; in a refusal nothing.
#[derive(Clone, Copy, Debug, PartialEq, Eq)]
pub struct Judgement {
    pub number: u64,
    pub agreeing: u64,
    pub differing: u64,
    pub lost: u64,
    /// The first place that differs, if one does.
    pub first: Option<u64>,
}

/// The judgement of a capture.
pub fn judge(format: u64, labels: &[u8], capture: &[u8]) -> Judgement {
    let number = checks::judge(format, labels, capture);
    let samples = samples(capture).filter(|_| number == PASSED);
    let verdicts: Vec<Verdict> = (labels.iter().zip(samples.unwrap_or_default()))
        .map(|(&label, sample)| verdict(label, sample))
        .collect();
    let count = |which| verdicts.iter().filter(|&&each| each == which).count() as u64;
    let first = (verdicts.iter()).position(|&each| each == Verdict::Differing);
    Judgement {
        number,
        agreeing: count(Verdict::Agreeing),
        differing: count(Verdict::Differing),
        lost: count(Verdict::Lost),
        first: first.map(|place| place as u64),
    }
}

#[cfg(test)]
mod tests {
    use super::*;
    use crate::checks::{CAPTURE, COORDINATE, FORMAT, LENGTH};

    const ONE_MINUS_TWO: &[u8] = b"3FF0000000000000,C000000000000000";

    fn pair(I: f64, Q: f64) -> Sample {
        Sample::Pair(Point { I, Q })
    }

    /// The bits of a line's coordinates; none of a lost sample.
    fn bits(line: &[u8]) -> Option<[u64; 2]> {
        match Sample::read(line)? {
            Sample::Pair(point) => Some(point.bits()),
            Sample::Lost => None,
        }
    }

    /// The points of labels.
    fn sent(labels: &[u8]) -> Vec<Sample> {
        let point = |&label: &u8| Sample::Pair(constellation()[usize::from(label)]);
        labels.iter().map(point).collect()
    }

    fn is_digit(byte: u8) -> bool {
        b"0123456789ABCDEF".contains(&byte)
    }

    /// IEEE 754's formats.
    #[test]
    fn lines_by_hand() {
        assert_eq!(Sample::read(b"LOST"), Some(Sample::Lost));
        assert_eq!(Sample::read(ONE_MINUS_TWO), Some(pair(1.0, -2.0)));
        for (line, due) in [
            (&b"0000000000000000,8000000000000000"[..], [0.0, -0.0]),
            (
                b"0000000000000001,3FF0000000000001",
                [5e-324, 1.0 + f64::EPSILON],
            ),
            (
                b"7FEFFFFFFFFFFFFF,FFF0000000000000",
                [f64::MAX, f64::NEG_INFINITY],
            ),
            (
                b"4005BF0A8B145769,400921FB54442D18",
                [std::f64::consts::E, std::f64::consts::PI],
            ),
        ] {
            assert_eq!(bits(line), Some(due.map(f64::to_bits)));
        }
        let digits = Some([0x0123_4567_89AB_CDEF, 0xFEDC_BA98_7654_3210]);
        assert_eq!(bits(b"0123456789ABCDEF,FEDCBA9876543210"), digits);
        assert_eq!(Sample::Lost.line(), b"LOST\n");
        assert_eq!(pair(1.0, -2.0).line(), [ONE_MINUS_TWO, b"\n"].concat());
    }

    /// With any byte for each of theirs, with any more, and with one less.
    #[test]
    fn lines_with_another_byte() {
        for line in [b"LOST", ONE_MINUS_TWO] {
            for at in 0..line.len() {
                for byte in 0..=u8::MAX {
                    let other = [&line[..at], &[byte], &line[at + 1..]].concat();
                    let good = byte == line[at] || is_digit(byte) && is_digit(line[at]);
                    assert_eq!(Sample::read(&other).is_some(), good, "{other:?}");
                }
                let less = [&line[..at], &line[at + 1..]].concat();
                assert_eq!(Sample::read(&less), None, "{less:?}");
                assert_eq!(Sample::read(&line[..at]), None);
            }
            for at in 0..=line.len() {
                for byte in 0..=u8::MAX {
                    let more = [&line[..at], &[byte], &line[at..]].concat();
                    assert_eq!(Sample::read(&more), None, "{more:?}");
                }
            }
        }
    }

    #[test]
    fn no_other_line_is_a_sample() {
        for line in [
            "lost",
            "Lost",
            "LOST,",
            ",LOST",
            "LOST,LOST",
            "LOST,0000000000000000",
            "0000000000000000,LOST",
            "0000000000000000",
            "0000000000000000,",
            ",",
            "1.0,-2.0",
            "3ff0000000000000,c000000000000000",
            "3FF00000000000,C0000000000000",
            "0x3FF00000000000,0xC0000000000000",
            "+3FF000000000000,-C00000000000000",
            "3FF0000000000000, C000000000000000",
            "3FF0000000000000;C000000000000000",
            "3FF0000000000000,C000000000000000,0000000000000000",
            "3FF000000000000000,C00000000000000",
            "10000000000000000,10000000000000000",
            "FFFFFFFFFFFFFFFFF,FFFFFFFFFFFFFFFFF",
            "\u{FF13}FF0000000000000,C000000000000000",
        ] {
            assert_eq!(Sample::read(line.as_bytes()), None, "{line:?}");
        }
    }

    #[test]
    fn a_capture_is_8100_lines_and_nothing_else() {
        let line: &[u8] = &[ONE_MINUS_TWO, b"\n"].concat();
        for line in [b"LOST\n", line] {
            let whole = line.repeat(8100);
            let all = [Sample::read(&line[..line.len() - 1]).unwrap(); 8100];
            assert_eq!(samples(&whole), Some(all.to_vec()));
            assert_eq!(text(&all), whole);
            for end in [0, 1, whole.len() - line.len(), whole.len() - 1] {
                assert_eq!(samples(&whole[..end]), None, "{end}");
            }
            for more in [line, b"\n", b"\r\n", b"\0", b" ", b"LOST", b"\xFF"] {
                assert_eq!(samples(&[&whole, more].concat()), None, "{more:?}");
                assert_eq!(samples(&[more, &whole].concat()), None, "{more:?}");
            }
            for place in [0, 1, 4000, 8099] {
                let (before, behind) = whole.split_at(place * line.len());
                let behind = &behind[line.len()..];
                let with = |other: &[u8]| samples(&[before, other, behind].concat());
                for other in [&b""[..], b"\n", b"LOST", b"LOST\r\n", b"LOST \n", b"lost\n"] {
                    assert_eq!(with(other), None, "{other:?} at {place}");
                }
                for other in [&b"LOST\nLOST\n"[..], b"LOST\n\n", b"\nLOST\n", b"\0\n"] {
                    assert_eq!(with(other), None, "{other:?} at {place}");
                }
                let mut due = all.to_vec();
                due[place] = pair(0.0, -0.0);
                let other = b"0000000000000000,8000000000000000\n";
                assert_eq!(with(other), Some(due));
            }
        }
    }

    /// The ends of the range, their neighbours on either side, numbers near 0, and
    /// what is no number: quiet and signalling, of either sign.
    #[test]
    fn coordinates_from_minus_2_to_2_are_inside() {
        let inside = [
            "0000000000000000",
            "0000000000000001",
            "000FFFFFFFFFFFFF",
            "0010000000000000",
            "3FFFFFFFFFFFFFFF",
            "4000000000000000",
        ];
        let outside = [
            "4000000000000001",
            "4008000000000000",
            "7FEFFFFFFFFFFFFF",
            "7FF0000000000000",
            "7FF0000000000001",
            "7FF7FFFFFFFFFFFF",
            "7FF8000000000000",
            "7FFFFFFFFFFFFFFF",
        ];
        let good = [ONE_MINUS_TWO, b"\n"].concat();
        let (I, Q) = (&good[..16], &good[17..33]);
        for (list, due) in [(&inside[..], true), (&outside, false)] {
            for digits in list {
                // The heaviest digit with its first bit set: the number negated.
                let heavy = value(digits.as_bytes()[0]).unwrap() + 8;
                let negated = format!("{heavy:X}{}", &digits[1..]);
                for other in [digits.as_bytes(), negated.as_bytes()] {
                    for line in [[other, b",", Q].concat(), [I, b",", other].concat()] {
                        let sample = Sample::read(&line).unwrap();
                        assert_eq!(sample.is_inside(), due, "{}", line.escape_ascii());
                    }
                }
            }
        }
        assert!(Sample::Lost.is_inside());
    }

    #[test]
    fn labels_agree_differ_and_are_lost() {
        let labels: Vec<u8> = (0..8100).map(|place| (place % 256) as u8).collect();
        let good = sent(&labels);
        let judged = |changed: &[(usize, Sample)]| {
            let mut samples = good.clone();
            changed
                .iter()
                .for_each(|&(place, sample)| samples[place] = sample);
            let given = judge(37, &labels, &text(&samples));
            assert_eq!(given.number, PASSED);
            ([given.agreeing, given.differing, given.lost], given.first)
        };
        // Label 9's point, which no label of these places has.
        let other = pair(-0.4581, 0.6542);
        let lost = Sample::Lost;
        assert_eq!(judged(&[]), ([8100, 0, 0], None));
        assert_eq!(judged(&[(0, lost)]), ([8099, 0, 1], None));
        assert_eq!(judged(&[(0, other)]), ([8099, 1, 0], Some(0)));
        assert_eq!(judged(&[(8099, other)]), ([8099, 1, 0], Some(8099)));
        assert_eq!(
            judged(&[(0, lost), (8099, other)]),
            ([8098, 1, 1], Some(8099))
        );
        assert_eq!(
            judged(&[(5000, other), (100, other), (99, lost)]),
            ([8097, 2, 1], Some(100))
        );
        let all: Vec<(usize, Sample)> = (0..8100).map(|place| (place, lost)).collect();
        assert_eq!(judged(&all), ([0, 0, 8100], None));
    }

    #[test]
    fn a_refusal_has_no_counts() {
        let labels = [0; 8100];
        let capture = text(&sent(&labels));
        let far = text(&[pair(2.0, 2.5); 8100]);
        for (given, number) in [
            (judge(32, &labels, &capture), FORMAT),
            (judge(33, &labels[1..], &capture), LENGTH),
            (judge(33, &labels, &capture[1..]), CAPTURE),
            (judge(33, &labels, &far), COORDINATE),
        ] {
            let due = Judgement {
                number,
                agreeing: 0,
                differing: 0,
                lost: 0,
                first: None,
            };
            assert_eq!(given, due);
        }
    }
}
