//! The oracle held against numbers from outside: what the standard and document
//! 01 print, and what they say must hold.

mod extension;
mod judge;
mod waveform;

use crate::annex_c::{AnnexC, Interleaver};
use crate::annex_d;
use crate::digest::{seeded_block, vector_blocks};
use crate::encoder::{self, PERIOD};
use crate::framing;
use crate::segments::{self, equal_cuts, MOST_CUTS};
use crate::shared::Memory;
use crate::tables::{self, Format, M, SECTION};
use crate::transfer;
use crate::trellis::{self, run, terminating_bits, ZERO};

/// The formats of table 4-3; those of document 004 follow.
const OLD_FORMATS: usize = 27;

/// One line for each check.
#[derive(Default)]
pub struct Report {
    pub text: String,
    pub failed: bool,
}

impl Report {
    fn line(&mut self, what: &str, failing: &[String]) {
        let line = if failing.is_empty() {
            format!("ok: {what}\n")
        } else {
            format!("FAILED: {what}: {}\n", failing.join(", "))
        };
        self.text.push_str(&line);
        self.failed |= !failing.is_empty();
    }

    fn check(&mut self, what: &str, holds: bool) {
        let failing = if holds { vec![] } else { vec!["no".into()] };
        self.line(what, &failing);
    }

    /// A check made of some formats; a failure names the formats.
    fn formats(&mut self, what: &str, formats: &[Format], holds: impl Fn(&Format) -> bool) {
        let failing: Vec<String> = formats
            .iter()
            .filter(|f| !holds(f))
            .map(|f| format!("format {}", f.number))
            .collect();
        let what = format!("{what}, each of {} formats", formats.len());
        self.line(&what, &failing);
    }

    /// A check made of every format.
    fn each_format(&mut self, what: &str, holds: impl Fn(&Format) -> bool) {
        self.formats(what, tables::formats(), holds);
    }

    /// A check made of the formats of document 004.
    fn each_new_format(&mut self, what: &str, holds: impl Fn(&Format) -> bool) {
        self.formats(what, &tables::formats()[OLD_FORMATS..], holds);
    }

    /// A check made of some sizes of annex C; a failure names the sizes.
    fn each_size(
        &mut self,
        what: &str,
        sizes: &[&Interleaver],
        holds: impl Fn(&Interleaver) -> bool,
    ) {
        let failing: Vec<String> = sizes
            .iter()
            .filter(|size| !holds(size))
            .map(|size| format!("size {}", size.I))
            .collect();
        self.line(&format!("{what}, each of {} sizes", sizes.len()), &failing);
    }
}

/// Every check there is.
pub fn self_check(annex_c: &AnnexC) -> Report {
    let mut report = Report::default();
    table_4_2(&mut report);
    format_tables(&mut report);
    extension::tables(&mut report);
    trellis_readings(&mut report);
    extension::generator(&mut report);
    extension::bch_codewords(&mut report);
    randomizer(&mut report);
    header(&mut report);
    extension::descriptors(&mut report);
    pilots(&mut report);
    waveform::table(&mut report);
    waveform::rings(&mut report);
    waveform::circumferences(&mut report);
    waveform::subsets(&mut report);
    waveform::sequences(&mut report);
    waveform::turns(&mut report);
    judge::readings(&mut report);
    judge::rounding(&mut report);
    judge::ties(&mut report);
    annex_c_tables(&mut report, annex_c);
    if report.failed {
        // Broken tables may send the stages below to positions that are not there.
        return report;
    }
    spread(&mut report, annex_c);
    kept_bits(&mut report, annex_c);
    seeded_blocks(&mut report, annex_c);
    extension::codewords(&mut report, annex_c);
    starting_states(&mut report, annex_c);
    shared_memory(&mut report, annex_c);
    report
}

/// Table 4-2 against what document 01 says of it.
fn table_4_2(report: &mut Report) {
    let table = tables::table_4_2();
    let mut positions: Vec<usize> = table.iter().map(|entry| entry.position).collect();
    positions.sort();
    positions.dedup();
    report.check(
        "table 4-2 has 100 positions, all different, all below 300",
        table.len() == 100 && positions.len() == 100 && positions.iter().all(|&p| p < PERIOD),
    );
    let numbered = |i: usize| table[i].index == i + 1 && table[i].S_sur + i + 1 == PERIOD;
    report.check(
        "table 4-2: the index runs from 1 to 100 and S_sur is 300 less the index",
        (0..100).all(numbered),
    );
    // A half added to 200 / S_sur in ten-thousandths, then the whole part.
    let rate = |S_sur: usize| (2 * 2_000_000 + S_sur) / (2 * S_sur);
    report.check(
        "table 4-2: each printed rate is 200 / S_sur to four decimals, a half rounded up",
        table.iter().all(|entry| entry.rate == rate(entry.S_sur)),
    );
}

/// The formats with the soft share against the equations of 4.1, 4.4, document 01
/// and document 02, L7 and L8.
fn format_tables(report: &mut Report) {
    let numbered = |(i, f): (usize, &Format)| f.number == i as u64 + 1;
    report.check(
        "table 4-3 has the formats 1 to 27, and document 004 has 28 to 37",
        tables::formats().len() == 37 && tables::formats().iter().enumerate().all(numbered),
    );
    report.each_format("K = K1 + K2", |f| f.K == f.K1 + f.K2);
    report.each_format("2 I = 3 (K1 + 2)", |f| 2 * f.I == 3 * (f.K1 + 2));
    report.each_format("I = 120 W", |f| f.I == M * f.W());
    report.each_format("N = 8100 m", |f| f.N == SECTION * f.m);
    report.each_format("S + P = 8100 soft", |f| f.S + f.P == SECTION * f.soft);
    report.each_format("Delta = I - (P - 2)", |f| f.Delta == f.I - (f.P - 2));
}

/// Document 01's readings that are marked with a diamond: what is read, and
/// whether it is so.
pub fn readings() -> Vec<(&'static str, bool)> {
    let reads = |x, u, c, next| trellis::output(x, u) == c && trellis::next(x, u) == next;
    let three = run(ZERO, &[1, 1, 1]);
    let closes = |x, first: [u8; 2], second: [u8; 2]| {
        let end = run(x, &terminating_bits(x));
        end.systematic == [first[0], second[0]]
            && end.parity == [first[1], second[1]]
            && end.end == ZERO
    };
    let zeros = |S_sur| -> Vec<usize> {
        let elements = encoder::pattern(S_sur);
        (0..PERIOD).filter(|&j| elements[j] == 0).collect()
    };
    vec![
        ("state 00, bit 1", reads([0, 0], 1, [1, 1], [0, 1])),
        ("state 01, bit 0", reads([0, 1], 0, [0, 1], [1, 1])),
        ("state 11, bit 0", reads([1, 1], 0, [0, 1], [1, 0])),
        ("state 10, bit 0", reads([1, 0], 0, [0, 0], [0, 1])),
        (
            "from 00: bits 1, 1, 1",
            three.systematic == [1, 1, 1] && three.parity == [1, 0, 1] && three.end == ZERO,
        ),
        ("closing from 01", closes([0, 1], [1, 0], [1, 1])),
        ("closing from 11", closes([1, 1], [0, 1], [1, 1])),
        ("closing from 10", closes([1, 0], [1, 1], [0, 0])),
        ("pattern, S = 299", zeros(299) == [76]),
        ("pattern, S = 298", zeros(298) == [1, 76]),
    ]
}

fn trellis_readings(report: &mut Report) {
    for (what, holds) in readings() {
        report.check(&format!("document 01's reading: {what}"), holds);
    }
}

/// Whether the values are 0 to one less than their number, each once.
fn permutes(values: impl Iterator<Item = usize>) -> bool {
    let mut sorted: Vec<usize> = values.collect();
    sorted.sort();
    sorted.iter().enumerate().all(|(i, &value)| i == value)
}

/// Annex C against what it says of its own numbers.
fn annex_c_tables(report: &mut Report, annex_c: &AnnexC) {
    let sizes: Vec<&Interleaver> = annex_c.interleavers.iter().collect();
    let rows: usize = sizes.iter().map(|size| size.alpha.len()).sum();
    report.check(
        "annex C has 19 sizes and 5367 rows",
        sizes.len() == 19 && rows == 5367,
    );
    let heads: Vec<(usize, usize)> = annex_d::heads().iter().map(|h| (h.I, h.W)).collect();
    report.check(
        "annex C: the heads of its tables print these sizes, with their W",
        heads
            == sizes
                .iter()
                .map(|size| (size.I, size.W))
                .collect::<Vec<_>>(),
    );
    report.each_size("annex C: the size is 120 W", &sizes, |size| {
        size.I == M * size.W
    });
    report.each_size("annex C: alpha has 0 to W - 1, each once", &sizes, |size| {
        permutes(size.alpha.iter().copied())
    });
    report.each_size("annex C: beta is below 120", &sizes, |size| {
        size.beta.iter().all(|&beta| beta < M)
    });
    report.each_size("annex C: pi has 0 to I - 1, each once", &sizes, |size| {
        permutes(size.permutation().iter().map(|position| position.0))
    });
}

/// Annex D's rule with the S that the table heads print: above S, for every
/// size; and S + 1 is reached.
fn spread(report: &mut Report, annex_c: &AnnexC) {
    let heads = annex_d::heads();
    report.check(
        "annex D: S1 = S2 in each of 19 table heads",
        heads.iter().all(|head| head.S1 == head.S2),
    );
    let S_of = |size: &Interleaver| {
        let head = heads.iter().find(|head| head.I == size.I);
        head.expect("a head for every size").S1
    };
    let (with_stand_ins, complete): (Vec<&Interleaver>, Vec<&Interleaver>) =
        (annex_c.interleavers.iter()).partition(|size| size.has_stand_in_rows());
    report.each_size(
        "annex D: the smallest |i - j| + |pi(i) - pi(j)| is S + 1, no stand-in rows",
        &complete,
        |size| annex_d::smallest_spread(size) == S_of(size) + 1,
    );
    for size in with_stand_ins {
        let S = S_of(size);
        let all = annex_d::smallest_spread(size);
        let printed = annex_d::smallest_printed_spread(size);
        let rows = size.stand_in.iter().filter(|&&row| row).count();
        let what = format!(
            "annex D, size {}, S = {S}: the smallest sum is above S, {all} with its {rows} stand-in rows and {printed} without them",
            size.I
        );
        report.check(&what, all > S && printed > S);
    }
}

/// 4.4: the bits that puncturing leaves, against S and P of table 4-3.
fn kept_bits(report: &mut Report, annex_c: &AnnexC) {
    let count = |kept: Vec<bool>| kept.iter().filter(|&&kept| kept).count();
    report.each_format("puncturing keeps S bits of the upper register", |f| {
        count(encoder::upper_kept(f, annex_c.of_size(f.I))) == f.S
    });
    report.each_format("rate matching keeps P bits of the lower register", |f| {
        count(encoder::lower_kept(f)) == f.P
    });
}

/// Termination and linearity on the seeded blocks.
fn seeded_blocks(report: &mut Report, annex_c: &AnnexC) {
    let seeded = |f: &Format| -> Vec<Vec<u8>> {
        let named = vector_blocks(f).into_iter();
        named
            .filter(|(name, _)| name.starts_with('s'))
            .map(|(_, block)| block)
            .collect()
    };
    let ends_at_zero = |f: &Format, block: &[u8]| {
        let (soft, _) = encoder::apportioned(f, block);
        let outer = encoder::outer(soft);
        let kept = encoder::outer_kept(&outer);
        let inner = encoder::inner(&encoder::interleave(annex_c.of_size(f.I), &kept));
        let lengths = kept.len() == f.I && inner.systematic.len() == f.I + 2;
        outer.end == ZERO && inner.end == ZERO && lengths
    };
    report.each_format("both trellises end in 00 on three seeded blocks", |f| {
        seeded(f).iter().all(|block| ends_at_zero(f, block))
    });
    let encode =
        |f: &Format, block: &[u8]| encoder::encode(f, annex_c.of_size(f.I), block).codeword;
    report.each_format(
        "a seeded block's codeword has N bits, and its labels are below 2^m",
        |f| {
            let codeword = encode(f, &seeded(f)[0]);
            let labels = encoder::labels(f, &codeword);
            codeword.len() == f.N
                && labels.len() == SECTION
                && labels.iter().all(|&l| usize::from(l) >> f.m == 0)
        },
    );
    report.each_format("the codeword of a sum is the sum of the codewords", |f| {
        let blocks = seeded(f);
        let (a, b) = (&blocks[0], &blocks[1]);
        encode(f, &framing::sum(a, b)) == framing::sum(&encode(f, a), &encode(f, b))
    });
}

/// Lists of cuts of so many bits: equal segments, and empty and short ones at
/// both ends and between.
fn cut_lists(length: usize) -> Vec<Vec<u16>> {
    let last = length as u16;
    let half = last / 2;
    let most = MOST_CUTS as u16;
    let mut lists: Vec<Vec<u16>> = (1..=MOST_CUTS + 1).map(|n| equal_cuts(length, n)).collect();
    lists.extend([
        vec![0; MOST_CUTS],
        vec![last; MOST_CUTS],
        (1..=most).collect(),
        (0..most).map(|j| last - most + j).collect(),
        vec![0, 1, 1, 3, half, half, half + 2, last - 1, last],
    ]);
    lists
}

/// Section 6's way to the starting states, against those of the plain run.
fn starting_states(report: &mut Report, annex_c: &AnnexC) {
    let agrees = |u: &[u8], cuts: &[u16]| {
        let found = segments::states(u, cuts);
        let bounds = segments::bounds(u.len(), cuts);
        let end = run(ZERO, u).end;
        segments::propagated(&bounds, &found.ended) == [found.started, vec![end]].concat()
    };
    let what = "6-6, 6-7: the starting states from the ends are the plain run's, both trellises";
    report.each_format(what, |f| {
        let block = seeded_block(1000 + f.number, f.K);
        let inputs = segments::inputs(f, annex_c.of_size(f.I), &block);
        (inputs.iter()).all(|u| cut_lists(u.len()).iter().all(|cuts| agrees(u, cuts)))
    });
}

/// Document 02, L10: through calls of two channels, one going up the formats and
/// the other down, each call reads by the entries held what the inner encoder
/// reads in the plain encoder.
fn shared_memory(report: &mut Report, annex_c: &AnnexC) {
    let mut memory = Memory::fresh();
    let up = tables::formats().iter();
    let calls = up.clone().zip(up.rev()).flat_map(|(a, b)| [a, b]);
    let failing: Vec<String> = calls
        .filter(|f| {
            let block = seeded_block(1000 + f.number, f.K);
            let kept = memory.encode(annex_c, f, &block).workspace;
            let entries = &memory.entries[..memory.held as usize];
            let read = entries.iter().map(|&entry| kept[usize::from(entry)]);
            let [_, due] = segments::inputs(f, annex_c.of_size(f.I), &block);
            !read.eq(due)
        })
        .map(|f| format!("format {}", f.number))
        .collect();
    report.line(
        "document 02, L10: two channels read through one memory what the inner encoder reads, each of 74 calls",
        &failing,
    );
}

/// 3.2 against the bits that the standard prints.
fn randomizer(report: &mut Report) {
    let sequence = transfer::sequence();
    report.check(
        "3.2: the randomizer's sequence starts with the 40 printed bits",
        sequence.starts_with(&framing::digits(transfer::PRINTED_SEQUENCE)),
    );
    report.check(
        "3.2: the sequence repeats after 255 bits, to the end of the longest transfer frame",
        sequence[transfer::PERIOD..] == sequence[..sequence.len() - transfer::PERIOD],
    );
}

/// 5.1 and 5.2 against the digits that the standard prints.
fn header(report: &mut Report) {
    let marker = framing::marker();
    let printed = framing::digits(framing::PRINTED_MARKER);
    report.check(
        "5.1: the frame marker has 256 bits and starts with the 40 printed ones",
        marker.len() == framing::MARKER && marker.starts_with(&printed),
    );
    report.check(
        "5.1: of all register contents and both directions of g1 and g2, one choice gives the 40 printed bits",
        register_choices(&printed) == 1,
    );
    let old = &tables::formats()[..OLD_FORMATS];
    report.check(
        "5.2.1: two frame descriptors of formats 1 to 27 differ in 32 bits at least, and some in just 32",
        smallest_distance(&descriptors(old)) == 32,
    );
    let whole = framing::bits_64(framing::SCRAMBLING);
    let without = |place: usize| [&whole[..place], &whole[place + 1..]].concat();
    let printed = framing::digits(framing::PRINTED_SCRAMBLING);
    report.check(
        "5.2.1: the scrambling sequence less one digit is the 63 printed digits",
        (0..whole.len()).any(|place| without(place) == printed),
    );
}

/// 5.3 and table 5-2 against what they print, and table 5-1's b6 against the
/// matrix.
fn pilots(report: &mut Report) {
    let numbers = [
        SECTION,
        framing::SECTIONS,
        framing::SUBSECTIONS,
        framing::SUBSECTION_DATA,
        framing::SUBSECTION_PILOTS,
        framing::SECTION_PILOTS,
        framing::PILOT_SECTION,
    ];
    let printed = framing::TABLE_5_2.lines().map(|line| {
        let words: Vec<&str> = line.split(' ').collect();
        words[words.len() - 2].parse()
    });
    report.check(
        "table 5-2: its seven numbers, of which the section's 240 pilots and 8340 symbols come from the others",
        printed.eq(numbers.map(Ok)),
    );
    report.check(
        "table 5-2: 15 sub-sections of 540 data symbols are a codeword section",
        framing::SUBSECTIONS * framing::SUBSECTION_DATA == SECTION,
    );
    let [off, on] = [framing::FRAME_SLOTS, framing::PILOT_FRAME_SLOTS];
    report.check(
        "5.3: pilots make a frame of 133760 slots out of one of 129920, around three percent more",
        [off, on] == [129_920, 133_760] && (200 * (on - off) + off) / (2 * off) == 3,
    );
    report.each_format(
        "table 5-1: b6 turns every bit of the frame descriptor over",
        |f| {
            let both = framing::sum(&framing::descriptor(f, 0), &framing::descriptor(f, 1));
            both == [1; framing::DESCRIPTOR]
        },
    );
}

/// The frame descriptors of some formats, pilots off and on.
fn descriptors(formats: &[Format]) -> Vec<Vec<u8>> {
    (formats.iter())
        .flat_map(|f| [framing::descriptor(f, 0), framing::descriptor(f, 1)])
        .collect()
}

/// How many choices of register contents, and of a direction for each
/// polynomial, give these marker bits.
fn register_choices(printed: &[u8]) -> usize {
    let backwards =
        |taps: &[usize]| -> Vec<usize> { taps.iter().map(|&tap| (8 - tap) % 8).collect() };
    let starts: Vec<[u8; 8]> = (0..=u8::MAX)
        .map(|number| std::array::from_fn(|cell| number >> cell & 1))
        .collect();
    let sequences = |taps: &[usize]| -> Vec<Vec<u8>> {
        (starts.iter())
            .map(|&start| framing::shift_register(taps, start, printed.len()))
            .collect()
    };
    let mut choices = 0;
    for taps_1 in [framing::G1.to_vec(), backwards(&framing::G1)] {
        for taps_2 in [framing::G2.to_vec(), backwards(&framing::G2)] {
            let second = sequences(&taps_2);
            for first in sequences(&taps_1) {
                let rest = framing::sum(&first, printed);
                choices += second.iter().filter(|&second| *second == rest).count();
            }
        }
    }
    choices
}

/// The smallest number of places in which two words of a list differ.
fn smallest_distance(words: &[Vec<u8>]) -> usize {
    let distance = |a: &[u8], b: &[u8]| a.iter().zip(b).filter(|(a, b)| a != b).count();
    (0..words.len())
        .flat_map(|i| (0..i).map(move |j| (i, j)))
        .map(|(i, j)| distance(&words[i], &words[j]))
        .min()
        .unwrap_or(0)
}

#[cfg(test)]
mod tests {
    use super::*;

    #[test]
    fn document_01s_diamond_rows() {
        assert_eq!(readings().len(), 10);
        for (what, holds) in readings() {
            assert!(holds, "{what}");
        }
    }

    #[test]
    fn tables_and_printed_bits() {
        let mut report = Report::default();
        table_4_2(&mut report);
        format_tables(&mut report);
        randomizer(&mut report);
        header(&mut report);
        pilots(&mut report);
        assert!(!report.failed, "{}", report.text);
    }
}
