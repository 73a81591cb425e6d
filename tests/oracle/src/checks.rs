//! The checks of each call and their numbers (document 01: questions at the
//! door; document 02 for the calls since). Each function gives the number of the
//! first check that fails, 0 if none does.

use crate::annex_c::{AnnexC, Interleaver};
use crate::framing::{frame_slots, FRAME_LABELS, SECTIONS};
use crate::job_line::{Line, LAST_CODE, OF_OLD};
use crate::judge;
use crate::segments::MOST_CUTS;
use crate::slicer::{Slicer, MEMORY as WAITING_MEMORY};
use crate::tables::{self, SECTION};
use crate::transfer::{LEAST_OCTETS, MOST_OCTETS};
use crate::waveform;

pub const PASSED: u64 = 0;
/// The format is not 1 to 37, or of the waveform's calls and a judgement not 33 to 37.
pub const FORMAT: u64 = 1;
/// An input list is not exactly as long as the call takes, or more bits are
/// said to wait than a slicer's memory holds.
pub const LENGTH: u64 = 2;
/// An input element is not legal, or an entry of a memory not its position's.
pub const ELEMENT: u64 = 3;
/// The workspace, or a slicer's memory, is too short.
pub const WORKSPACE: u64 = 4;
/// The output is too short.
pub const OUTPUT: u64 = 5;
/// The job line is not well formed, or of the other form in a move.
pub const JOB_LINE: u64 = 6;
/// The pattern is not 0, 1 or 2.
pub const PATTERN: u64 = 7;
/// The position or place asked for is not inside.
pub const POSITION: u64 = 8;
/// The transfer frame does not have 223 to 65,536 octets.
pub const FRAME_LENGTH: u64 = 9;
/// The transfer frame is not as long as the channel's first.
pub const CHANNEL_LENGTH: u64 = 10;
/// K or more bits still wait.
pub const BLOCK_WAITS: u64 = 11;
/// A list has more than fifteen cuts.
pub const CUT_COUNT: u64 = 12;
/// A cut falls, or lies beyond the input.
pub const CUT_PLACE: u64 = 13;
/// The pilot choice is not 0 or 1.
pub const PILOTS: u64 = 14;
/// The interleaver's memory is too short.
pub const MEMORY: u64 = 15;
/// The code number is above 262,142.
pub const CODE: u64 = 16;
/// The line cannot go back.
pub const NO_WAY_BACK: u64 = 17;
/// The capture has not exactly 8,100 lines of its shape.
pub const CAPTURE: u64 = 18;
/// A coordinate is not a number from -2 to 2.
pub const COORDINATE: u64 = 19;

/// The number of the first check that does not hold.
fn first_failed(checks: &[(u64, bool)]) -> u64 {
    let failed = checks.iter().find(|(_, holds)| !holds);
    failed.map_or(PASSED, |&(number, _)| number)
}

fn all_bits(list: &[u8]) -> bool {
    list.iter().all(|&bit| bit <= 1)
}

fn all_labels(list: &[u8], m: usize) -> bool {
    list.iter().all(|&label| u64::from(label) < 1 << m)
}

/// Encoding a block.
pub fn encode(format: u64, block: &[u8], work_len: usize, out_len: usize) -> u64 {
    let Some(f) = tables::format(format) else {
        return FORMAT;
    };
    first_failed(&[
        (LENGTH, block.len() == f.K),
        (ELEMENT, all_bits(block)),
        (WORKSPACE, work_len >= f.I),
        (OUTPUT, out_len >= f.N),
    ])
}

/// Encoding a block by segments: what encoding asks, and then of both lists of
/// cuts how many there are, and where.
pub fn encode_segments(
    format: u64,
    block: &[u8],
    work_len: usize,
    out_len: usize,
    [outer, inner]: [&[u16]; 2],
) -> u64 {
    let Some(f) = tables::format(format) else {
        return FORMAT;
    };
    let number = encode(format, block, work_len, out_len);
    let few = few_cuts(outer) && few_cuts(inner);
    let inside = cuts_inside(outer, f.K1) && cuts_inside(inner, f.I);
    first_failed(&[
        (number, number == PASSED),
        (CUT_COUNT, few),
        (CUT_PLACE, inside),
    ])
}

pub fn few_cuts(cuts: &[u16]) -> bool {
    cuts.len() <= MOST_CUTS
}

/// Whether no cut falls, and none lies beyond so many bits.
pub fn cuts_inside(cuts: &[u16], length: usize) -> bool {
    let rise = cuts.windows(2).all(|pair| pair[0] <= pair[1]);
    rise && cuts.iter().all(|&cut| usize::from(cut) <= length)
}

/// Encoding a block through the interleaver in a memory: what encoding asks, then
/// of the memory how long it is and, where its mark is the call's size, whether
/// it is right.
pub fn encode_shared(
    annex_c: &AnnexC,
    format: u64,
    block: &[u8],
    work_len: usize,
    out_len: usize,
    memory: &[u16],
    held: u64,
) -> u64 {
    let Some(f) = tables::format(format) else {
        return FORMAT;
    };
    let number = encode(format, block, work_len, out_len);
    let right = held != f.I as u64 || entries_right(annex_c.of_size(f.I), memory);
    first_failed(&[
        (number, number == PASSED),
        (MEMORY, memory.len() >= f.I),
        (ELEMENT, right),
    ])
}

/// Whether each of the first I entries, as far as they are there, is its place's
/// interleaved position.
fn entries_right(interleaver: &Interleaver, memory: &[u16]) -> bool {
    let mut pairs = memory.iter().zip(interleaver.permutation());
    pairs.all(|(&entry, position)| usize::from(entry) == position.0)
}

/// Arranging a codeword into labels.
pub fn labels(format: u64, codeword: &[u8], out_len: usize) -> u64 {
    let Some(f) = tables::format(format) else {
        return FORMAT;
    };
    first_failed(&[
        (LENGTH, codeword.len() == f.N),
        (ELEMENT, all_bits(codeword)),
        (OUTPUT, out_len >= SECTION),
    ])
}

/// Building a frame from the labels of sixteen codeword sections, with room for
/// the pilots if they are on.
pub fn frame(format: u64, pilots: u64, labels: &[u8], out_len: usize) -> u64 {
    let Some(f) = tables::format(format) else {
        return FORMAT;
    };
    let Some(slots) = frame_slots(pilots) else {
        return PILOTS;
    };
    first_failed(&[
        (LENGTH, labels.len() == FRAME_LABELS),
        (ELEMENT, all_labels(labels, f.m)),
        (OUTPUT, out_len >= slots),
    ])
}

/// Taking one codeword section out of a frame's labels; any byte is a label.
pub fn section(labels: &[u8], place: u64) -> u64 {
    first_failed(&[
        (LENGTH, labels.len() == FRAME_LABELS),
        (POSITION, place < SECTIONS as u64),
    ])
}

/// Comparing two label lists.
pub fn compare(format: u64, a: &[u8], b: &[u8]) -> u64 {
    let Some(f) = tables::format(format) else {
        return FORMAT;
    };
    first_failed(&[
        (LENGTH, a.len() == SECTION && b.len() == SECTION),
        (ELEMENT, all_labels(a, f.m) && all_labels(b, f.m)),
    ])
}

/// One trellis step.
pub fn step(state: u64, bit: u64) -> u64 {
    first_failed(&[(ELEMENT, state <= 3 && bit <= 1)])
}

/// A trellis run from a state.
pub fn run(state: u64, bits: &[u8], out_len: usize) -> u64 {
    first_failed(&[
        (ELEMENT, state <= 3 && all_bits(bits)),
        (OUTPUT, out_len >= 2 * bits.len()),
    ])
}

/// The interleaved position of a position in the upper register.
pub fn interleave(format: u64, position: u64) -> u64 {
    let Some(f) = tables::format(format) else {
        return FORMAT;
    };
    first_failed(&[(POSITION, position < f.I as u64)])
}

/// Handing a transfer frame to a slicer.
pub fn push(slicer: &Slicer, frame: &[u8], memory: &[u8]) -> u64 {
    let Some(f) = tables::format(slicer.format) else {
        return FORMAT;
    };
    let octets = frame.len();
    let channel = [0, octets as u64];
    let [count, bits, room] = waiting(slicer, memory);
    first_failed(&[
        (FRAME_LENGTH, (LEAST_OCTETS..=MOST_OCTETS).contains(&octets)),
        (CHANNEL_LENGTH, channel.contains(&slicer.frame_length)),
        (BLOCK_WAITS, slicer.waiting < f.K as u64),
        count,
        bits,
        room,
    ])
}

/// Asking a slicer for a block. Whether one has to wait is no check.
pub fn block(slicer: &Slicer, memory: &[u8], out_len: usize) -> u64 {
    let Some(f) = tables::format(slicer.format) else {
        return FORMAT;
    };
    let [count, bits, room] = waiting(slicer, memory);
    first_failed(&[count, bits, room, (OUTPUT, out_len >= f.K)])
}

/// A change of a slicer's format, or a look at what it would bring.
pub fn change(slicer: &Slicer, format: u64) -> u64 {
    let formats = [slicer.format, format];
    first_failed(&[
        (FORMAT, formats.iter().all(|&f| tables::format(f).is_some())),
        (LENGTH, slicer.waiting <= WAITING_MEMORY as u64),
    ])
}

/// What push and block ask of the bits that wait and of their memory.
fn waiting(slicer: &Slicer, memory: &[u8]) -> [(u64, bool); 3] {
    [
        (LENGTH, slicer.waiting <= WAITING_MEMORY as u64),
        (ELEMENT, all_bits(slicer.bits(memory))),
        (WORKSPACE, memory.len() >= WAITING_MEMORY),
    ]
}

/// Reading a job line of either form.
pub fn job(input: &[u8]) -> u64 {
    let Some(line) = Line::read(input) else {
        return JOB_LINE;
    };
    let job = line.job();
    first_failed(&[
        (FORMAT, tables::format(job.format).is_some()),
        (PATTERN, job.pattern <= 2),
        (PILOTS, frame_slots(job.pilots).is_some()),
        (CODE, job.code.unwrap_or(0) <= LAST_CODE),
    ])
}

/// Moving an old line to the longer form: whether it is one, what reading it asks,
/// and room for the line that is written.
pub fn lengthen(input: &[u8], out_len: usize) -> u64 {
    let Some(line) = Line::read(input) else {
        return JOB_LINE;
    };
    let number = job(input);
    first_failed(&[
        (JOB_LINE, line.added.is_none()),
        (number, number == PASSED),
        (OUTPUT, out_len >= line.lengthened().text().len()),
    ])
}

/// Moving a line of the longer form back: the same, and before the room whether it
/// can go.
pub fn shorten(input: &[u8], out_len: usize) -> u64 {
    let Some(line) = Line::read(input) else {
        return JOB_LINE;
    };
    let number = job(input);
    first_failed(&[
        (JOB_LINE, line.added.is_some()),
        (number, number == PASSED),
        (NO_WAY_BACK, line.added == Some(OF_OLD)),
        (OUTPUT, out_len >= line.shortened().text().len()),
    ])
}

/// The point of a slot: a label of eight bits, a code number if there is one, and a
/// place where a frame can have a symbol.
pub fn point(format: u64, slot: u64, code: Option<u64>, place: u64) -> u64 {
    first_failed(&[
        (FORMAT, waveform::FORMATS.contains(&format)),
        (ELEMENT, slot <= u8::MAX.into()),
        (CODE, code.unwrap_or(0) <= LAST_CODE),
        (POSITION, place < waveform::PLACES),
    ])
}

/// The points of slots in a row: what a point asks, of each of them, and room for two
/// coordinates of each. The row may end at the last place, and an empty one behind it.
pub fn points(format: u64, slots: &[u16], code: Option<u64>, place: u64, out_len: usize) -> u64 {
    let end = place.checked_add(slots.len() as u64);
    first_failed(&[
        (FORMAT, waveform::FORMATS.contains(&format)),
        (ELEMENT, slots.iter().all(|&slot| slot <= u8::MAX.into())),
        (CODE, code.unwrap_or(0) <= LAST_CODE),
        (POSITION, end.is_some_and(|end| end <= waveform::PLACES)),
        (OUTPUT, out_len >= 2 * slots.len()),
    ])
}

/// Judging a capture against a codeword's labels: all of its text, and then whether
/// each coordinate is inside.
pub fn judge(format: u64, labels: &[u8], capture: &[u8]) -> u64 {
    let points = waveform::FORMATS.contains(&format);
    let Some(f) = tables::format(format).filter(|_| points) else {
        return FORMAT;
    };
    let samples = judge::samples(capture);
    let inside = samples.iter().flatten().all(|sample| sample.is_inside());
    first_failed(&[
        (LENGTH, labels.len() == SECTION),
        (ELEMENT, all_labels(labels, f.m)),
        (CAPTURE, samples.is_some()),
        (COORDINATE, inside),
    ])
}

#[cfg(test)]
mod tests {
    use super::*;
    use crate::{annex_c, shared};

    const K: usize = 5758;
    const I: usize = 8640;
    const N: usize = 16200;

    #[test]
    fn format_comes_first() {
        assert_eq!(encode(0, &[], 0, 0), FORMAT);
        assert_eq!(encode(38, &[0; K], I, N), FORMAT);
        assert_eq!(encode(257, &[0; K], I, N), FORMAT);
        assert_eq!(labels(0, &[2], 0), FORMAT);
        assert_eq!(frame(38, 2, &[64], 0), FORMAT);
        assert_eq!(compare(0, &[], &[9]), FORMAT);
        assert_eq!(interleave(0, u64::MAX), FORMAT);
    }

    #[test]
    fn a_block_has_exactly_k_bits() {
        assert_eq!(encode(1, &[], I, N), LENGTH);
        assert_eq!(encode(1, &[0; K - 1], I, N), LENGTH);
        assert_eq!(encode(1, &[0; K + 1], I, N), LENGTH);
    }

    #[test]
    fn a_two_is_no_bit() {
        let mut block = [0; K];
        block[K - 1] = 2;
        assert_eq!(encode(1, &block, 0, N), ELEMENT);
    }

    #[test]
    fn workspace_has_at_least_i_bytes() {
        assert_eq!(encode(1, &[1; K], I - 1, 0), WORKSPACE);
        assert_eq!(encode(1, &[1; K], I, N), PASSED);
    }

    #[test]
    fn output_has_at_least_n_bytes() {
        assert_eq!(encode(1, &[0; K], I, N - 1), OUTPUT);
        assert_eq!(encode(1, &[0; K], I, N), PASSED);
        assert_eq!(encode(1, &[0; K], I, N + 1), PASSED);
    }

    #[test]
    fn encode_segments_asks_1_2_3_4_5_12_13() {
        let many = [0; 16];
        let falls = [2, 1];
        let [k, i] = [K as u16, I as u16];
        let asked = |cuts: [&[u16]; 2]| encode_segments(1, &[1; K], I, N, cuts);
        // All that comes after fails too, in one list and in the other.
        for cuts in [[&many[..], &falls], [&falls, &many]] {
            assert_eq!(encode_segments(257, &[2; 1], 0, 0, cuts), FORMAT);
            assert_eq!(encode_segments(1, &[2; 1], 0, 0, cuts), LENGTH);
            assert_eq!(encode_segments(1, &[2; K], 0, 0, cuts), ELEMENT);
            assert_eq!(encode_segments(1, &[1; K], 0, 0, cuts), WORKSPACE);
            assert_eq!(encode_segments(1, &[1; K], I, N - 1, cuts), OUTPUT);
            assert_eq!(asked(cuts), CUT_COUNT);
        }
        for list in [&many[..], &[0; 17], &[0; 271], &[u16::MAX; 16]] {
            assert_eq!(asked([list, &[]]), CUT_COUNT);
            assert_eq!(asked([&[], list]), CUT_COUNT);
        }
        for list in [&falls[..], &[0, 1, 0], &[1, i + 1], &[u16::MAX]] {
            assert_eq!(asked([list, &[]]), CUT_PLACE);
            assert_eq!(asked([&[], list]), CUT_PLACE);
        }
        assert_eq!(asked([&[k + 1], &[]]), CUT_PLACE);
        assert_eq!(asked([&[], &[k + 1]]), PASSED);
        assert_eq!(asked([&[k; 15], &[i; 15]]), PASSED);
        assert_eq!(asked([&[0, 0, 1, k], &[0; 15]]), PASSED);
        assert_eq!(asked([&[], &[]]), PASSED);
    }

    /// In format 37 the outer trellis reads 28,318 of the 60,510 bits.
    #[test]
    fn outer_cuts_end_at_k1() {
        let block = vec![1; 60_510];
        let asked = |cuts: [&[u16]; 2]| encode_segments(37, &block, 42_480, 64_800, cuts);
        assert_eq!(asked([&[28_318], &[42_480]]), PASSED);
        assert_eq!(asked([&[28_319], &[]]), CUT_PLACE);
        assert_eq!(asked([&[60_510], &[]]), CUT_PLACE);
        assert_eq!(asked([&[], &[42_481]]), CUT_PLACE);
        let number = encode_segments(37, &block[1..], 42_480, 64_800, [&[28_319], &[]]);
        assert_eq!(number, LENGTH);
    }

    #[test]
    fn encode_shared_asks_1_2_3_4_5_15_3() {
        let annex_c = annex_c::data();
        let held = I as u64;
        let right = shared::expanded(annex_c.of_size(I));
        let wrong = [&[right[0] ^ 1], &right[1..]].concat();
        let asked = |format, block: &[u8], work_len, out_len, memory: &[u16], held| {
            encode_shared(&annex_c, format, block, work_len, out_len, memory, held)
        };
        // All that comes after fails too.
        let short = &wrong[..I - 1];
        assert_eq!(asked(257, &[2; 1], 0, 0, short, held), FORMAT);
        assert_eq!(asked(1, &[2; 1], 0, 0, short, held), LENGTH);
        assert_eq!(asked(1, &[2; K], 0, 0, short, held), ELEMENT);
        assert_eq!(asked(1, &[1; K], 0, 0, short, held), WORKSPACE);
        assert_eq!(asked(1, &[1; K], I, N - 1, short, held), OUTPUT);
        for few in [short, &right[1..], &[]] {
            assert_eq!(asked(1, &[1; K], I, N, few, held), MEMORY);
            assert_eq!(asked(1, &[1; K], I, N, few, 0), MEMORY);
        }
        assert_eq!(asked(1, &[1; K], I, N, &wrong, held), ELEMENT);
        assert_eq!(asked(1, &[1; K], I, N, &right, held), PASSED);
    }

    /// Any entry of the first I is asked about, none behind them, and none where
    /// the mark is another number.
    #[test]
    fn a_mark_of_the_size_asks_for_every_entry() {
        let annex_c = annex_c::data();
        let held = I as u64;
        let mut memory = shared::expanded(annex_c.of_size(I));
        memory.extend([0, u16::MAX]);
        let asked = |memory: &[u16], held| encode_shared(&annex_c, 1, &[1; K], I, N, memory, held);
        assert_eq!(asked(&memory, held), PASSED);
        for (place, other) in [(0, 1), (71, 72), (72, 0), (I - 72, 1), (I - 1, 0)] {
            memory.swap(place, other);
            assert_eq!(asked(&memory, held), ELEMENT, "{place}");
            for mark in [0, 72, held - 1, held + 1, 1 << 16 | held, 1 << 32 | held] {
                assert_eq!(asked(&memory, mark), PASSED, "{mark}");
            }
            memory.swap(place, other);
        }
    }

    /// A bit that no trellis reads is asked about too.
    #[test]
    fn a_two_in_a_piece_is_no_bit() {
        let mut block = vec![0; 60_510];
        assert_eq!(encode(37, &block, 42_480, 64_800), PASSED);
        assert_eq!(encode(37, &block, 42_480, 64_799), OUTPUT);
        block[60_509] = 2;
        assert_eq!(encode(37, &block, 42_480, 64_800), ELEMENT);
        assert_eq!(encode(37, &block[..28_318], 42_480, 64_800), LENGTH);
    }

    #[test]
    fn labels_asks_1_2_3_5() {
        assert_eq!(labels(1, &[0; N - 1], SECTION), LENGTH);
        assert_eq!(labels(1, &[2; N], 0), ELEMENT);
        assert_eq!(labels(1, &[1; N], SECTION - 1), OUTPUT);
        assert_eq!(labels(1, &[1; N], SECTION), PASSED);
    }

    #[test]
    fn frame_asks_1_14_2_3_5() {
        let threes = vec![3; FRAME_LABELS];
        let fours = vec![4; FRAME_LABELS];
        for choice in [2, 3, 256, 257, 1 << 32, 1 << 32 | 1, u64::MAX] {
            assert_eq!(frame(0, choice, &fours[1..], 0), FORMAT);
            assert_eq!(frame(1, choice, &fours[1..], 0), PILOTS);
            assert_eq!(frame(1, choice, &threes, 133_760), PILOTS);
        }
        for (choice, slots) in [(0, 129_920), (1, 133_760)] {
            assert_eq!(frame(38, choice, &threes, slots), FORMAT);
            assert_eq!(frame(1, choice, &fours[1..], 0), LENGTH);
            assert_eq!(frame(1, choice, &threes[1..], slots), LENGTH);
            assert_eq!(frame(1, choice, &fours, 0), ELEMENT);
            assert_eq!(frame(1, choice, &threes, slots - 1), OUTPUT);
            assert_eq!(frame(1, choice, &threes, slots), PASSED);
            assert_eq!(frame(7, choice, &fours, slots + 1), PASSED);
        }
        assert_eq!(frame(1, 1, &threes, 129_920), OUTPUT);
        assert_eq!(frame(1, 0, &threes, 133_759), PASSED);
    }

    /// Seven bits end at 127; of eight bits every byte is a label.
    #[test]
    fn labels_of_seven_and_eight_bits() {
        for (label, of_seven) in [(127, PASSED), (128, ELEMENT), (255, ELEMENT)] {
            let all = vec![label; FRAME_LABELS];
            assert_eq!(frame(28, 0, &all, 129_920), of_seven);
            assert_eq!(frame(37, 0, &all, 129_920), PASSED);
            let few = &all[..SECTION];
            assert_eq!(compare(28, few, few), of_seven);
            assert_eq!(compare(37, few, few), PASSED);
        }
    }

    #[test]
    fn section_takes_any_byte_and_16_places() {
        let any = vec![255; FRAME_LABELS];
        assert_eq!(section(&any[1..], 16), LENGTH);
        assert_eq!(section(&any, 15), PASSED);
        assert_eq!(section(&any, 16), POSITION);
        assert_eq!(section(&any, 1 << 32), POSITION);
    }

    #[test]
    fn compare_asks_1_2_3_of_both_lists() {
        let good = [3; SECTION];
        let bad = [4; SECTION];
        assert_eq!(compare(1, &good, &good[1..]), LENGTH);
        assert_eq!(compare(1, &bad, &good[1..]), LENGTH);
        assert_eq!(compare(1, &good, &bad), ELEMENT);
        assert_eq!(compare(1, &bad, &good), ELEMENT);
        assert_eq!(compare(1, &good, &good), PASSED);
    }

    #[test]
    fn step_and_interleave_take_numbers_inside() {
        assert_eq!(step(3, 1), PASSED);
        assert_eq!(step(4, 0), ELEMENT);
        assert_eq!(step(0, 2), ELEMENT);
        assert_eq!(step(256, 256), ELEMENT);
        assert_eq!(interleave(1, I as u64 - 1), PASSED);
        assert_eq!(interleave(1, I as u64), POSITION);
    }

    #[test]
    fn run_asks_3_of_state_and_bits_and_5() {
        for state in [4, 256, 1 << 32, u64::MAX] {
            assert_eq!(run(state, &[0, 1], 4), ELEMENT);
            assert_eq!(run(state, &[0, 1], 3), ELEMENT);
            assert_eq!(run(state, &[], 0), ELEMENT);
        }
        assert_eq!(run(0, &[0, 2], 3), ELEMENT);
        assert_eq!(run(3, &[255, 1], 4), ELEMENT);
        assert_eq!(run(3, &[0, 1], 2), OUTPUT);
        assert_eq!(run(3, &[0, 1], 3), OUTPUT);
        assert_eq!(run(3, &[0, 1], 4), PASSED);
        assert_eq!(run(0, &[0, 1], 5), PASSED);
        assert_eq!(run(2, &[], 0), PASSED);
    }

    fn slicer(format: u64, frame_length: u64, waiting: u64) -> Slicer {
        Slicer {
            format,
            frame_length,
            waiting,
        }
    }

    /// 2 is never the first to fail: a count that fails it has failed 11.
    #[test]
    fn push_asks_1_9_10_11_3_4() {
        let frame = [0; MOST_OCTETS + 1];
        let ones = vec![1; WAITING_MEMORY];
        let twos = vec![2; WAITING_MEMORY];
        let none: &[u8] = &[];
        let asked = |format, length, waiting, octets, memory: &[u8]| {
            push(&slicer(format, length, waiting), &frame[..octets], memory)
        };
        let k = K as u64;
        for format in [0, 38, 257, 1 << 32 | 1] {
            assert_eq!(asked(format, 1, k, 222, &twos[1..]), FORMAT);
        }
        for octets in [0, LEAST_OCTETS - 1, MOST_OCTETS + 1] {
            assert_eq!(asked(1, 1, k, octets, &twos[1..]), FRAME_LENGTH);
            assert_eq!(asked(1, octets as u64, 0, octets, &ones), FRAME_LENGTH);
        }
        for length in [1, 222, 224, 1 << 8 | 223, 1 << 40, u64::MAX] {
            assert_eq!(asked(1, length, k, 223, &twos[1..]), CHANNEL_LENGTH);
            assert_eq!(asked(1, length, 0, 223, &ones), CHANNEL_LENGTH);
        }
        for waiting in [k, k + 1, 600_000, 600_001, 1 << 40, u64::MAX] {
            assert_eq!(asked(1, 223, waiting, 223, &twos[1..]), BLOCK_WAITS);
            assert_eq!(asked(1, 0, waiting, 223, &ones), BLOCK_WAITS);
        }
        assert_eq!(asked(1, 0, 1, 223, &twos[1..]), ELEMENT);
        assert_eq!(asked(1, 0, k - 1, 223, &twos[..1]), ELEMENT);
        assert_eq!(asked(1, 0, 0, 223, &twos[1..]), WORKSPACE);
        assert_eq!(asked(1, 0, k - 1, 223, none), WORKSPACE);
        assert_eq!(asked(1, 0, k - 1, 223, &ones), PASSED);
        assert_eq!(asked(1, 65_536, k - 1, 65_536, &ones), PASSED);
    }

    #[test]
    fn block_asks_1_2_3_4_5() {
        let ones = vec![1; WAITING_MEMORY];
        let twos = vec![2; WAITING_MEMORY];
        let asked = |format, waiting, memory: &[u8], out_len| {
            block(&slicer(format, 1, waiting), memory, out_len)
        };
        assert_eq!(asked(257, u64::MAX, &twos[1..], 0), FORMAT);
        for waiting in [600_001, 1 << 40, u64::MAX] {
            assert_eq!(asked(1, waiting, &twos[1..], 0), LENGTH);
        }
        assert_eq!(asked(1, 1, &twos[1..], 0), ELEMENT);
        assert_eq!(asked(1, 600_000, &twos[..1], 0), ELEMENT);
        assert_eq!(asked(1, 600_000, &ones[1..], 0), WORKSPACE);
        assert_eq!(asked(1, 600_000, &ones, K - 1), OUTPUT);
        assert_eq!(asked(1, 0, &twos, K - 1), OUTPUT);
        assert_eq!(asked(1, 0, &twos, K), PASSED);
        assert_eq!(asked(1, 600_000, &ones, K), PASSED);
    }

    #[test]
    fn change_asks_1_of_both_formats_and_2() {
        let asked = |old, waiting, new| change(&slicer(old, 1, waiting), new);
        for format in [0, 38, 257, 1 << 32 | 1, u64::MAX] {
            assert_eq!(asked(format, 0, 1), FORMAT);
            assert_eq!(asked(1, 0, format), FORMAT);
            assert_eq!(asked(format, u64::MAX, 1), FORMAT);
            assert_eq!(asked(1, u64::MAX, format), FORMAT);
        }
        for waiting in [600_001, 1 << 40, u64::MAX] {
            assert_eq!(asked(1, waiting, 27), LENGTH);
        }
        assert_eq!(asked(1, 600_000, 27), PASSED);
        assert_eq!(asked(13, 0, 13), PASSED);
    }

    /// The bytes behind those that wait may be anything.
    #[test]
    fn only_what_waits_has_to_be_bits() {
        let mut memory = vec![0; WAITING_MEMORY];
        memory[K - 1] = 2;
        assert_eq!(block(&slicer(1, 0, K as u64 - 1), &memory, K), PASSED);
        assert_eq!(block(&slicer(1, 0, K as u64), &memory, K), ELEMENT);
        let frame = [0; 223];
        assert_eq!(push(&slicer(1, 0, K as u64 - 1), &frame, &memory), PASSED);
        memory[0] = 2;
        assert_eq!(push(&slicer(1, 0, 1), &frame, &memory), ELEMENT);
    }

    #[test]
    fn job_asks_6_1_7_14_16() {
        for (line, number) in [
            ("13,0\n", PASSED),
            ("07,0\n", JOB_LINE),
            ("0,9\n", FORMAT),
            ("38,0\n", FORMAT),
            ("999,999\n", FORMAT),
            ("7,3\n", PATTERN),
            ("37,2\n", PASSED),
            ("07,3,2,262143\n", JOB_LINE),
            ("38,3,2,262143\n", FORMAT),
            ("37,3,2,262143\n", PATTERN),
            ("37,2,2,262143\n", PILOTS),
            ("37,2,1,262143\n", CODE),
            ("37,2,1,262142\n", PASSED),
            ("1,0,0,-\n", PASSED),
            ("1,0,2,-\n", PILOTS),
            ("1,0,999,-\n", PILOTS),
            ("1,0,1000,-\n", JOB_LINE),
            ("1,0,0,999999\n", CODE),
            ("1,0,0,1000000\n", JOB_LINE),
            ("999,999,999,999999\n", FORMAT),
        ] {
            assert_eq!(job(line.as_bytes()), number, "{line:?}");
        }
    }

    #[test]
    fn lengthen_asks_6_1_7_5() {
        for (line, room, number) in [
            ("", 0, JOB_LINE),
            ("13,0,0\n", 19, JOB_LINE),
            ("13,0,0,-\n", 19, JOB_LINE),
            ("38,3,2,262143\n", 0, JOB_LINE),
            ("38,3\n", 0, FORMAT),
            ("37,3\n", 0, PATTERN),
            ("37,2\n", 0, OUTPUT),
            ("37,2\n", 8, OUTPUT),
            ("37,2\n", 9, PASSED),
            ("1,0\n", 7, OUTPUT),
            ("1,0\n", 8, PASSED),
        ] {
            assert_eq!(lengthen(line.as_bytes(), room), number, "{line:?}");
        }
    }

    #[test]
    fn shorten_asks_6_1_7_14_16_17_5() {
        for (line, room, number) in [
            ("", 0, JOB_LINE),
            ("13,0,0\n", 8, JOB_LINE),
            ("13,0\n", 8, JOB_LINE),
            ("38,3\n", 0, JOB_LINE),
            ("38,3,2,262143\n", 0, FORMAT),
            ("37,3,2,262143\n", 0, PATTERN),
            ("37,2,2,262143\n", 0, PILOTS),
            ("37,2,1,262143\n", 0, CODE),
            ("37,2,0,262143\n", 8, CODE),
            ("37,2,2,-\n", 8, PILOTS),
            ("37,2,1,262142\n", 0, NO_WAY_BACK),
            ("37,2,1,-\n", 8, NO_WAY_BACK),
            ("37,2,0,0\n", 8, NO_WAY_BACK),
            ("37,2,0,-\n", 0, OUTPUT),
            ("37,2,0,-\n", 4, OUTPUT),
            ("37,2,0,-\n", 5, PASSED),
            ("1,0,0,-\n", 4, PASSED),
        ] {
            assert_eq!(shorten(line.as_bytes(), room), number, "{line:?}");
        }
    }

    #[test]
    fn point_asks_1_3_16_8() {
        for format in [0, 1, 27, 32, 38, 33 + 256, 1 << 32 | 33, u64::MAX] {
            assert_eq!(point(format, 256, Some(262_143), 133_760), FORMAT);
            assert_eq!(point(format, 0, None, 0), FORMAT);
        }
        for slot in [256, 257, 258, 65_535, 1 << 16, 1 << 32, u64::MAX] {
            assert_eq!(point(33, slot, Some(262_143), 133_760), ELEMENT);
            assert_eq!(point(37, slot, None, 0), ELEMENT);
        }
        for code in [262_143, 1 << 32, u64::MAX] {
            assert_eq!(point(33, 255, Some(code), 133_760), CODE);
            assert_eq!(point(37, 0, Some(code), 0), CODE);
        }
        for place in [133_760, 133_761, 1 << 32, u64::MAX] {
            assert_eq!(point(33, 255, Some(262_142), place), POSITION);
            assert_eq!(point(37, 0, None, place), POSITION);
        }
        assert_eq!(point(33, 0, None, 0), PASSED);
        assert_eq!(point(37, 255, Some(262_142), 133_759), PASSED);
    }

    #[test]
    fn points_asks_1_3_16_8_5() {
        let [code, bad_code] = [262_142, 262_143].map(Some);
        for format in [0, 32, 38, 1 << 32 | 33, u64::MAX] {
            assert_eq!(points(format, &[256], bad_code, 133_760, 0), FORMAT);
            assert_eq!(points(format, &[], None, 0, 0), FORMAT);
        }
        for slots in [[256, 0], [0, 256], [257, 258], [0, u16::MAX]] {
            assert_eq!(points(33, &slots, bad_code, 133_760, 0), ELEMENT);
            assert_eq!(points(37, &slots, None, 0, 4), ELEMENT);
        }
        assert_eq!(points(33, &[255, 0], bad_code, 133_760, 0), CODE);
        for place in [
            133_759,
            133_760,
            1 << 32,
            u64::MAX - 2,
            u64::MAX - 1,
            u64::MAX,
        ] {
            assert_eq!(points(33, &[255, 0], code, place, 0), POSITION);
            assert_eq!(points(37, &[255, 0], None, place, 4), POSITION);
        }
        assert_eq!(points(33, &[255, 0], code, 133_758, 3), OUTPUT);
        assert_eq!(points(33, &[255, 0], code, 133_758, 4), PASSED);
        assert_eq!(points(37, &[255, 0], None, 0, 5), PASSED);
    }

    #[test]
    fn a_row_of_points_ends_at_the_last_place() {
        let all = vec![255; 133_761];
        assert_eq!(points(33, &all[1..], None, 0, 267_520), PASSED);
        assert_eq!(points(33, &all[1..], None, 1, 267_520), POSITION);
        assert_eq!(points(33, &all, None, 0, 267_522), POSITION);
        assert_eq!(points(33, &[], None, 133_760, 0), PASSED);
        assert_eq!(points(33, &[], None, 133_761, 0), POSITION);
        assert_eq!(points(33, &[], None, u64::MAX, 0), POSITION);
    }

    /// 3 is never the first to fail: of eight bits every byte is a label.
    #[test]
    fn judge_asks_1_2_3_18_19() {
        let labels = [255; SECTION];
        let lost = b"LOST\n".repeat(SECTION);
        let with = |line: &str| [line.as_bytes(), &lost[5..]].concat();
        let far = with("0000000000000000,4000000000000001\n");
        let good = with("4000000000000000,C000000000000000\n");
        // All that comes after fails too: a line of no shape behind what is too far.
        let both = [&far[..], b"LOST"].concat();
        for format in [0, 1, 27, 32, 38, 33 + 256, 1 << 32 | 33, u64::MAX] {
            assert_eq!(judge(format, &labels[1..], &both), FORMAT);
            assert_eq!(judge(format, &labels, &lost), FORMAT);
        }
        for count in [0, 1, SECTION - 1, SECTION + 1, 2 * SECTION] {
            let list = vec![0; count];
            assert_eq!(judge(33, &list, &both), LENGTH);
            assert_eq!(judge(37, &list, &good), LENGTH);
        }
        for capture in [
            &both[..],
            &lost[1..],
            &lost[5..],
            b"",
            &with("\n"),
            &with("lost\n"),
        ] {
            assert_eq!(judge(33, &labels, capture), CAPTURE);
        }
        assert_eq!(judge(33, &labels, &far), COORDINATE);
        for format in waveform::FORMATS {
            assert_eq!(judge(format, &labels, &good), PASSED);
            assert_eq!(judge(format, &labels, &lost), PASSED);
        }
    }
}
