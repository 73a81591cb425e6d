//! The blocks that are encoded for a comparison, what is captured of one, and the
//! digests that stand for long lists. These definitions are an agreement, not the
//! standard's: both sides of a comparison follow them.

use crate::judge::Sample;
use crate::tables::{self, Format};
use crate::transfer;
use crate::waveform::{constellation, Point};

/// d starts at 1; each element x makes it (d * 1000003 + x + 1) modulo
/// 4294967291.
pub fn digest<T: Copy + Into<u64>>(list: &[T]) -> u64 {
    let add = |d: u64, x: &T| (d * 1_000_003 + (*x).into() + 1) % 4_294_967_291;
    list.iter().fold(1, add)
}

/// x starts at the seed; for each element x becomes (x * 1103515245 + 12345)
/// modulo 2^31, and the element is (x / 65536) modulo the number of values.
fn seeded(seed: u64, length: usize, values: u64) -> Vec<u8> {
    let mut x = seed;
    let mut list = Vec::new();
    for _ in 0..length {
        x = (x * 1_103_515_245 + 12_345) % 2_147_483_648;
        list.push((x / 65_536 % values) as u8);
    }
    list
}

/// Bits of a seed.
pub fn seeded_block(seed: u64, length: usize) -> Vec<u8> {
    seeded(seed, length, 2)
}

/// Octets of a seed.
pub fn seeded_frame(seed: u64, octets: usize) -> Vec<u8> {
    seeded(seed, octets, 256)
}

/// The bench program's patterns: 0 all zeros, 1 all ones, 2 a single one at
/// place 0.
pub fn pattern_block(pattern: u64, length: usize) -> Option<Vec<u8>> {
    match pattern {
        0 => Some(vec![0; length]),
        1 => Some(vec![1; length]),
        2 => Some((0..length).map(|place| u8::from(place == 0)).collect()),
        _ => None,
    }
}

/// A format's named test blocks: the three patterns, then the blocks of the
/// seeds 1000, 2000 and 3000 plus the format number.
pub fn vector_blocks(format: &Format) -> Vec<(String, Vec<u8>)> {
    let patterns = (0..3).map(|pattern| {
        let block = pattern_block(pattern, format.K).expect("one of the three patterns");
        (pattern.to_string(), block)
    });
    let seeded = (1..4).map(|s| {
        let block = seeded_block(1000 * s + format.number, format.K);
        (format!("s{s}"), block)
    });
    patterns.chain(seeded).collect()
}

/// The sixteen blocks of a format's test frame: seeds 2000 + 16 * format + k.
pub fn frame_blocks(format: &Format) -> Vec<Vec<u8>> {
    (0..16)
        .map(|k| seeded_block(2000 + 16 * format.number + k, format.K))
        .collect()
}

/// The test stream: transfer frames of 1,115 octets, of the seeds 4000, 4001
/// and so on. It is the first of three test lists.
const FRAME: usize = 1115;
const FIRST_SEEDS: [u64; 3] = [4000, 5000, 6000];

/// The transfer frames of a seed and those that follow.
fn transfer_frames(first: u64) -> impl Iterator<Item = Vec<u8>> {
    (first..).map(|seed| seeded_frame(seed, FRAME))
}

/// Three lists of transfer frames, which are enough for sixteen blocks of a format.
pub fn test_lists(format: &Format) -> [Vec<Vec<u8>>; 3] {
    let enough = 16 * format.K / transfer::marked_bits(FRAME) + 1;
    FIRST_SEEDS.map(|first| transfer_frames(first).take(enough).collect())
}

/// Sixteen blocks of the test stream, from a bit on.
fn blocks_from(start: usize, format: &Format) -> Vec<Vec<u8>> {
    let bits: Vec<u8> = transfer_frames(FIRST_SEEDS[0])
        .flat_map(|frame| transfer::marked(&frame))
        .skip(start)
        .take(16 * format.K)
        .collect();
    bits.chunks(format.K).map(<[u8]>::to_vec).collect()
}

/// The first sixteen blocks of the test stream.
pub fn stream_blocks(format: &Format) -> Vec<Vec<u8>> {
    blocks_from(0, format)
}

/// The bits of the sixteen blocks of format 13 that come before a change.
fn before_change() -> usize {
    16 * tables::format(13).expect("a format").K
}

/// The first sixteen blocks of a format after a change from format 13, which
/// had sixteen before.
pub fn changed_blocks(format: &Format) -> Vec<Vec<u8>> {
    blocks_from(before_change(), format)
}

/// The bits that wait at that change, a frame being pushed only where a block
/// lacks bits.
pub fn waiting_at_change() -> u64 {
    let bits = transfer::marked_bits(FRAME);
    ((bits - before_change() % bits) % bits) as u64
}

/// The block whose codeword is captured: seed 5000 plus the format number.
pub fn captured_block(format: &Format) -> Vec<u8> {
    seeded_block(5000 + format.number, format.K)
}

/// The test capture: of a hundred samples the last is lost, and each other is its
/// label's point with noise.
pub fn test_capture(format: &Format, labels: &[u8]) -> Vec<Sample> {
    let noise = seeded_frame(6000 + format.number, 2 * labels.len());
    let sample = |(place, (&label, octets)): (usize, (&u8, &[u8]))| match place % 100 {
        99 => Sample::Lost,
        _ => Sample::Pair(noisy(constellation()[usize::from(label)], octets)),
    };
    let pairs = labels.iter().zip(noise.chunks(2));
    pairs.enumerate().map(sample).collect()
}

/// A point moved by an octet for each coordinate: 128 leaves it where it is.
pub fn noisy(point: Point, octets: &[u8]) -> Point {
    let noise = |octet: u8| (f64::from(octet) - 128.0) * 0.0005;
    Point {
        I: point.I + noise(octets[0]),
        Q: point.Q + noise(octets[1]),
    }
}

#[cfg(test)]
mod tests {
    use super::*;

    #[test]
    fn digest_by_hand() {
        assert_eq!(digest::<u8>(&[]), 1);
        assert_eq!(digest(&[0u8]), 1_000_004);
        assert_eq!(digest(&[5u8]), 1_000_009);
        // 1000004 * 1000003 + 2 = 1000007000014, less 232 times 4294967291.
        assert_eq!(digest(&[0u8, 1]), 1_000_007_000_014 - 232 * 4_294_967_291);
    }

    #[test]
    fn seeded_block_by_hand() {
        // From seed 0: 12345, 1406932606, 654583775, 1449466924.
        assert_eq!(seeded_block(0, 4), [0, 0, 0, 1]);
        assert_eq!(seeded_frame(0, 4), [0, 220, 4, 101]);
    }

    #[test]
    fn patterns() {
        assert_eq!(pattern_block(0, 3), Some(vec![0, 0, 0]));
        assert_eq!(pattern_block(1, 3), Some(vec![1, 1, 1]));
        assert_eq!(pattern_block(2, 3), Some(vec![1, 0, 0]));
        assert_eq!(pattern_block(3, 3), None);
    }

    /// From seed 6033: 308176630, 768932599, so octets 94 and 212.
    #[test]
    fn a_test_capture_by_hand() {
        let format = tables::format(33).unwrap();
        let samples = test_capture(&format, &[255; 8100]);
        let lost = |place: &usize| samples[*place] == Sample::Lost;
        assert!((0..8100).filter(lost).eq((99..8100).step_by(100)));
        let moved = noisy(constellation()[255], &[94, 212]);
        assert_eq!(samples[0], Sample::Pair(moved));
        assert!((moved.I - 0.2967).abs() < 1e-12 && (moved.Q - 0.3557).abs() < 1e-12);
        assert_eq!(noisy(moved, &[128, 128]), moved);
    }
}
