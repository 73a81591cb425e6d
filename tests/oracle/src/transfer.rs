//! Section 3: what transfer frames put on the channel.

use crate::framing::{digits, shift_register, sum};
use std::sync::OnceLock;

/// 3.2.2 of document 004: octets of a transfer frame.
pub const LEAST_OCTETS: usize = 223;
pub const MOST_OCTETS: usize = 65_536;

/// Table 3-1: the attached sync marker and its length.
const MARKER: u32 = 0x1ACF_FC1D;
const MARKER_BITS: usize = 32;

/// Equation 3-1: the exponents of h below the eighth.
const H: [usize; 4] = [7, 5, 3, 0];

/// 3.2: the first 40 bits of the pseudo-random sequence as printed.
pub const PRINTED_SEQUENCE: &str = "1111111101001000000011101100000010011010";

/// 3.2: bits after which the sequence repeats.
pub const PERIOD: usize = 255;

/// 3.3: the bits of the marker.
pub fn marker() -> Vec<u8> {
    digits(&format!("{MARKER:0MARKER_BITS$b}"))
}

/// 3.2: the pseudo-random sequence, its register at all ones at the start, for
/// the longest frame.
pub fn sequence() -> &'static [u8] {
    static SEQUENCE: OnceLock<Vec<u8>> = OnceLock::new();
    SEQUENCE.get_or_init(|| shift_register(&H, [1; 8], 8 * MOST_OCTETS))
}

/// Octets as bits, the heaviest bit of each first.
pub fn bits(octets: &[u8]) -> Vec<u8> {
    let of_octet = |octet: &u8| [128, 64, 32, 16, 8, 4, 2, 1].map(|weight| octet / weight % 2);
    octets.iter().flat_map(of_octet).collect()
}

/// 3.2: the first bit of the frame goes with the first of the sequence.
fn randomized(frame: &[u8]) -> Vec<u8> {
    assert!(frame.len() <= MOST_OCTETS);
    sum(&bits(frame), sequence())
}

/// 3.1 to 3.3: the marker as it is, then the randomized frame.
pub fn marked(frame: &[u8]) -> Vec<u8> {
    [marker(), randomized(frame)].concat()
}

/// How many bits that is.
pub const fn marked_bits(octets: usize) -> usize {
    MARKER_BITS + 8 * octets
}

/// What frames put on the channel, one behind the other.
pub fn stream(frames: &[Vec<u8>]) -> Vec<u8> {
    frames.iter().flat_map(|frame| marked(frame)).collect()
}

#[cfg(test)]
mod tests {
    use super::*;

    #[test]
    fn the_sequence_is_the_printed_one_and_repeats() {
        let all = sequence();
        assert_eq!(all[..40], digits(PRINTED_SEQUENCE));
        let repeats = |after: &usize| all[*after..] == all[..all.len() - after];
        assert_eq!((1..=PERIOD).find(repeats), Some(PERIOD));
    }

    #[test]
    fn the_heaviest_bit_comes_first() {
        assert_eq!(bits(&[0x80, 0x03])[..9], [1, 0, 0, 0, 0, 0, 0, 0, 0]);
        assert_eq!(bits(&[0x80, 0x03])[9..], [0, 0, 0, 0, 0, 1, 1]);
    }

    /// The sequence's first octets are FF, 48, 0E, C0 and 9A.
    #[test]
    fn a_frame_by_hand() {
        let marked = marked(&[0x00, 0x48, 0x0F]);
        assert_eq!(marked[..32], bits(&[0x1A, 0xCF, 0xFC, 0x1D]));
        assert_eq!(marked[32..], bits(&[0xFF, 0x00, 0x01]));
    }

    #[test]
    fn each_frame_starts_the_sequence_afresh() {
        let frame = vec![0x35; LEAST_OCTETS];
        let stream = stream(&[frame.clone(), frame.clone()]);
        assert_eq!(stream.len(), 2 * marked_bits(LEAST_OCTETS));
        assert_eq!(stream, marked(&frame).repeat(2));
    }
}
