//! The plain encoder's BCH part: eight bits a step, by a table.

use oracle::bch::{self, CHECK_BITS, PIECE};
use oracle::tables::SECTION;

/// Bits that a step takes.
const STEP: usize = 8;

/// The bits of a register that holds a remainder.
const MASK: u64 = (1 << CHECK_BITS) - 1;

pub struct PlainBch {
    /// For each octet, what is left of it 52 powers up.
    remainders: [u64; 256],
}

impl PlainBch {
    pub fn new() -> PlainBch {
        let generator = bch::generator();
        let remainder = |octet: usize| {
            let moved = (octet as u64) << CHECK_BITS;
            let bits: Vec<u8> = (0..STEP + CHECK_BITS)
                .map(|place| (moved >> (STEP + CHECK_BITS - 1 - place) & 1) as u8)
                .collect();
            let rest = bch::remainder(&bits, &generator);
            rest.iter().fold(0, |r, &bit| 2 * r + u64::from(bit))
        };
        PlainBch {
            remainders: std::array::from_fn(remainder),
        }
    }

    /// The codewords of the pieces, one behind the other.
    pub fn encode(&self, bits: &[u8], out: &mut [u8]) {
        for (piece, codeword) in bits.chunks_exact(PIECE).zip(out.chunks_exact_mut(SECTION)) {
            let (copy, check_bits) = codeword.split_at_mut(PIECE);
            copy.copy_from_slice(piece);
            let r = self.remainder(piece);
            for (place, bit) in check_bits.iter_mut().enumerate() {
                *bit = (r >> (CHECK_BITS - 1 - place) & 1) as u8;
            }
        }
    }

    /// What is left of a piece, 52 powers up. It has whole octets, and zeros before
    /// it change nothing.
    fn remainder(&self, piece: &[u8]) -> u64 {
        piece.chunks_exact(STEP).fold(0, |r, bits| {
            let octet = bits
                .iter()
                .fold(0, |octet, bit| 2 * octet + u64::from(*bit));
            let leaves = r >> (CHECK_BITS - STEP) ^ octet;
            r << STEP & MASK ^ self.remainders[leaves as usize]
        })
    }
}

#[cfg(test)]
mod tests {
    use super::*;
    use oracle::digest::seeded_block;

    #[test]
    fn the_codewords_are_the_oracles() {
        let mut out = vec![9; 3 * SECTION];
        for bits in [
            seeded_block(1, 3 * PIECE),
            vec![1; 3 * PIECE],
            vec![0; 3 * PIECE],
        ] {
            PlainBch::new().encode(&bits, &mut out);
            let due: Vec<u8> = bits.chunks(PIECE).flat_map(bch::codeword).collect();
            assert_eq!(out, due);
        }
    }
}
