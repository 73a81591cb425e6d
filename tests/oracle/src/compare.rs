//! Two label lists held against each other (document 01: the tally; document
//! 02, L2: its number is of bits).

/// What a comparison gives; with "same" both numbers are 0.
#[derive(Clone, Copy, Debug, PartialEq, Eq)]
pub struct Comparison {
    pub same: bool,
    /// Bits in which the two labels of a place differ, added over all places.
    pub count: u64,
    /// The first place at which the labels differ, counted from 0.
    pub first: u64,
}

/// The comparison of two equally long lists of labels of m bits.
pub fn compare(m: usize, a: &[u8], b: &[u8]) -> Comparison {
    let apart = a.iter().zip(b).map(|(x, y)| bits_apart(m, *x, *y));
    let first = a.iter().zip(b).position(|(x, y)| x != y);
    Comparison {
        same: first.is_none(),
        count: apart.sum(),
        first: first.unwrap_or(0) as u64,
    }
}

/// Of the m bits of two labels those that differ, one bit after the other.
fn bits_apart(m: usize, x: u8, y: u8) -> u64 {
    let bit = |label: u8, j: usize| label >> j & 1;
    (0..m).filter(|&j| bit(x, j) != bit(y, j)).count() as u64
}

#[cfg(test)]
mod tests {
    use super::*;
    use crate::digest::seeded_block;
    use crate::encoder::labels;
    use crate::tables::formats;

    fn differ(count: u64, first: u64) -> Comparison {
        Comparison {
            same: false,
            count,
            first,
        }
    }

    #[test]
    fn counts_bits_and_names_the_first_place() {
        let same = Comparison {
            same: true,
            count: 0,
            first: 0,
        };
        assert_eq!(compare(2, &[1, 2, 3], &[1, 2, 3]), same);
        assert_eq!(compare(2, &[1, 2, 3], &[1, 0, 0]), differ(3, 1));
    }

    #[test]
    fn a_difference_at_place_0_is_not_same() {
        assert_eq!(compare(2, &[1, 2], &[0, 2]), differ(1, 0));
    }

    #[test]
    fn a_64apsk_label_can_hold_six() {
        assert_eq!(compare(6, &[5, 63], &[5, 0]), differ(6, 1));
        assert_eq!(compare(6, &[0b101010, 9], &[0b010101, 9]), differ(6, 0));
    }

    #[test]
    fn a_256apsk_label_can_hold_eight() {
        assert_eq!(compare(8, &[255; 8100], &[0; 8100]), differ(64_800, 0));
        assert_eq!(compare(7, &[127, 9], &[0, 9]), differ(7, 0));
        assert_eq!(compare(8, &[3, 128], &[3, 127]), differ(8, 1));
    }

    #[test]
    fn labels_differ_in_as_many_bits_as_their_codewords() {
        for f in formats() {
            let [a, b] = [1, 2].map(|seed| seeded_block(seed, f.N));
            let coded_bits = a.iter().zip(&b).filter(|(x, y)| x != y).count();
            let found = compare(f.m, &labels(f, &a), &labels(f, &b));
            assert_eq!(found.count, coded_bits as u64);
        }
    }
}
