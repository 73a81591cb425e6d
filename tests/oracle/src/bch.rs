//! Document 004, 4.3: the (8191, 8139) BCH code, shortened to 8,100 bits.
//!
//! A polynomial is the list of its coefficients, the highest power first, as a
//! division is written down. The first bit of a codeword is the highest power's.

use crate::framing::digits;

/// 4.3: bits of a piece, which is what one codeword carries.
pub const PIECE: usize = 8048;

/// 4.3: check bits of a codeword.
pub const CHECK_BITS: usize = 52;

/// 4.3.1: zeros that fill a piece up to the 8,139 bits of the code.
pub const ZEROS: usize = 91;

/// 4.3.1: bits of the code before it is shortened.
pub const FULL: usize = 8191;

/// 4.3.1: the coefficients of the generator polynomial as printed, once in each
/// form. The first binary digit is that of x^0.
pub const PRINTED_HEXADECIMAL: &str = "1AAC3AB8418945";
pub const PRINTED_BINARY: &str =
    "1 1010 1010 1100 0011 1010 1011 1000 0100 0001 1000 1001 0100 0101";

/// The binary digits of the printed hexadecimal number, in the order of print.
pub fn printed_digits() -> Vec<u8> {
    let number = u64::from_str_radix(PRINTED_HEXADECIMAL, 16).expect("hexadecimal digits");
    digits(&format!("{number:b}"))
}

/// 4.3.1: the generator polynomial; "the MSB is g_0, while the LSB is g_52".
pub fn generator() -> Vec<u8> {
    let mut g = printed_digits();
    g.reverse();
    g
}

/// The remainder of a division: wherever a 1 leads what is left, the divisor is
/// taken off it.
pub fn remainder(dividend: &[u8], divisor: &[u8]) -> Vec<u8> {
    let mut rest = dividend.to_vec();
    let degree = divisor.len() - 1;
    let steps = rest.len() - degree;
    for place in 0..steps {
        if rest[place] == 1 {
            for (bit, g) in rest[place..].iter_mut().zip(divisor) {
                *bit = (*bit + g) % 2;
            }
        }
    }
    rest.split_off(steps)
}

/// The check bits of the 8,139 bits of the code: what is left of them, moved up
/// by 52 powers, on division by the generator polynomial.
pub fn check_bits(filled: &[u8]) -> Vec<u8> {
    assert_eq!(filled.len() + CHECK_BITS, FULL);
    remainder(&[filled, &[0; CHECK_BITS]].concat(), &generator())
}

/// Document 02, L8: 91 zeros and then the piece. Figure 4-3 draws them behind it,
/// which gives other check bits.
pub fn filled(piece: &[u8]) -> Vec<u8> {
    [&[0; ZEROS], piece].concat()
}

/// 4.3.1 and figure 4-2: the piece and its check bits; the zeros are not sent.
pub fn codeword(piece: &[u8]) -> Vec<u8> {
    assert_eq!(piece.len(), PIECE);
    [piece, &check_bits(&filled(piece))].concat()
}

#[cfg(test)]
mod tests {
    use super::*;
    use crate::digest::seeded_block;
    use crate::framing::sum;

    /// x^5 + x^2 + 1 is (x^2 + 1)(x^3 + x + 1) + x, x^2 + x is x(x + 1), and x is
    /// below x^2.
    #[test]
    fn divisions_by_hand() {
        assert_eq!(remainder(&[1, 0, 0, 1, 0, 1], &[1, 0, 1, 1]), [0, 1, 0]);
        assert_eq!(remainder(&[1, 1, 0], &[1, 1]), [0]);
        assert_eq!(remainder(&[1, 0], &[1, 0, 0]), [1, 0]);
    }

    #[test]
    fn the_generator_has_degree_52() {
        let g = generator();
        assert_eq!(g.len(), CHECK_BITS + 1);
        assert_eq!([g[0], g[CHECK_BITS]], [1, 1]);
        // 45 at the end of print: 0100 0101, and g_52 is the last of them.
        assert_eq!(g[..8], [1, 0, 1, 0, 0, 0, 1, 0]);
    }

    /// x^52 leaves the generator polynomial less its highest power.
    #[test]
    fn a_one_at_the_end_has_the_generator_for_check_bits() {
        let mut piece = vec![0; PIECE];
        piece[PIECE - 1] = 1;
        assert_eq!(codeword(&piece)[PIECE..], generator()[1..]);
        assert_eq!(codeword(&piece)[..PIECE], piece);
    }

    #[test]
    fn a_codeword_leaves_nothing() {
        for seed in 1..4 {
            let codeword = codeword(&seeded_block(seed, PIECE));
            assert_eq!(codeword.len(), PIECE + CHECK_BITS);
            assert_eq!(remainder(&codeword, &generator()), [0; CHECK_BITS]);
        }
        assert_eq!(codeword(&[0; PIECE]), [0; PIECE + CHECK_BITS]);
    }

    #[test]
    fn codewords_add_up() {
        let [a, b] = [1, 2].map(|seed| seeded_block(seed, PIECE));
        assert_eq!(codeword(&sum(&a, &b)), sum(&codeword(&a), &codeword(&b)));
    }
}
