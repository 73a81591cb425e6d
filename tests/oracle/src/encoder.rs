//! Sections 4.2 to 4.6, and section 4 of document 004: from an information block
//! to labels, one whole vector for each stage of figure 4-1.

use crate::annex_c::{Interleaver, UpperPosition};
use crate::bch;
use crate::tables::{self, Format, SECTION};
use crate::trellis::{self, Run};

/// 4.4.1: the puncturing period of the upper register in outer coded bits.
pub const PERIOD: usize = 300;

/// Document 004, 4.1.1.1: the first K1 bits of a block go through the trellises,
/// the K2 others to the BCH encoder.
pub fn apportioned<'a>(format: &Format, block: &'a [u8]) -> (&'a [u8], &'a [u8]) {
    assert_eq!(block.len(), format.K);
    block.split_at(format.K1)
}

/// 4.2: the outer encoder, over the K1 bits and two terminating bits.
pub fn outer(bits: &[u8]) -> Run {
    trellis::terminated_run(bits)
}

/// 4.2, figure 4-3: all systematic bits and every second parity bit. For each
/// pair of trellis steps: systematic, parity, systematic.
pub fn outer_kept(outer: &Run) -> Vec<u8> {
    let systematic = outer.systematic.chunks(2);
    let parity = outer.parity.chunks(2);
    systematic
        .zip(parity)
        .flat_map(|(s, p)| [s[0], p[0], s[1]])
        .collect()
}

/// 4.3, annex C: the outer encoder writes in natural order, the inner encoder
/// reads address pi(i) at time i.
pub fn interleave(interleaver: &Interleaver, written: &[u8]) -> Vec<u8> {
    let addresses = interleaver.permutation();
    addresses.iter().map(|address| written[address.0]).collect()
}

/// 4.4.1: the inner encoder. Its systematic bits are the upper register, its
/// parity bits the lower; each has I + 2.
pub fn inner(read: &[u8]) -> Run {
    trellis::terminated_run(read)
}

/// 4.4.2 a): 300 elements, 0 at the first 300 - S_sur positions of table 4-2
/// and 1 elsewhere.
pub fn pattern(S_sur: usize) -> Vec<u8> {
    let mut elements = vec![1; PERIOD];
    for entry in &tables::table_4_2()[..PERIOD - S_sur] {
        elements[entry.position] = 0;
    }
    elements
}

/// 4.4.2 b) and c): which positions of the upper register are transmitted. The
/// two terminating bits always are.
pub fn upper_kept(format: &Format, interleaver: &Interleaver) -> Vec<bool> {
    let elements = pattern(format.S_sur);
    let mut kept: Vec<bool> = (0..format.I)
        .map(|i| interleaver.pi(UpperPosition(i)).0 % PERIOD)
        .map(|j| elements[j] == 1)
        .collect();
    kept.extend([true, true]);
    kept
}

/// 4.4.3.2: which positions of the lower register are transmitted, by the rate
/// matching algorithm. The two terminating bits always are.
pub fn lower_kept(format: &Format) -> Vec<bool> {
    let I = format.I as i64;
    let Delta = format.Delta as i64;
    let mut kept = Vec::new();
    let mut e: i64 = 1;
    for _ in 0..I {
        if e > 0 {
            kept.push(true);
        } else {
            kept.push(false);
            e += I;
        }
        e -= Delta;
    }
    kept.extend([true, true]);
    kept
}

/// The bits of a register that are kept, in order.
pub fn select(register: &[u8], kept: &[bool]) -> Vec<u8> {
    assert_eq!(register.len(), kept.len());
    let pairs = register.iter().zip(kept);
    pairs.filter(|pair| *pair.1).map(|pair| *pair.0).collect()
}

/// 4.5, third paragraph: the transmitted systematic bits, then the transmitted
/// parity bits. In formats 1 to 27 this is the codeword.
pub fn trellis_part(format: &Format, interleaver: &Interleaver, registers: &Run) -> Vec<u8> {
    let upper = select(&registers.systematic, &upper_kept(format, interleaver));
    let lower = select(&registers.parity, &lower_kept(format));
    [upper, lower].concat()
}

/// Document 004, 4.3: the BCH codewords of the pieces, one behind the other.
pub fn bch_part(bits: &[u8]) -> Vec<u8> {
    bits.chunks(bch::PIECE).flat_map(bch::codeword).collect()
}

/// What one encoding gives.
pub struct Encoded {
    /// The outer kept bits before interleaving: the first I bytes of the
    /// workspace after an encode call.
    pub workspace: Vec<u8>,
    pub codeword: Vec<u8>,
}

/// Figure 4-1, here and in document 004: the whole encoder, for a block of K bits.
pub fn encode(format: &Format, interleaver: &Interleaver, block: &[u8]) -> Encoded {
    let (soft, hard) = apportioned(format, block);
    let workspace = outer_kept(&outer(soft));
    let registers = inner(&interleave(interleaver, &workspace));
    let trellis_part = trellis_part(format, interleaver, &registers);
    Encoded {
        workspace,
        codeword: [trellis_part, bch_part(hard)].concat(),
    }
}

/// 4.5 and 4.6, and document 004, 4.4: a memory of 8100 rows and m columns,
/// written column by column and read row by row, the most significant bit first.
pub fn labels(format: &Format, codeword: &[u8]) -> Vec<u8> {
    let columns: Vec<&[u8]> = codeword.chunks(SECTION).collect();
    assert_eq!(columns.len(), format.m);
    (0..SECTION)
        .map(|row| {
            let bits = columns.iter().map(|column| column[row]);
            bits.fold(0, |label, bit| 2 * label + bit)
        })
        .collect()
}

#[cfg(test)]
mod tests {
    use super::*;
    use crate::annex_c;

    #[test]
    fn kept_outer_bits_alternate_as_figure_4_3() {
        let outer = Run {
            systematic: vec![10, 11, 12, 13],
            parity: vec![20, 21, 22, 23],
            end: trellis::ZERO,
        };
        assert_eq!(outer_kept(&outer), [10, 20, 11, 12, 22, 13]);
    }

    /// The other direction is a permutation too, and only this tells them apart.
    #[test]
    fn time_0_reads_address_pi_of_0() {
        let written: Vec<u8> = (0..240).collect();
        let read = interleave(&annex_c::small(), &written);
        assert_eq!(read[..3], [239, 6, 1]);
    }

    /// S_sur = 299 punctures outer bit 76 alone, which the small interleaver
    /// reads at time 71.
    #[test]
    fn the_pattern_looks_at_pi() {
        let format = Format {
            S_sur: 299,
            I: 240,
            ..tables::format(1).unwrap()
        };
        let kept = upper_kept(&format, &annex_c::small());
        let punctured: Vec<usize> = (0..242).filter(|&i| !kept[i]).collect();
        assert_eq!(punctured, [71]);
    }

    /// S_sur = 200 punctures every position of table 4-2, the terminating bits
    /// not even then.
    #[test]
    fn terminating_bits_are_always_kept() {
        let format = Format {
            S_sur: 200,
            I: 240,
            Delta: 240,
            ..tables::format(1).unwrap()
        };
        assert_eq!(upper_kept(&format, &annex_c::small())[240..], [true; 2]);
        assert_eq!(lower_kept(&format)[240..], [true; 2]);
    }

    #[test]
    fn rate_matching_keeps_p_bits() {
        for f in tables::formats() {
            let kept = lower_kept(f).iter().filter(|kept| **kept).count();
            assert_eq!(kept, f.P, "format {}", f.number);
        }
    }

    /// 4.5: the first symbol carries bits 0, 8100, .., the last 8099, 16199, ..
    #[test]
    fn first_bit_of_a_label_weighs_most() {
        let format = tables::format(7).unwrap();
        let mut codeword = vec![0; format.N];
        codeword[0] = 1;
        codeword[2 * SECTION + 1] = 1;
        codeword[2 * SECTION - 1] = 1;
        let labels = labels(&format, &codeword);
        assert_eq!(labels[..2], [4, 1]);
        assert_eq!(labels[SECTION - 1], 2);
        assert_eq!(labels.iter().filter(|label| **label > 0).count(), 3);
    }

    /// Document 004, 4.4: the trellises fill the first four columns, and the pieces
    /// those behind them.
    #[test]
    fn the_first_four_columns_are_the_trellises() {
        let format = tables::format(37).unwrap();
        let mut codeword = vec![0; format.N];
        codeword[..format.N1()].fill(1);
        assert_eq!(labels(&format, &codeword), [0b1111_0000; SECTION]);
        codeword.fill(1);
        assert_eq!(labels(&format, &codeword), [255; SECTION]);
        codeword[7 * SECTION] = 0;
        assert_eq!(labels(&format, &codeword)[..2], [254, 255]);
    }

    /// Two pieces with a single one each, at the end and at the front of the second.
    #[test]
    fn pieces_are_coded_apart() {
        let mut bits = vec![0; 2 * bch::PIECE];
        bits[bch::PIECE - 1] = 1;
        bits[bch::PIECE] = 1;
        let coded = bch_part(&bits);
        assert_eq!(coded.len(), 2 * SECTION);
        assert_eq!(coded[..SECTION], bch::codeword(&bits[..bch::PIECE]));
        assert_eq!(coded[SECTION..], bch::codeword(&bits[bch::PIECE..]));
        assert_eq!(bch_part(&[]), []);
    }

    #[test]
    fn a_block_is_cut_behind_k1_bits() {
        let format = tables::format(28).unwrap();
        let mut block = vec![0; format.K];
        block[19_198..].fill(1);
        let (soft, hard) = apportioned(&format, &block);
        assert_eq!((soft, hard), (&[0; 19_198][..], &[1; 24_144][..]));
        let format = tables::format(27).unwrap();
        let block = vec![0; format.K];
        assert_eq!(apportioned(&format, &block), (&block[..], &[][..]));
    }
}
