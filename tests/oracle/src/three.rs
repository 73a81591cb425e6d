//! Document 02, L13: the list of transfer frames that is the exclusive or of three
//! lists, and the labels of a list's frame.

use crate::annex_c::AnnexC;
use crate::encoder;
use crate::framing::SECTIONS;
use crate::tables::Format;
use crate::transfer;
use std::ops::BitXor;

/// Transfer frames, one behind the other.
pub type List = Vec<Vec<u8>>;

/// Place by place, of equally long lists.
pub fn exclusive_or<T: Copy + BitXor<Output = T>>([a, b, c]: [&[T]; 3]) -> Vec<T> {
    assert!(a.len() == b.len() && b.len() == c.len());
    (0..a.len()).map(|i| a[i] ^ b[i] ^ c[i]).collect()
}

/// Octet by octet, of equally long lists of equally long frames.
pub fn exclusive_or_of_lists([a, b, c]: &[List; 3]) -> List {
    assert!(a.len() == b.len() && b.len() == c.len());
    (0..a.len())
        .map(|n| exclusive_or([&a[n], &b[n], &c[n]]))
        .collect()
}

/// The labels of a list's first sixteen blocks.
pub fn labels(annex_c: &AnnexC, format: &Format, list: &[Vec<u8>]) -> Vec<u8> {
    let stream = transfer::stream(list);
    assert!(stream.len() >= SECTIONS * format.K);
    let blocks = stream.chunks(format.K).take(SECTIONS);
    let codeword = |block| encoder::encode(format, annex_c.of_size(format.I), block).codeword;
    blocks
        .flat_map(|block| encoder::labels(format, &codeword(block)))
        .collect()
}

#[cfg(test)]
mod tests {
    use super::*;
    use crate::annex_c;
    use crate::digest::test_lists;
    use crate::framing;
    use crate::tables;

    /// The frames of a format's three test lists, and behind them that of the list
    /// that is their exclusive or; pilots off, and on.
    fn frames(format: u64) -> [[Vec<u16>; 4]; 2] {
        let annex_c = annex_c::data();
        let f = tables::format(format).unwrap();
        let lists = test_lists(&f);
        let built = exclusive_or_of_lists(&lists);
        let [a, b, c] = &lists;
        let labels = [a, b, c, &built].map(|list| labels(&annex_c, &f, list));
        [0, 1].map(|pilots| {
            let frame = |labels: Vec<u8>| framing::frame(&f, pilots, &labels);
            labels.clone().map(frame)
        })
    }

    #[test]
    fn three_frames_make_a_frame() {
        for format in [1, 13, 27, 28, 37] {
            for [a, b, c, built] in frames(format) {
                assert!(exclusive_or([&a, &b, &c]) == built, "{format}");
                assert!(![a, b, c].contains(&built), "{format}");
            }
        }
    }

    /// The header's slots are 0, and so are the pilots'.
    #[test]
    fn two_frames_make_none() {
        for [a, b, ..] in frames(13) {
            let made: Vec<u16> = a.iter().zip(&b).map(|(a, b)| a ^ b).collect();
            assert!(made[..320].iter().all(|&slot| slot == 0));
            assert!((320..a.len()).all(|s| a[s] != framing::PILOT || made[s] == 0));
            assert!(made.iter().any(|&slot| slot != 0));
        }
    }
}
