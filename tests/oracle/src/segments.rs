//! A trellis' input cut into segments (document 02, L6; section 6), and the
//! states that a parallel encoder goes by.

use crate::annex_c::Interleaver;
use crate::encoder;
use crate::tables::Format;
use crate::trellis::{self, State, ZERO};

/// Cuts of a list, at most.
pub const MOST_CUTS: usize = 15;

/// Of each segment, in order.
#[derive(Clone, Debug, PartialEq, Eq)]
pub struct States {
    /// The final state of a run from zero, FS in section 6.
    pub ended: Vec<State>,
    /// The state that the plain run has where the segment begins.
    pub started: Vec<State>,
}

/// Where each segment begins and ends: one more than there are cuts.
pub fn bounds(length: usize, cuts: &[u16]) -> Vec<[usize; 2]> {
    let places = cuts.iter().map(|&cut| usize::from(cut));
    let begins = [0].into_iter().chain(places.clone());
    let ends = places.chain([length]);
    begins.zip(ends).map(|(from, to)| [from, to]).collect()
}

/// The cuts of n segments, equal as nearly as can be.
pub fn equal_cuts(length: usize, n: usize) -> Vec<u16> {
    (1..n).map(|j| (length * j / n) as u16).collect()
}

/// The states of the segments of the bits u, by their definition.
pub fn states(u: &[u8], cuts: &[u16]) -> States {
    let plain = trellis::states(ZERO, u);
    let bounds = bounds(u.len(), cuts).into_iter();
    let (ended, started) = bounds
        .map(|[from, to]| (trellis::run(ZERO, &u[from..to]).end, plain[from]))
        .unzip();
    States { ended, started }
}

/// Equation 6-6: the starting states, worked out from the lengths of the
/// segments and their final states from zero. The last one is the state in
/// which the plain run ends.
pub fn propagated(bounds: &[[usize; 2]], ended: &[State]) -> Vec<State> {
    let mut x = vec![ZERO];
    for (&[from, to], &FS) in bounds.iter().zip(ended) {
        x.push(trellis::final_state(x[x.len() - 1], to - from, FS));
    }
    x
}

/// What the two trellises read while a block is encoded: its first K1 bits, and
/// the interleaved bits.
pub fn inputs(format: &Format, interleaver: &Interleaver, block: &[u8]) -> [Vec<u8>; 2] {
    let (soft, _) = encoder::apportioned(format, block);
    let kept = encoder::outer_kept(&encoder::outer(soft));
    [soft.to_vec(), encoder::interleave(interleaver, &kept)]
}

#[cfg(test)]
mod tests {
    use super::*;
    use crate::{annex_c, tables};

    /// A one, and then zeros: A^n B for each n, by equation 6-7.
    #[test]
    fn a_one_goes_round() {
        let u = [1, 0, 0, 0, 0, 0];
        let found = states(&u, &[1, 2, 3, 4]);
        assert_eq!(found.started, [[0, 0], [0, 1], [1, 1], [1, 0], [0, 1]]);
        assert_eq!(found.ended, [[0, 1], ZERO, ZERO, ZERO, ZERO]);
    }

    #[test]
    fn equal_cuts_make_an_empty_segment() {
        let found = states(&[1, 1], &[0, 1, 1, 2]);
        assert_eq!(found.ended, [ZERO, [0, 1], ZERO, [0, 1], ZERO]);
        assert_eq!(found.started, [ZERO, ZERO, [0, 1], [0, 1], [1, 0]]);
    }

    /// Ones in the pieces alone: no trellis reads any.
    #[test]
    fn the_outer_trellis_reads_k1_bits() {
        let annex_c = annex_c::data();
        let format = tables::format(37).unwrap();
        let mut block = vec![0; format.K];
        block[28_318..].fill(1);
        let [outer, inner] = inputs(&format, annex_c.of_size(format.I), &block);
        assert_eq!(outer, [0; 28_318]);
        assert_eq!(inner, [0; 42_480]);
    }

    #[test]
    fn cuts_of_equal_segments() {
        assert_eq!(equal_cuts(12, 4), [3, 6, 9]);
        assert_eq!(equal_cuts(65_520, 16)[14], 61_425);
        assert_eq!(equal_cuts(7, 1), []);
        assert_eq!(bounds(7, &[2, 2]), [[0, 2], [2, 2], [2, 7]]);
    }
}
