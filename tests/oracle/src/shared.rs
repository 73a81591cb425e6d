//! Channels that share the memory of one expanded interleaver (document 02,
//! L10).
//!
//! The memory goes from call to call with its mark, the size that it holds. A
//! call is told both; it tells the mark, and what the fronts of the lent buffers
//! hold afterwards. Behind those fronts nothing changes.

use crate::annex_c::{AnnexC, Interleaver};
use crate::checks::{self, PASSED};
use crate::encoder;
use crate::tables::{self, Format};

/// Entries of a memory that serves every format.
pub const MOST_ENTRIES: usize = 65_520;

/// The mark of a memory that holds no size.
pub const NONE_HELD: u64 = 0;

/// The expanded interleaver: entry i is the interleaved position of i.
pub fn expanded(interleaver: &Interleaver) -> Vec<u16> {
    let positions = interleaver.permutation().into_iter();
    positions.map(|position| position.0 as u16).collect()
}

/// What a call gives.
#[derive(Debug, PartialEq, Eq)]
pub struct Shared {
    pub number: u64,
    /// The mark afterwards.
    pub held: u64,
    /// What the fronts of memory, workspace and output hold; nothing new in a
    /// refusal.
    pub entries: Vec<u16>,
    pub workspace: Vec<u8>,
    pub codeword: Vec<u8>,
}

/// A block encoded through the interleaver in a memory, which is first built
/// there where the mark is not the call's size. Workspace and codeword are the
/// plain encoder's.
pub fn encode(
    annex_c: &AnnexC,
    format: u64,
    block: &[u8],
    work_len: usize,
    out_len: usize,
    memory: &[u16],
    held: u64,
) -> Shared {
    let number = checks::encode_shared(annex_c, format, block, work_len, out_len, memory, held);
    if number != PASSED {
        return Shared {
            number,
            held,
            entries: vec![],
            workspace: vec![],
            codeword: vec![],
        };
    }
    let f = tables::format(format).expect("it has passed 1");
    let interleaver = annex_c.of_size(f.I);
    let size = f.I as u64;
    let encoded = encoder::encode(&f, interleaver, block);
    let entries = if held == size {
        memory[..f.I].to_vec()
    } else {
        expanded(interleaver)
    };
    Shared {
        number,
        held: size,
        entries,
        workspace: encoded.workspace,
        codeword: encoded.codeword,
    }
}

/// A memory and its mark, as the last call left them.
pub struct Memory {
    pub entries: Vec<u16>,
    pub held: u64,
}

impl Memory {
    /// One that serves every format and holds no size; its entries may be anything.
    pub fn fresh() -> Memory {
        Memory {
            entries: vec![u16::MAX; MOST_ENTRIES],
            held: NONE_HELD,
        }
    }

    /// A call with just as much workspace and output as it takes.
    pub fn encode(&mut self, annex_c: &AnnexC, f: &Format, block: &[u8]) -> Shared {
        let given = encode(annex_c, f.number, block, f.I, f.N, &self.entries, self.held);
        self.entries[..given.entries.len()].copy_from_slice(&given.entries);
        self.held = given.held;
        given
    }
}

#[cfg(test)]
mod tests {
    use super::*;
    use crate::annex_c;
    use crate::checks::{ELEMENT, LENGTH};
    use crate::digest::seeded_block;

    const I: usize = 8640;

    #[test]
    fn the_largest_size_has_the_most_entries() {
        let sizes = tables::formats().iter().map(|f| f.I);
        assert_eq!(sizes.max(), Some(MOST_ENTRIES));
    }

    #[test]
    fn entries_are_interleaved_positions() {
        let entries = expanded(&annex_c::small());
        assert_eq!((entries.len(), &entries[..3]), (240, &[239, 6, 1][..]));
        let data = annex_c::data();
        let longest = expanded(data.of_size(MOST_ENTRIES));
        assert_eq!(longest.iter().max(), Some(&65_519));
    }

    /// Whatever stood there: a memory is built unless its mark is the size.
    #[test]
    fn any_other_mark_builds() {
        let annex_c = annex_c::data();
        let f = tables::format(1).unwrap();
        let block = seeded_block(1, f.K);
        let plain = encoder::encode(&f, annex_c.of_size(I), &block);
        for mark in [
            0,
            72,
            8639,
            8641,
            28_800,
            1 << 16 | 8640,
            1 << 32 | 8640,
            u64::MAX,
        ] {
            let mut memory = Memory {
                held: mark,
                ..Memory::fresh()
            };
            let given = memory.encode(&annex_c, &f, &block);
            assert_eq!((given.number, given.held), (PASSED, 8640));
            assert_eq!(given.workspace, plain.workspace);
            assert_eq!(given.codeword, plain.codeword);
            assert_eq!(memory.entries[..I], expanded(annex_c.of_size(I)));
            assert_eq!(memory.entries[I..], [u16::MAX; MOST_ENTRIES - I]);
        }
    }

    #[test]
    fn a_refusal_gives_the_mark_back() {
        let annex_c = annex_c::data();
        let f = tables::format(1).unwrap();
        let block = seeded_block(1, f.K);
        for (mark, block, number) in [
            (0, &block[1..], LENGTH),
            (28_800, &block[1..], LENGTH),
            (8640, &block, ELEMENT),
        ] {
            let mut memory = Memory {
                held: mark,
                ..Memory::fresh()
            };
            let given = memory.encode(&annex_c, &f, block);
            assert_eq!(
                (given.number, given.held, memory.held),
                (number, mark, mark)
            );
            assert_eq!(memory.entries, [u16::MAX; MOST_ENTRIES]);
            assert!(given.workspace.is_empty() && given.codeword.is_empty());
        }
    }

    /// A's calls, with B's between them and without.
    #[test]
    fn a_channel_does_not_see_the_other() {
        let annex_c = annex_c::data();
        let [a, b] = [13, 27].map(|number| tables::format(number).unwrap());
        let block = seeded_block(2, a.K);
        let mut alone = Memory::fresh();
        let mut both = Memory::fresh();
        for length in [a.K, a.K - 1, a.K] {
            let due = alone.encode(&annex_c, &a, &block[..length]);
            both.encode(&annex_c, &b, &seeded_block(3, b.K));
            both.encode(&annex_c, &b, &[2]);
            let given = both.encode(&annex_c, &a, &block[..length]);
            assert_eq!((given.number, given.codeword), (due.number, due.codeword));
        }
    }
}
