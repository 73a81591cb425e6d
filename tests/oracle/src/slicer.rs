//! 3.4: the slicer (requests L1 and L4), transfer frames in and information
//! blocks out.
//!
//! The bits that wait stand in lent memory, a bit a byte, from byte 0 on. A
//! call is told what the memory holds, and tells what its front holds
//! afterwards; behind that front nothing changes.

use crate::checks::{self, PASSED};
use crate::{tables, transfer};

/// Bytes of the memory that a slicer's calls are lent, at least.
pub const MEMORY: usize = 600_000;

/// What goes from call to call beside the memory.
#[derive(Clone, Copy, Debug, PartialEq, Eq)]
pub struct Slicer {
    pub format: u64,
    /// Octets of the channel's frames, 0 before the first.
    pub frame_length: u64,
    /// Bits that wait.
    pub waiting: u64,
}

impl Slicer {
    /// A fresh slicer, of any format.
    pub fn new(format: u64) -> Slicer {
        Slicer {
            format,
            frame_length: 0,
            waiting: 0,
        }
    }

    /// The bits that wait, as far as the memory has them.
    pub fn bits<'a>(&self, memory: &'a [u8]) -> &'a [u8] {
        &memory[..memory.len().min(self.waiting as usize)]
    }
}

/// What a push gives.
#[derive(Debug, PartialEq, Eq)]
pub struct Pushed {
    pub number: u64,
    pub slicer: Slicer,
    /// What the memory's front holds; nothing new in a refusal.
    pub front: Vec<u8>,
}

/// A frame: once it is marked, its bits stand behind those that wait.
pub fn push(slicer: Slicer, frame: &[u8], memory: &[u8]) -> Pushed {
    let number = checks::push(&slicer, frame, memory);
    let nothing = Pushed {
        number,
        slicer,
        front: vec![],
    };
    if number != PASSED {
        return nothing;
    }
    let front = [slicer.bits(memory), &transfer::marked(frame)].concat();
    Pushed {
        slicer: Slicer {
            format: slicer.format,
            frame_length: frame.len() as u64,
            waiting: front.len() as u64,
        },
        front,
        ..nothing
    }
}

/// What asking for a block gives.
#[derive(Debug, PartialEq, Eq)]
pub struct Taken {
    pub number: u64,
    pub wait: bool,
    pub slicer: Slicer,
    /// What the memory's front holds, and the output's; nothing new in a
    /// refusal or where one has to wait.
    pub front: Vec<u8>,
    pub block: Vec<u8>,
}

/// A block: the first K bits that wait. The others move to the front.
pub fn block(slicer: Slicer, memory: &[u8], out_len: usize) -> Taken {
    let number = checks::block(&slicer, memory, out_len);
    let nothing = Taken {
        number,
        wait: false,
        slicer,
        front: vec![],
        block: vec![],
    };
    if number != PASSED {
        return nothing;
    }
    let K = tables::format(slicer.format).expect("it has passed 1").K;
    let bits = slicer.bits(memory);
    if bits.len() < K {
        return Taken {
            wait: true,
            ..nothing
        };
    }
    let (block, others) = bits.split_at(K);
    Taken {
        slicer: Slicer {
            waiting: others.len() as u64,
            ..slicer
        },
        front: others.to_vec(),
        block: block.to_vec(),
        ..nothing
    }
}

/// What a change of format gives.
#[derive(Debug, PartialEq, Eq)]
pub struct Changed {
    pub number: u64,
    pub slicer: Slicer,
}

/// A change of format: the bits that wait are kept for blocks of the new one.
pub fn change(slicer: Slicer, format: u64) -> Changed {
    let number = checks::change(&slicer, format);
    let slicer = match number {
        PASSED => Slicer { format, ..slicer },
        _ => slicer,
    };
    Changed { number, slicer }
}

/// What a look gives: the blocks that the waiting bits yield, and the bits that
/// stay; nothing of either in a refusal.
#[derive(Debug, PartialEq, Eq)]
pub struct Ahead {
    pub number: u64,
    pub blocks: u64,
    pub bits: u64,
}

/// A look: a copy is given the command, and K bits are taken off until it would
/// have to wait.
pub fn look(slicer: Slicer, format: u64) -> Ahead {
    let changed = change(slicer, format);
    let mut ahead = Ahead {
        number: changed.number,
        blocks: 0,
        bits: 0,
    };
    if changed.number != PASSED {
        return ahead;
    }
    let K = tables::format(format).expect("it has passed 1").K as u64;
    ahead.bits = changed.slicer.waiting;
    while ahead.bits >= K {
        ahead.bits -= K;
        ahead.blocks += 1;
    }
    ahead
}

#[cfg(test)]
mod tests {
    use super::*;
    use crate::checks::{BLOCK_WAITS, CHANNEL_LENGTH};
    use crate::digest::seeded_block;

    const FRAME: usize = 1115;
    const K: usize = 5758;

    /// Two frames, of which the second has to wait for a block to be taken.
    #[test]
    fn blocks_and_what_waits_are_the_stream() {
        let frames = [vec![0; FRAME], vec![0xA5; FRAME]];
        let mut memory = vec![9; MEMORY];
        let mut slicer = Slicer::new(1);
        let mut handed = vec![];
        for frame in &frames {
            let pushed = push(slicer, frame, &memory);
            assert_eq!(pushed.number, PASSED);
            slicer = pushed.slicer;
            memory[..pushed.front.len()].copy_from_slice(&pushed.front);
            assert_eq!(push(slicer, frame, &memory).number, BLOCK_WAITS);

            let taken = block(slicer, &memory, K);
            assert_eq!((taken.number, taken.wait), (PASSED, false));
            slicer = taken.slicer;
            memory[..taken.front.len()].copy_from_slice(&taken.front);
            handed.extend(taken.block);
        }
        let longer = push(slicer, &[0; FRAME + 1], &memory);
        assert_eq!(longer.number, CHANNEL_LENGTH);
        assert_eq!(slicer.frame_length, FRAME as u64);
        handed.extend(slicer.bits(&memory));
        assert_eq!(handed, transfer::stream(&frames));
    }

    #[test]
    fn a_bit_too_few_has_to_wait() {
        let memory = seeded_block(1, MEMORY);
        let slicer = |waiting| Slicer {
            waiting,
            ..Slicer::new(1)
        };
        let wait = block(slicer(K as u64 - 1), &memory, K);
        assert!(wait.wait && wait.number == PASSED);
        assert_eq!(wait.slicer, slicer(K as u64 - 1));
        assert!(wait.front.is_empty() && wait.block.is_empty());
        let taken = block(slicer(K as u64 + 1), &memory, K);
        assert!(!taken.wait && taken.number == PASSED);
        assert_eq!(taken.slicer, slicer(1));
        assert_eq!(taken.front, memory[K..=K]);
        assert_eq!(taken.block, memory[..K]);
    }

    /// 600,000 is 104 x 5758 + 1168, 13 x 43678 + 32186 and 9 x 60510 + 55410.
    #[test]
    fn a_look_by_hand() {
        let slicer = |waiting| Slicer {
            waiting,
            ..Slicer::new(13)
        };
        for (waiting, format, blocks, bits) in [
            (600_000, 1, 104, 1168),
            (600_000, 27, 13, 32_186),
            (600_000, 37, 9, 55_410),
            (60_509, 37, 0, 60_509),
            (5757, 1, 0, 5757),
            (5758, 1, 1, 0),
            (19_198, 1, 3, 1924),
            (0, 1, 0, 0),
        ] {
            let ahead = look(slicer(waiting), format);
            assert_eq!((ahead.number, ahead.blocks), (PASSED, blocks));
            assert_eq!(ahead.bits, bits);
        }
    }

    /// As the request says it: a copy, the command, and blocks until "wait".
    #[test]
    fn a_look_is_the_command_and_the_blocks_that_follow() {
        let memory = seeded_block(2, MEMORY);
        let slicer = Slicer {
            waiting: 100_000,
            ..Slicer::new(13)
        };
        for f in tables::formats() {
            let (mut copy, mut memory) = (change(slicer, f.number).slicer, memory.clone());
            let mut handed = vec![];
            let mut taken = block(copy, &memory, f.K);
            while !taken.wait {
                assert_eq!((taken.number, taken.block.len()), (PASSED, f.K));
                handed.push(taken.block);
                memory[..taken.front.len()].copy_from_slice(&taken.front);
                copy = taken.slicer;
                taken = block(copy, &memory, f.K);
            }
            let ahead = look(slicer, f.number);
            assert_eq!(ahead.number, PASSED);
            assert_eq!(ahead.blocks, handed.len() as u64);
            assert_eq!(ahead.bits, copy.waiting);
            let all = [handed.concat(), copy.bits(&memory).to_vec()].concat();
            assert_eq!(all, seeded_block(2, 100_000));
        }
    }
}
