//! The plain encoder's slicer: the bits of an octet and the randomizer's octets
//! from tables, what waits moved as a whole.

use crate::plain::all_at_most;
use interface::{BlockAnswer, Slicer, SlicerAnswer};
use oracle::slicer::MEMORY;
use oracle::transfer::{self, marked_bits, LEAST_OCTETS, MOST_OCTETS, PERIOD};

pub struct PlainSlicer {
    marker: Vec<u8>,
    /// The sequence repeats after so many bits, and so after as many octets.
    randomizer: [u8; PERIOD],
    /// The bits of each octet.
    bits: [[u8; 8]; 256],
}

impl PlainSlicer {
    pub fn new() -> PlainSlicer {
        let octet = |bits: &[u8]| bits.iter().fold(0, |octet, bit| 2 * octet + bit);
        let sequence: Vec<u8> = transfer::sequence().chunks(8).map(octet).collect();
        PlainSlicer {
            marker: transfer::marker(),
            randomizer: std::array::from_fn(|i| sequence[i]),
            bits: std::array::from_fn(|octet| {
                std::array::from_fn(|place| (octet >> (7 - place) & 1) as u8)
            }),
        }
    }

    pub fn push(&self, k: usize, slicer: Slicer, frame: &[u8], waiting: &mut [u8]) -> SlicerAnswer {
        let number = check_push(k, &slicer, frame, waiting);
        if number != 0 {
            return SlicerAnswer { number, slicer };
        }
        let from = slicer.waiting as usize;
        let to = from + marked_bits(frame.len());
        self.mark(frame, &mut waiting[from..to]);
        SlicerAnswer {
            number,
            slicer: Slicer {
                frame_length: frame.len() as u64,
                waiting: to as u64,
                ..slicer
            },
        }
    }

    /// The marker, then the randomized frame.
    fn mark(&self, frame: &[u8], out: &mut [u8]) {
        let (marker, bits) = out.split_at_mut(self.marker.len());
        marker.copy_from_slice(&self.marker);
        for (octets, bits) in frame.chunks(PERIOD).zip(bits.chunks_mut(8 * PERIOD)) {
            let randomized = octets.iter().zip(&self.randomizer).map(|(a, b)| a ^ b);
            for (bits, octet) in bits.chunks_exact_mut(8).zip(randomized) {
                bits.copy_from_slice(&self.bits[usize::from(octet)]);
            }
        }
    }

    pub fn block(
        &self,
        k: usize,
        slicer: Slicer,
        waiting: &mut [u8],
        out: &mut [u8],
    ) -> BlockAnswer {
        let mut answer = BlockAnswer {
            number: check_waiting(&slicer, waiting),
            wait: 0,
            slicer,
        };
        if answer.number == 0 && out.len() < k {
            answer.number = 5;
        }
        if answer.number != 0 {
            return answer;
        }
        let count = slicer.waiting as usize;
        if count < k {
            answer.wait = 1;
            return answer;
        }
        out[..k].copy_from_slice(&waiting[..k]);
        waiting.copy_within(k..count, 0);
        answer.slicer.waiting -= k as u64;
        answer
    }
}

fn check_push(k: usize, slicer: &Slicer, frame: &[u8], waiting: &[u8]) -> u64 {
    if !(LEAST_OCTETS..=MOST_OCTETS).contains(&frame.len()) {
        return 9;
    }
    if slicer.frame_length != 0 && slicer.frame_length != frame.len() as u64 {
        return 10;
    }
    if slicer.waiting >= k as u64 {
        return 11;
    }
    check_waiting(slicer, waiting)
}

fn check_waiting(slicer: &Slicer, waiting: &[u8]) -> u64 {
    if slicer.waiting > MEMORY as u64 {
        return 2;
    }
    let there = waiting.len().min(slicer.waiting as usize);
    if !all_at_most(&waiting[..there], 1) {
        return 3;
    }
    if waiting.len() < MEMORY {
        return 4;
    }
    0
}
