//! Three frames make a frame: the exclusive or of the library's frames of three lists
//! of transfer frames is its frame, and the oracle's, of the lists' exclusive or.

use crate::calls::{compared, equal, Compared};
use crate::generator::Generator;
use crate::slicer;
use crate::tally::Met;
use crate::tally::Outcome::{self, PilotsOff, PilotsOn};
use oracle::annex_c::AnnexC;
use oracle::checks::{BLOCK_WAITS, PASSED};
use oracle::framing::{self, FRAME_LABELS, SECTIONS};
use oracle::slicer::MEMORY;
use oracle::tables::{Format, SECTION};
use oracle::three::{self, exclusive_or, exclusive_or_of_lists, List};
use oracle::transfer;

/// What is met, by the pilot choice.
pub const OUTCOMES: &[Outcome] = &[PilotsOff, PilotsOn];

/// Three random lists, in a format with either pilot choice.
pub fn run(generator: &mut Generator, annex_c: &AnnexC, f: &Format) -> Compared<Vec<Met>> {
    let octets = slicer::frame_length(generator, false);
    let enough = (SECTIONS * f.K - 1) / transfer::marked_bits(octets) + 1;
    let count = enough + generator.below(2);
    let lists = [(); 3].map(|()| list(generator, count, octets));
    let whole = exclusive_or_of_lists(&lists);
    let labels = (lists.iter().chain([&whole])).map(|list| library_labels(generator, f, list));
    let labels = labels.collect::<Compared<Vec<_>>>()?;
    let own = three::labels(annex_c, f, &whole);

    let choices = [(0, PilotsOff), (1, PilotsOn)].into_iter();
    let compare = |(pilots, outcome)| {
        let frames = labels.iter().map(|labels| library_frame(f, pilots, labels));
        let frames = frames.collect::<Compared<Vec<_>>>()?;
        let made = exclusive_or([&frames[0], &frames[1], &frames[2]]);
        let own = framing::frame(f, pilots, &own);
        compared(
            format!(
                "format {}, pilots {pilots}, lists of {count} frames of {octets} octets",
                f.number
            ),
            Met {
                outcome,
                format: Some(f.number),
            },
            [
                same(&made, &frames[3], "the library's"),
                same(&made, &own, "the oracle's"),
            ],
        )
    };
    choices.map(compare).collect()
}

fn list(generator: &mut Generator, count: usize, octets: usize) -> List {
    (0..count).map(|_| generator.bytes(octets)).collect()
}

/// The labels of a list's first sixteen blocks, through a fresh slicer on any memory.
/// Pushes and calls for blocks come in any order: where a block is there a push is
/// refused, and where none is a call for one has to wait.
fn library_labels(generator: &mut Generator, f: &Format, list: &[Vec<u8>]) -> Compared<Vec<u8>> {
    let mut memory = generator.bytes(MEMORY);
    let mut block = vec![0; f.K];
    let mut slicer = interface::slicer_new(f.number);
    let (mut rest, mut waiting) = (list, 0);
    let mut labels = vec![];
    while labels.len() < FRAME_LABELS {
        let there = waiting >= f.K;
        match rest.split_first() {
            Some((frame, others)) if generator.coin() => {
                let pushed = interface::slicer_push(slicer, frame, &mut memory);
                equal(pushed.number, if there { BLOCK_WAITS } else { PASSED })?;
                slicer = pushed.slicer;
                if !there {
                    waiting += transfer::marked_bits(frame.len());
                    rest = others;
                }
            }
            _ => {
                let taken = interface::slicer_block(slicer, &mut memory, &mut block);
                equal((taken.number, taken.wait), (PASSED, (!there).into()))?;
                slicer = taken.slicer;
                if there {
                    waiting -= f.K;
                    labels.extend(block_labels(f, &block)?);
                }
            }
        }
    }
    Ok(labels)
}

fn block_labels(f: &Format, block: &[u8]) -> Compared<Vec<u8>> {
    let [mut work, mut codeword, mut labels] = [f.I, f.N, SECTION].map(|length| vec![0; length]);
    let encoded = interface::encode(f.number, block, &mut work, &mut codeword);
    equal(encoded.into(), PASSED)?;
    let mapped = interface::labels(f.number, &codeword, &mut labels);
    equal(mapped.into(), PASSED)?;
    Ok(labels)
}

fn library_frame(f: &Format, pilots: u8, labels: &[u8]) -> Compared<Vec<u16>> {
    let length = framing::frame_slots(pilots.into()).expect("a pilot choice");
    let mut slots = vec![0; length];
    let number = interface::frame(f.number, pilots.into(), labels, &mut slots);
    equal(number.into(), PASSED)?;
    Ok(slots)
}

/// Whether what three frames make is a frame.
fn same(made: &[u16], frame: &[u16], name: &str) -> Result<(), String> {
    match (0..made.len()).find(|&s| made[s] != frame[s]) {
        None => Ok(()),
        Some(s) => Err(format!(
            "slot {s} of the exclusive or is {} instead of {name} {}",
            made[s], frame[s]
        )),
    }
}
