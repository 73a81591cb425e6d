//! The encoder with shared memory: single calls on any memory and mark, and runs
//! of two channels that share both.

use crate::calls::{compared, equal, met, Compared};
use crate::draw::{self, Plan};
use crate::encoding::Encoding;
use crate::generator::Generator;
use crate::lent::Lent;
use crate::tally::Met;
use crate::tally::Outcome::{self, Built, Held, Refused, RefusedFor};
use interface::SharedAnswer;
use oracle::annex_c::AnnexC;
use oracle::checks::{self, ELEMENT, FORMAT, LENGTH, MEMORY, OUTPUT, PASSED, WORKSPACE};
use oracle::shared::{self, expanded, Shared, MOST_ENTRIES, NONE_HELD};
use oracle::tables::{self, Format};

/// The checks of a call's arguments, in order, and with them the last one, of the
/// entries that it finds.
const ARGUMENTS: &[u64] = &[FORMAT, LENGTH, ELEMENT, WORKSPACE, OUTPUT, MEMORY];
const CHECKS: &[u64] = &[FORMAT, LENGTH, ELEMENT, WORKSPACE, OUTPUT, MEMORY, ENTRIES];

/// What a plan calls the second check that has the number 3.
const ENTRIES: u64 = 1000 + ELEMENT;

/// What calls meet, alone and in runs.
pub const OUTCOMES: &[Outcome] = &[
    Held,
    Built,
    Refused(FORMAT),
    Refused(LENGTH),
    Refused(ELEMENT),
    Refused(WORKSPACE),
    Refused(OUTPUT),
    Refused(MEMORY),
    RefusedFor(ELEMENT, "entries"),
];

/// A call on both sides with the front of a memory, and what it gives.
fn encode(
    annex_c: &AnnexC,
    e: &mut Encoding,
    memory: &mut Lent<u16>,
    length: usize,
    held: u64,
) -> Compared<Shared> {
    let [_, work, out] = e.lengths();
    let front = &memory.list()[..length];
    let expected = shared::encode(annex_c, e.format, e.block.list(), work, out, front, held);
    let answer = SharedAnswer {
        number: expected.number,
        held: expected.held,
    };
    let found = interface::encode_shared(
        e.format,
        e.block.list(),
        e.work.list_mut(),
        e.out.list_mut(),
        &mut memory.list_mut()[..length],
        held,
    );
    let results = [
        equal(found, answer),
        e.left(&expected.workspace, &expected.codeword),
        memory.holds("the memory", &expected.entries),
    ];
    let arguments = format!("{}, memory of {length}, held {held}", e.arguments());
    compared(arguments, expected, results)
}

/// What is met: whether the memory held the size, and which 3 is answered.
fn met_shared(e: &Encoding, held: u64, given: &Shared) -> Met {
    let mut met = met(given.number, &e.f);
    let [_, work, out] = e.lengths();
    let plain = checks::encode(e.format, e.block.list(), work, out);
    met.outcome = match given.number {
        PASSED if held == given.held => Held,
        PASSED => Built,
        ELEMENT if plain == PASSED => RefusedFor(ELEMENT, "entries"),
        _ => met.outcome,
    };
    met
}

pub fn shared_call(generator: &mut Generator, annex_c: &AnnexC) -> Compared {
    let plan = Plan::new(generator, CHECKS);
    let mut e = Encoding::new(generator, &plan);
    let (mut memory, held) = memory(generator, annex_c, &plan, &e.f);
    let length = memory.list().len();
    let given = encode(annex_c, &mut e, &mut memory, length, held)?;
    Ok(met_shared(&e, held, &given))
}

/// A memory and its mark. The mark is the format's size, and the entries are the
/// format's or, if they are to fail, not all of them; or it is another number, and
/// the entries are anything.
fn memory(
    generator: &mut Generator,
    annex_c: &AnnexC,
    plan: &Plan,
    f: &Format,
) -> (Lent<u16>, u64) {
    let fails = plan.fails(generator, MEMORY);
    let length = draw::room(generator, f.I, fails);
    let mut entries = generator.words(length);
    let fails = plan.fails(generator, ENTRIES);
    let other = draw::format(generator);
    let size = f.I as u64;
    let held = if fails || generator.below(3) == 0 {
        size
    } else {
        mark(generator, f, &other)
    };
    let there = if held == size {
        Some(f)
    } else {
        generator.pick(&[Some(f), Some(&other), None])
    };
    if let Some(there) = there {
        let expanded = expanded(annex_c.of_size(there.I));
        let both = entries.iter_mut().zip(expanded);
        both.for_each(|(entry, due)| *entry = due);
    }
    if fails {
        spoil(generator, f, &mut entries);
    }
    (Lent::words(generator, &entries), held)
}

/// A mark that is most likely not a format's size: none, another format's, one
/// that has the size's low bits, one near it, another number of the format, or
/// any.
fn mark(generator: &mut Generator, f: &Format, other: &Format) -> u64 {
    let [size, width, other] = [f.I, f.W(), other.I].map(|number| number as u64);
    match generator.below(5) {
        0 => NONE_HELD,
        1 => other,
        2 => size + (1 << generator.pick(&[16, 32, 32, 48, 63])),
        3 => generator.pick(&[size - 1, size + 1, width, f.number, u64::MAX]),
        _ => generator.number(),
    }
}

/// Makes entries of a format wrong, among those that a call reads: one is another
/// number; two are exchanged, so that all are there still; or those of one row
/// of annex C are the ones a column on, which the first column alone tells.
fn spoil(generator: &mut Generator, f: &Format, entries: &mut [u16]) {
    let read = entries.len().min(f.I);
    if read == 0 {
        return;
    }
    let entries = &mut entries[..read];
    let [at, other] = [(); 2].map(|()| place(generator, read, f.W()));
    match generator.below(4) {
        0 if at != other => entries.swap(at, other),
        1 => {
            for at in (at % f.W()..read).step_by(f.W()) {
                entries[at] = ((usize::from(entries[at]) + f.W()) % f.I) as u16;
            }
        }
        _ => {
            let any = 1 + generator.below(u16::MAX.into()) as u16;
            let bit = 1 << generator.below(16);
            let more = [1, u16::MAX, bit, f.W() as u16, f.I as u16, any];
            entries[at] = entries[at].wrapping_add(generator.pick(&more));
        }
    }
}

/// A place among the entries that a call reads: the first, the last, one in the
/// first column or in the last, or any.
fn place(generator: &mut Generator, read: usize, width: usize) -> usize {
    let inside = generator.below(width.min(read));
    let any = generator.below(read);
    generator.pick(&[0, read - 1, inside, read - 1 - inside, any])
}

/// Calls of a run.
const CALLS: usize = 16;

/// Two channels' memory and mark as the last call left them, and those that each
/// channel has for itself.
struct Run<'a> {
    annex_c: &'a AnnexC,
    /// What the channels ask for: two formats at least have one size.
    formats: [Format; 3],
    memory: Lent<u16>,
    held: u64,
    alone: [(Vec<u16>, u64); 2],
}

/// A run from mark 0 and any memory, with a format among others: calls of both
/// channels in any order, good ones and bad. In every second run something else
/// writes the memory or the mark between them; in the others each channel gets
/// what it gets alone.
pub fn run(generator: &mut Generator, annex_c: &AnnexC, f: &Format) -> Compared<Vec<Met>> {
    let of_size: Vec<Format> = (tables::formats().iter().copied())
        .filter(|other| other.I == f.I)
        .collect();
    let formats = [*f, generator.pick(&of_size), draw::format(generator)];
    let length = draw::room(generator, MOST_ENTRIES, false);
    let memory = Lent::filled_words(generator, length);
    let alone = [(); 2].map(|()| (memory.list().to_vec(), NONE_HELD));
    let mut run = Run {
        annex_c,
        formats,
        memory,
        held: NONE_HELD,
        alone,
    };
    let disturbed = generator.coin();
    let calls = (0..CALLS).map(|_| {
        if disturbed {
            run.disturb(generator);
        }
        run.call(generator, !disturbed)
    });
    calls.collect()
}

impl Run<'_> {
    /// A call, as a rule a good one, with the memory or a front of it.
    fn call(&mut self, generator: &mut Generator, undisturbed: bool) -> Compared {
        let plan = match generator.below(3) {
            0 => Plan::new(generator, ARGUMENTS),
            _ => Plan::passing(ARGUMENTS),
        };
        let f = generator.pick(&self.formats);
        let mut e = Encoding::of(generator, &plan, f);
        let fails = plan.fails(generator, MEMORY);
        let length = draw::room(generator, f.I, fails).min(self.memory.list().len());
        let buffers = [&e.work, &e.out].map(|lent| lent.list().to_vec());
        let given = encode(self.annex_c, &mut e, &mut self.memory, length, self.held)?;
        if undisturbed {
            let channel = generator.below(2);
            let same = self.alone(channel, &e, buffers, length, given.number);
            compared(e.arguments(), (), [same])?;
        }
        let met = met_shared(&e, self.held, &given);
        self.held = given.held;
        self.memory.settle();
        Ok(met)
    }

    /// The same call of a channel with memory and mark for itself: it gets the
    /// same.
    fn alone(
        &mut self,
        channel: usize,
        e: &Encoding,
        [mut work, mut out]: [Vec<u8>; 2],
        length: usize,
        number: u64,
    ) -> Result<(), String> {
        let (memory, held) = &mut self.alone[channel];
        let block = e.block.list();
        let front = &mut memory[..length];
        let answer = interface::encode_shared(e.format, block, &mut work, &mut out, front, *held);
        *held = answer.held;
        if answer.number == number && work == e.work.list() && out == e.out.list() {
            return Ok(());
        }
        Err(format!("channel {channel} gets something else alone"))
    }

    /// Now and then sets the mark, spoils entries of a format, or changes the one
    /// behind those held, which no call reads.
    fn disturb(&mut self, generator: &mut Generator) {
        let [f, other] = [(); 2].map(|()| generator.pick(&self.formats));
        let memory = self.memory.list_mut();
        match generator.below(8) {
            0 => self.held = mark(generator, &f, &other),
            1 | 2 => spoil(generator, &f, memory),
            3 => {
                if let Some(entry) = memory.get_mut(self.held as usize) {
                    *entry ^= 1;
                }
            }
            _ => {}
        }
        self.memory.settle();
    }
}

#[cfg(test)]
mod tests {
    use super::*;
    use oracle::annex_c;

    /// And those behind them, which no call reads, are as they were.
    #[test]
    fn spoilt_entries_are_wrong() {
        let annex_c = annex_c::parse(crate::ANNEX_C).unwrap();
        let mut generator = Generator::of_case(1, 1);
        for f in tables::formats() {
            let right = [expanded(annex_c.of_size(f.I)), vec![7; 3]].concat();
            for _ in 0..30 {
                let mut entries = right.clone();
                spoil(&mut generator, f, &mut entries);
                assert_ne!(entries[..f.I], right[..f.I]);
                assert_eq!(entries[f.I..], right[f.I..]);
            }
        }
    }

    #[test]
    fn places_are_at_both_ends_and_between() {
        let mut generator = Generator::of_case(1, 1);
        let places: Vec<usize> = (0..100).map(|_| place(&mut generator, 240, 2)).collect();
        for met in [0..1, 1..2, 2..238, 238..239, 239..240] {
            assert!(places.iter().any(|place| met.contains(place)), "{met:?}");
        }
        assert_eq!(place(&mut generator, 1, 2), 0);
    }
}
