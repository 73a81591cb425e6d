//! The slicer's calls: single ones on any slicer and memory, and runs of them
//! from a fresh slicer.

use crate::calls::{compared, equal, met, Compared};
use crate::draw::{self, Plan};
use crate::generator::Generator;
use crate::lent::Lent;
use crate::tally::Met;
use crate::tally::Outcome::{self, Block, Passed, Refused, Wait};
use interface::{BlockAnswer, LookAnswer, SlicerAnswer};
use oracle::annex_c::AnnexC;
use oracle::checks::{
    BLOCK_WAITS, CHANNEL_LENGTH, ELEMENT, FORMAT, FRAME_LENGTH, LENGTH, OUTPUT, PASSED, WORKSPACE,
};
use oracle::slicer::{self, Ahead, Changed, Pushed, Slicer, Taken, MEMORY};
use oracle::tables::{self, Format};
use oracle::transfer::{self, LEAST_OCTETS, MOST_OCTETS};

/// A slicer as the library takes it.
fn lent(slicer: Slicer) -> interface::Slicer {
    interface::Slicer {
        format: slicer.format,
        frame_length: slicer.frame_length,
        waiting: slicer.waiting,
    }
}

/// A push on both sides, and what it gives.
fn push(slicer: Slicer, frame: &Lent<u8>, memory: &mut Lent<u8>) -> Compared<Pushed> {
    let expected = slicer::push(slicer, frame.list(), memory.list());
    let answer = SlicerAnswer {
        number: expected.number,
        slicer: lent(expected.slicer),
    };
    let found = interface::slicer_push(lent(slicer), frame.list(), memory.list_mut());
    let results = [
        equal(found, answer),
        frame.unchanged("the frame"),
        memory.holds("the memory", &expected.front),
    ];
    let [octets, room] = [frame.list().len(), memory.list().len()];
    let arguments = format!("push: {slicer:?}, frame of {octets}, memory of {room}");
    compared(arguments, expected, results)
}

/// Asking for a block on both sides, and what it gives.
fn block(slicer: Slicer, memory: &mut Lent<u8>, out: &mut Lent<u8>) -> Compared<Taken> {
    let expected = slicer::block(slicer, memory.list(), out.list().len());
    let answer = BlockAnswer {
        number: expected.number,
        wait: expected.wait.into(),
        slicer: lent(expected.slicer),
    };
    let found = interface::slicer_block(lent(slicer), memory.list_mut(), out.list_mut());
    let results = [
        equal(found, answer),
        memory.holds("the memory", &expected.front),
        out.holds("the output", &expected.block),
    ];
    let [room, length] = [memory.list().len(), out.list().len()];
    let arguments = format!("block: {slicer:?}, memory of {room}, output of {length}");
    compared(arguments, expected, results)
}

/// A change of format on both sides, and what it gives.
fn change(slicer: Slicer, format: u64) -> Compared<Changed> {
    let expected = slicer::change(slicer, format);
    let answer = SlicerAnswer {
        number: expected.number,
        slicer: lent(expected.slicer),
    };
    let found = interface::slicer_change(lent(slicer), format);
    let arguments = format!("change: {slicer:?}, format {format}");
    compared(arguments, expected, [equal(found, answer)])
}

/// A look on both sides, and what it gives.
fn look(slicer: Slicer, format: u64) -> Compared<Ahead> {
    let expected = slicer::look(slicer, format);
    let answer = LookAnswer {
        number: expected.number,
        blocks: expected.blocks,
        bits: expected.bits,
    };
    let found = interface::slicer_look(lent(slicer), format);
    let arguments = format!("look: {slicer:?}, format {format}");
    compared(arguments, expected, [equal(found, answer)])
}

fn met_block(taken: &Taken, f: &Format) -> Met {
    let mut met = met(taken.number, f);
    if taken.number == PASSED {
        met.outcome = if taken.wait { Wait } else { Block };
    }
    met
}

pub fn new_call(generator: &mut Generator, _: &AnnexC) -> Compared {
    let f = draw::format(generator);
    let wrong = generator.coin();
    let format = draw::format_number(generator, &f, wrong);
    let found = interface::slicer_new(format);
    compared(
        format!("format {format}"),
        Met {
            outcome: Passed,
            format: None,
        },
        [equal(found, lent(Slicer::new(format)))],
    )
}

pub fn push_call(generator: &mut Generator, _: &AnnexC) -> Compared {
    let plan = Plan::new(
        generator,
        &[
            FORMAT,
            FRAME_LENGTH,
            CHANNEL_LENGTH,
            BLOCK_WAITS,
            ELEMENT,
            WORKSPACE,
        ],
    );
    let f = draw::format(generator);
    let fails = plan.fails(generator, FORMAT);
    let format = draw::format_number(generator, &f, fails);
    let fails = plan.fails(generator, FRAME_LENGTH);
    let octets = frame_length(generator, fails);
    let fails = plan.fails(generator, CHANNEL_LENGTH);
    let slicer = Slicer {
        format,
        frame_length: channel_length(generator, octets as u64, fails),
        waiting: if plan.fails(generator, BLOCK_WAITS) {
            a_block_or_more(generator, &f)
        } else {
            less_than_a_block(generator, &f)
        },
    };
    let frame = Lent::filled(generator, octets);
    let mut memory = memory(generator, &plan, &slicer);
    let pushed = push(slicer, &frame, &mut memory)?;
    Ok(met(pushed.number, &f))
}

pub fn block_call(generator: &mut Generator, _: &AnnexC) -> Compared {
    let plan = Plan::new(generator, &[FORMAT, LENGTH, ELEMENT, WORKSPACE, OUTPUT]);
    let f = draw::format(generator);
    let fails = plan.fails(generator, FORMAT);
    let format = draw::format_number(generator, &f, fails);
    let fails = plan.fails(generator, LENGTH);
    let slicer = Slicer {
        format,
        frame_length: generator.number(),
        waiting: count(generator, &f, fails),
    };
    let mut memory = memory(generator, &plan, &slicer);
    let fails = plan.fails(generator, OUTPUT);
    let length = draw::room(generator, f.K, fails);
    let mut out = Lent::filled(generator, length);
    let taken = block(slicer, &mut memory, &mut out)?;
    Ok(met_block(&taken, &f))
}

pub fn change_call(generator: &mut Generator, _: &AnnexC) -> Compared {
    let (slicer, format, f) = command(generator);
    let changed = change(slicer, format)?;
    Ok(met(changed.number, &f))
}

pub fn look_call(generator: &mut Generator, _: &AnnexC) -> Compared {
    let (slicer, format, f) = command(generator);
    let ahead = look(slicer, format)?;
    Ok(met(ahead.number, &f))
}

/// A slicer and a commanded format, whose record goes with it if it is one.
fn command(generator: &mut Generator) -> (Slicer, u64, Format) {
    let plan = Plan::new(generator, &[FORMAT, LENGTH]);
    let [old, new] = [draw::format(generator), draw::format(generator)];
    let fails = plan.fails(generator, FORMAT);
    let [old_fails, new_fails] = draw::either(generator, fails);
    let fails = plan.fails(generator, LENGTH);
    let slicer = Slicer {
        format: draw::format_number(generator, &old, old_fails),
        frame_length: generator.number(),
        waiting: count(generator, &new, fails),
    };
    let format = draw::format_number(generator, &new, new_fails);
    (slicer, format, new)
}

/// Octets of a frame, within the range or not. Long frames take long, and are
/// rare.
pub fn frame_length(generator: &mut Generator, fails: bool) -> usize {
    if fails {
        let below = generator.below(LEAST_OCTETS);
        let above = MOST_OCTETS + 1;
        return generator.pick(&[0, below, LEAST_OCTETS - 1, above, above + LEAST_OCTETS]);
    }
    match generator.below(8) {
        0 => LEAST_OCTETS,
        1 => MOST_OCTETS,
        2 => MOST_OCTETS - generator.below(MOST_OCTETS - LEAST_OCTETS),
        _ => LEAST_OCTETS + generator.below(3000),
    }
}

/// A channel's frame length that goes with a frame, or another one.
fn channel_length(generator: &mut Generator, octets: u64, fails: bool) -> u64 {
    if !fails {
        return generator.pick(&[0, octets]);
    }
    match generator.below(4) {
        0 => octets.saturating_sub(1),
        1 => generator.pick(&[LEAST_OCTETS as u64 - 1, 1 << 40]),
        _ => draw::outside(generator, octets, octets + 1),
    }
}

/// A number of waiting bits that a push takes.
fn less_than_a_block(generator: &mut Generator, f: &Format) -> u64 {
    let random = generator.below(f.K);
    generator.pick(&[0, f.K - 1, f.K - 1, random, random]) as u64
}

/// One that it does not take.
fn a_block_or_more(generator: &mut Generator, f: &Format) -> u64 {
    let fits = (f.K + generator.below(MEMORY - f.K)) as u64;
    match generator.below(4) {
        0 => fits,
        1 => generator.pick(&[MEMORY, MEMORY + 1]) as u64,
        _ => draw::outside(generator, fits, f.K as u64),
    }
}

/// A number of waiting bits that fits the memory, or one that does not.
fn count(generator: &mut Generator, f: &Format, fails: bool) -> u64 {
    let random = generator.below(MEMORY + 1) as u64;
    if fails {
        return draw::outside(generator, random, MEMORY as u64 + 1);
    }
    match generator.below(3) {
        0 => less_than_a_block(generator, f),
        1 => generator.pick(&[f.K, f.K + 1, 2 * f.K, MEMORY]) as u64,
        _ => random,
    }
}

/// Memory in which a slicer's bits wait. What stands behind them is anything.
fn memory(generator: &mut Generator, plan: &Plan, slicer: &Slicer) -> Lent<u8> {
    let fails = plan.fails(generator, WORKSPACE);
    let length = draw::room(generator, MEMORY, fails);
    let mut memory = generator.bytes(length);
    let there = slicer.bits(&memory).len();
    let waiting = &mut memory[..there];
    waiting.iter_mut().for_each(|byte| *byte &= 1);
    if plan.fails(generator, ELEMENT) {
        draw::spoil(generator, waiting, 1);
    }
    Lent::new(generator, &memory)
}

/// Calls of a run.
const CALLS: usize = 30;

/// What the calls of runs meet.
pub const OUTCOMES: &[Outcome] = &[
    Passed,
    Block,
    Wait,
    Refused(FORMAT),
    Refused(OUTPUT),
    Refused(FRAME_LENGTH),
    Refused(CHANNEL_LENGTH),
    Refused(BLOCK_WAITS),
];

/// A slicer and its memory as the last call left them, the frames that were
/// accepted and the blocks that were handed out.
struct Run {
    f: Format,
    slicer: Slicer,
    memory: Lent<u8>,
    accepted: Vec<Vec<u8>>,
    handed: Vec<u8>,
}

/// A run that begins with a format: pushes, blocks, changes of format and looks
/// in any order, good ones and bad. In the end the blocks, then the bits that
/// wait, are to be the frames' stream.
pub fn run(generator: &mut Generator, _: &AnnexC, f: &Format) -> Compared<Vec<Met>> {
    let slicer = Slicer::new(f.number);
    equal(interface::slicer_new(f.number), lent(slicer))?;
    let length = draw::room(generator, MEMORY, false);
    let mut run = Run {
        f: *f,
        slicer,
        memory: Lent::filled(generator, length),
        accepted: vec![],
        handed: vec![],
    };
    let octets = frame_length(generator, false);
    let calls = (0..CALLS).map(|_| run.call(generator, octets));
    let met = calls.collect::<Compared<Vec<Met>>>()?;
    let waiting = run.slicer.bits(run.memory.list());
    if [&run.handed, waiting].concat() != transfer::stream(&run.accepted) {
        return Err("blocks and waiting bits are not the frames' stream".into());
    }
    Ok(met)
}

/// The number of any format, now and then of none.
fn format_or_none(generator: &mut Generator) -> u64 {
    let fails = generator.below(4) == 0;
    let f = draw::format(generator);
    draw::format_number(generator, &f, fails)
}

impl Run {
    /// The push or block that is due as a rule, now and then the other, a
    /// change or a look.
    fn call(&mut self, generator: &mut Generator, octets: usize) -> Compared {
        let due = self.slicer.waiting >= self.f.K as u64;
        let met = match generator.below(8) {
            0 => self.change(generator)?,
            1 => self.look(generator)?,
            turn if due == (turn > 3) => self.block(generator)?,
            _ => self.push(generator, octets)?,
        };
        self.memory.settle();
        Ok(met)
    }

    /// A frame of the run's length as a rule; else of another, or of none that
    /// a push takes.
    fn push(&mut self, generator: &mut Generator, octets: usize) -> Compared {
        let length = match generator.below(6) {
            0 => frame_length(generator, true),
            1 => generator.pick(&[octets - 1, octets + 1, LEAST_OCTETS]),
            _ => octets,
        };
        let frame = Lent::filled(generator, length);
        let pushed = push(self.slicer, &frame, &mut self.memory)?;
        if pushed.number == PASSED {
            self.accepted.push(frame.list().to_vec());
        }
        self.slicer = pushed.slicer;
        Ok(met(pushed.number, &self.f))
    }

    fn block(&mut self, generator: &mut Generator) -> Compared {
        let fails = generator.below(4) == 0;
        let length = draw::room(generator, self.f.K, fails);
        let mut out = Lent::filled(generator, length);
        let taken = block(self.slicer, &mut self.memory, &mut out)?;
        self.handed.extend(&taken.block);
        self.slicer = taken.slicer;
        Ok(met_block(&taken, &self.f))
    }
    fn change(&mut self, generator: &mut Generator) -> Compared {
        let format = format_or_none(generator);
        let changed = change(self.slicer, format)?;
        self.slicer = changed.slicer;
        self.f = tables::format(self.slicer.format).expect("a change to none is refused");
        Ok(met(changed.number, &self.f))
    }

    /// A look, and what the library itself does with a copy of the slicer and
    /// its memory.
    fn look(&mut self, generator: &mut Generator) -> Compared {
        let format = format_or_none(generator);
        let ahead = look(self.slicer, format)?;
        if ahead.number == PASSED {
            self.follow(&ahead, format)?;
        }
        Ok(met(ahead.number, &self.f))
    }

    /// The command, the blocks that a look says, and "wait".
    fn follow(&self, ahead: &Ahead, format: u64) -> Compared<()> {
        let mut slicer = interface::slicer_change(lent(self.slicer), format).slicer;
        let mut memory = self.memory.list().to_vec();
        let mut out = vec![0; tables::format(format).expect("it has passed 1").K];
        for due in 0..=ahead.blocks {
            let answer = interface::slicer_block(slicer, &mut memory, &mut out);
            let wait = u64::from(due == ahead.blocks);
            equal((answer.number, answer.wait), (PASSED, wait))?;
            slicer = answer.slicer;
        }
        equal(slicer.waiting, ahead.bits)
    }
}
