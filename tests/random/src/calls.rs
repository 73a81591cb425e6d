//! One comparison of each call with the oracle, on arguments drawn at random.

use crate::draw::{self, Plan};
use crate::generator::Generator;
use crate::lent::Lent;
use crate::tally::Met;
use crate::tally::Outcome::{
    self, Block, Different, Longer, Old, Passed, PilotsOff, PilotsOn, Refused, RefusedFor, Same,
    Scrambled, Unscrambled, Wait,
};
use crate::{encoding, job_line, judge, shared, slicer, waveform};
use interface::{Comparison, FormatInfo, Interleaved, RunAnswer, SectionRange, Stepped};
use oracle::annex_c::{AnnexC, UpperPosition};
use oracle::checks::{
    self, BLOCK_WAITS, CAPTURE, CHANNEL_LENGTH, CODE, COORDINATE, CUT_COUNT, CUT_PLACE, ELEMENT,
    FORMAT, FRAME_LENGTH, JOB_LINE, LENGTH, NO_WAY_BACK, OUTPUT, PASSED, PATTERN, PILOTS, POSITION,
    WORKSPACE,
};
use oracle::framing::{self, FRAME_LABELS, FRAME_SLOTS, SECTIONS};
use oracle::tables::{self, Format, SECTION};
use oracle::{compare, encoder, trellis};
use std::fmt::Debug;

/// What a comparison gives, or the arguments and the first difference.
pub type Compared<T = Met> = Result<T, String>;

/// A call: its name, the outcomes it can have, how often it is drawn, and its
/// comparison.
pub struct Call {
    pub name: &'static str,
    pub outcomes: &'static [Outcome],
    pub weight: usize,
    pub compare: fn(&mut Generator, &AnnexC) -> Compared,
}

pub const CALLS: [Call; 22] = [
    Call {
        name: "format",
        outcomes: &[Passed, Refused(FORMAT)],
        weight: 2,
        compare: format_call,
    },
    Call {
        name: "step",
        outcomes: &[Passed, Refused(ELEMENT)],
        weight: 2,
        compare: step_call,
    },
    Call {
        name: "run",
        outcomes: &[Passed, Refused(ELEMENT), Refused(OUTPUT)],
        weight: 3,
        compare: run_call,
    },
    Call {
        name: "interleave",
        outcomes: &[Passed, Refused(FORMAT), Refused(POSITION)],
        weight: 6,
        compare: interleave_call,
    },
    Call {
        name: "encode",
        outcomes: &[
            Passed,
            Refused(FORMAT),
            Refused(LENGTH),
            Refused(ELEMENT),
            Refused(WORKSPACE),
            Refused(OUTPUT),
        ],
        weight: 6,
        compare: encoding::encode_call,
    },
    Call {
        name: "segments",
        outcomes: &[
            Passed,
            Refused(FORMAT),
            Refused(LENGTH),
            Refused(ELEMENT),
            Refused(WORKSPACE),
            Refused(OUTPUT),
            RefusedFor(CUT_COUNT, "outer"),
            RefusedFor(CUT_COUNT, "inner"),
            RefusedFor(CUT_COUNT, "both"),
            RefusedFor(CUT_PLACE, "outer"),
            RefusedFor(CUT_PLACE, "inner"),
            RefusedFor(CUT_PLACE, "both"),
        ],
        weight: 9,
        compare: encoding::segments_call,
    },
    Call {
        name: "shared",
        outcomes: shared::OUTCOMES,
        weight: 6,
        compare: shared::shared_call,
    },
    Call {
        name: "labels",
        outcomes: &[
            Passed,
            Refused(FORMAT),
            Refused(LENGTH),
            Refused(ELEMENT),
            Refused(OUTPUT),
        ],
        weight: 4,
        compare: labels_call,
    },
    Call {
        name: "frame",
        outcomes: &[
            PilotsOff,
            PilotsOn,
            Refused(FORMAT),
            Refused(PILOTS),
            Refused(LENGTH),
            Refused(ELEMENT),
            Refused(OUTPUT),
            RefusedFor(OUTPUT, "pilots"),
        ],
        weight: 6,
        compare: frame_call,
    },
    Call {
        name: "section",
        outcomes: &[Passed, Refused(LENGTH), Refused(POSITION)],
        weight: 2,
        compare: section_call,
    },
    Call {
        name: "compare",
        outcomes: &[
            Same,
            Different,
            Refused(FORMAT),
            Refused(LENGTH),
            Refused(ELEMENT),
        ],
        weight: 6,
        compare: compare_call,
    },
    Call {
        name: "slicer",
        outcomes: &[Passed],
        weight: 1,
        compare: slicer::new_call,
    },
    Call {
        name: "push",
        outcomes: &[
            Passed,
            Refused(FORMAT),
            Refused(FRAME_LENGTH),
            Refused(CHANNEL_LENGTH),
            Refused(BLOCK_WAITS),
            Refused(ELEMENT),
            Refused(WORKSPACE),
        ],
        weight: 4,
        compare: slicer::push_call,
    },
    Call {
        name: "block",
        outcomes: &[
            Block,
            Wait,
            Refused(FORMAT),
            Refused(LENGTH),
            Refused(ELEMENT),
            Refused(WORKSPACE),
            Refused(OUTPUT),
        ],
        weight: 4,
        compare: slicer::block_call,
    },
    Call {
        name: "change",
        outcomes: &[Passed, Refused(FORMAT), Refused(LENGTH)],
        weight: 2,
        compare: slicer::change_call,
    },
    Call {
        name: "look",
        outcomes: &[Passed, Refused(FORMAT), Refused(LENGTH)],
        weight: 2,
        compare: slicer::look_call,
    },
    Call {
        name: "job",
        outcomes: &[
            Old,
            Longer,
            Refused(JOB_LINE),
            Refused(FORMAT),
            Refused(PATTERN),
            Refused(PILOTS),
            Refused(CODE),
        ],
        weight: 4,
        compare: job_line::job_call,
    },
    Call {
        name: "lengthen",
        outcomes: &[
            Passed,
            Refused(JOB_LINE),
            RefusedFor(JOB_LINE, "other form"),
            Refused(FORMAT),
            Refused(PATTERN),
            Refused(OUTPUT),
        ],
        weight: 4,
        compare: job_line::lengthen_call,
    },
    Call {
        name: "shorten",
        outcomes: &[
            Passed,
            Refused(JOB_LINE),
            RefusedFor(JOB_LINE, "other form"),
            Refused(FORMAT),
            Refused(PATTERN),
            Refused(PILOTS),
            Refused(CODE),
            Refused(NO_WAY_BACK),
            Refused(OUTPUT),
        ],
        weight: 6,
        compare: job_line::shorten_call,
    },
    Call {
        name: "point",
        outcomes: &[
            Unscrambled,
            Scrambled,
            Refused(FORMAT),
            Refused(ELEMENT),
            Refused(CODE),
            Refused(POSITION),
        ],
        weight: 4,
        compare: waveform::point_call,
    },
    Call {
        name: "points",
        outcomes: &[
            Unscrambled,
            Scrambled,
            Refused(FORMAT),
            Refused(ELEMENT),
            Refused(CODE),
            Refused(POSITION),
            Refused(OUTPUT),
        ],
        weight: 4,
        compare: waveform::points_call,
    },
    Call {
        name: "judge",
        outcomes: &[
            Same,
            Different,
            Refused(FORMAT),
            Refused(LENGTH),
            Refused(CAPTURE),
            Refused(COORDINATE),
        ],
        weight: 4,
        compare: judge::judge_call,
    },
];

/// What is met where the oracle expects a number.
fn outcome(number: u64) -> Outcome {
    match number {
        PASSED => Passed,
        number => Refused(number),
    }
}

/// The same, with the format.
pub fn met(number: u64, f: &Format) -> Met {
    Met {
        outcome: outcome(number),
        format: Some(f.number).filter(|_| number == PASSED),
    }
}

/// What was met, unless something differs; then what, and the arguments.
pub fn compared<T, const N: usize>(
    arguments: String,
    met: T,
    results: [Result<(), String>; N],
) -> Compared<T> {
    let first: Result<(), String> = results.into_iter().collect();
    match first {
        Ok(()) => Ok(met),
        Err(difference) => Err(format!("{difference}\n  arguments: {arguments}")),
    }
}

pub fn equal<T: Debug + PartialEq>(found: T, expected: T) -> Result<(), String> {
    if found == expected {
        return Ok(());
    }
    Err(format!("the answer is {found:?} instead of {expected:?}"))
}

fn format_call(generator: &mut Generator, annex_c: &AnnexC) -> Compared {
    let f = draw::format(generator);
    let wrong = generator.coin();
    let number = draw::format_number(generator, &f, wrong);
    let expected = match tables::format(number) {
        Some(f) => FormatInfo {
            number: PASSED,
            m: f.m as u64,
            k: f.K as u64,
            i: f.I as u64,
            w: f.W() as u64,
            n: f.N as u64,
            provisional: annex_c.of_size(f.I).has_stand_in_rows().into(),
            k1: f.K1 as u64,
            k2: f.K2 as u64,
            soft: f.soft as u64,
        },
        None => FormatInfo {
            number: FORMAT,
            m: 0,
            k: 0,
            i: 0,
            w: 0,
            n: 0,
            provisional: 0,
            k1: 0,
            k2: 0,
            soft: 0,
        },
    };
    let found = interface::format(number);
    compared(
        format!("format {number}"),
        met(expected.number, &f),
        [equal(found, expected)],
    )
}

fn step_call(generator: &mut Generator, _: &AnnexC) -> Compared {
    let wrong = generator.coin();
    let [wrong_state, wrong_bit] = draw::either(generator, wrong);
    let mut state = generator.below(4) as u64;
    let mut bit = generator.below(2) as u64;
    if wrong_state {
        state = draw::outside(generator, state, 4);
    }
    if wrong_bit {
        bit = draw::outside(generator, bit, 2);
    }
    let number = checks::step(state, bit);
    let mut expected = Stepped {
        number,
        systematic: 0,
        parity: 0,
        state: 0,
    };
    if let (PASSED, Some(x)) = (number, trellis::state_of(state)) {
        let [systematic, parity] = trellis::output(x, bit as u8);
        expected.systematic = systematic.into();
        expected.parity = parity.into();
        expected.state = trellis::state_number(trellis::next(x, bit as u8));
    }
    let found = interface::step(state, bit);
    compared(
        format!("state {state}, bit {bit}"),
        Met {
            outcome: outcome(number),
            format: None,
        },
        [equal(found, expected)],
    )
}

fn run_call(generator: &mut Generator, _: &AnnexC) -> Compared {
    let plan = Plan::new(generator, &[ELEMENT, OUTPUT]);
    let any = generator.below(5000);
    let length = generator.pick(&[0, 1, 2, 3, any, any, any, any]);
    let mut state = generator.below(4) as u64;
    let mut bits = draw::list(generator, length, 1);
    let fails = plan.fails(generator, ELEMENT);
    let [wrong_state, wrong_bit] = draw::either(generator, fails);
    if wrong_state {
        state = draw::outside(generator, state, 4);
    }
    if wrong_bit {
        draw::spoil(generator, &mut bits, 1);
    }
    // There is always room for no bits.
    let fails = plan.fails(generator, OUTPUT) && length > 0;
    let out_length = draw::room(generator, 2 * length, fails);
    let bits = Lent::new(generator, &bits);
    let mut out = Lent::filled(generator, out_length);

    let number = checks::run(state, bits.list(), out_length);
    let mut expected = RunAnswer { number, state: 0 };
    let mut written = vec![];
    if let (PASSED, Some(x)) = (number, trellis::state_of(state)) {
        let run = trellis::run(x, bits.list());
        expected.state = trellis::state_number(run.end);
        written = run.written();
    }
    let found = interface::run(state, bits.list(), out.list_mut());
    compared(
        format!("state {state}, {length} bits, output of {out_length}"),
        Met {
            outcome: outcome(number),
            format: None,
        },
        [
            equal(found, expected),
            bits.unchanged("the list of bits"),
            out.holds("the output", &written),
        ],
    )
}

fn interleave_call(generator: &mut Generator, annex_c: &AnnexC) -> Compared {
    let plan = Plan::new(generator, &[FORMAT, POSITION]);
    let f = draw::format(generator);
    let fails = plan.fails(generator, FORMAT);
    let format = draw::format_number(generator, &f, fails);
    let random = generator.below(f.I);
    let mut position =
        generator.pick(&[0, f.W() - 1, f.W(), f.I - 1, random, random, random]) as u64;
    if plan.fails(generator, POSITION) {
        position = draw::outside(generator, position, f.I as u64);
    }
    let number = checks::interleave(format, position);
    let pi = || annex_c.of_size(f.I).pi(UpperPosition(position as usize)).0;
    let expected = Interleaved {
        number,
        position: if number == PASSED { pi() as u64 } else { 0 },
    };
    let found = interface::interleave(format, position);
    compared(
        format!("format {format}, position {position}"),
        met(number, &f),
        [equal(found, expected)],
    )
}

fn labels_call(generator: &mut Generator, _: &AnnexC) -> Compared {
    let plan = Plan::new(generator, &[FORMAT, LENGTH, ELEMENT, OUTPUT]);
    let f = draw::format(generator);
    let fails = plan.fails(generator, FORMAT);
    let format = draw::format_number(generator, &f, fails);
    let fails = plan.fails(generator, LENGTH);
    let length = draw::exact_length(generator, &f, |f| f.N, fails);
    let mut codeword = draw::list(generator, length, 1);
    if plan.fails(generator, ELEMENT) {
        draw::spoil(generator, &mut codeword, 1);
    }
    let fails = plan.fails(generator, OUTPUT);
    let out_length = draw::room(generator, SECTION, fails);
    let codeword = Lent::new(generator, &codeword);
    let mut out = Lent::filled(generator, out_length);

    let number = checks::labels(format, codeword.list(), out_length);
    let labels = if number == PASSED {
        encoder::labels(&f, codeword.list())
    } else {
        vec![]
    };
    let found = interface::labels(format, codeword.list(), out.list_mut());
    compared(
        format!("format {format}, codeword of {length}, output of {out_length}"),
        met(number, &f),
        [
            equal(u64::from(found), number),
            codeword.unchanged("the codeword"),
            out.holds("the output", &labels),
        ],
    )
}

fn frame_call(generator: &mut Generator, _: &AnnexC) -> Compared {
    let plan = Plan::new(generator, &[FORMAT, PILOTS, LENGTH, ELEMENT, OUTPUT]);
    let f = draw::format(generator);
    let fails = plan.fails(generator, FORMAT);
    let format = draw::format_number(generator, &f, fails);
    let mut pilots = generator.below(2) as u64;
    if plan.fails(generator, PILOTS) {
        pilots = draw::outside(generator, pilots, 2);
    }
    let fails = plan.fails(generator, LENGTH);
    let length = draw::exact_length(generator, &f, |_| FRAME_LABELS, fails);
    let mut labels = draw::list(generator, length, f.m);
    // Formats 33 to 37 pass this check whatever was planned.
    if plan.fails(generator, ELEMENT) && draw::can_be_illegal(f.m) {
        draw::spoil(generator, &mut labels, f.m);
    }
    let fails = plan.fails(generator, OUTPUT);
    let out_length = draw::slots(generator, pilots, fails);
    let labels = Lent::new(generator, &labels);
    let mut out = Lent::filled_words(generator, out_length);

    let number = checks::frame(format, pilots, labels.list(), out_length);
    let frame = if number == PASSED {
        framing::frame(&f, pilots as u8, labels.list())
    } else {
        vec![]
    };
    let found = interface::frame(format, pilots, labels.list(), out.list_mut());
    compared(
        format!("format {format}, pilots {pilots}, {length} labels, output of {out_length} slots"),
        met_frame(number, &f, pilots, out_length),
        [
            equal(u64::from(found), number),
            labels.unchanged("the list of labels"),
            out.holds("the output", &frame),
        ],
    )
}

/// What is met, with the pilot choice, or that only the pilots have no room.
fn met_frame(number: u64, f: &Format, pilots: u64, out_length: usize) -> Met {
    let mut met = met(number, f);
    met.outcome = match number {
        PASSED if pilots == 0 => PilotsOff,
        PASSED => PilotsOn,
        OUTPUT if out_length >= FRAME_SLOTS => RefusedFor(OUTPUT, "pilots"),
        _ => met.outcome,
    };
    met
}

fn section_call(generator: &mut Generator, _: &AnnexC) -> Compared {
    let plan = Plan::new(generator, &[LENGTH, POSITION]);
    let f = draw::format(generator);
    let fails = plan.fails(generator, LENGTH);
    let length = draw::exact_length(generator, &f, |_| FRAME_LABELS, fails);
    let labels = Lent::filled(generator, length);
    let mut place = generator.below(SECTIONS) as u64;
    if plan.fails(generator, POSITION) {
        place = draw::outside(generator, place, SECTIONS as u64);
    }

    let number = checks::section(labels.list(), place);
    let section = if number == PASSED {
        framing::section(labels.list(), place as usize)
    } else {
        &[]
    };
    let found = interface::section(labels.list(), place);
    // The section is found by its content: the labels are random.
    let from = labels.list().get(found.start as usize..);
    let part = from.and_then(|from| from.get(..found.length as usize));
    compared(
        format!("{length} labels, place {place}"),
        Met {
            outcome: outcome(number),
            format: None,
        },
        [
            equal(
                found,
                SectionRange {
                    number,
                    start: if number == PASSED {
                        place * SECTION as u64
                    } else {
                        0
                    },
                    length: section.len() as u64,
                },
            ),
            equal(part, Some(section)).map_err(|_| "the section's labels are others".into()),
            labels.unchanged("the list of labels"),
        ],
    )
}

fn compare_call(generator: &mut Generator, _: &AnnexC) -> Compared {
    let plan = Plan::new(generator, &[FORMAT, LENGTH, ELEMENT]);
    let f = draw::format(generator);
    let fails = plan.fails(generator, FORMAT);
    let format = draw::format_number(generator, &f, fails);
    let fails = plan.fails(generator, LENGTH);
    let lengths = draw::either(generator, fails)
        .map(|wrong| draw::exact_length(generator, &f, |_| SECTION, wrong));
    let mut lists = lists_of(generator, lengths, f.m);
    // As in a frame.
    let fails = plan.fails(generator, ELEMENT) && draw::can_be_illegal(f.m);
    let spoilt = draw::either(generator, fails);
    for (list, _) in lists.iter_mut().zip(spoilt).filter(|(_, spoilt)| *spoilt) {
        draw::spoil(generator, list, f.m);
    }
    let [a, b] = lists.map(|list| Lent::new(generator, &list));
    // Now and then the first list twice: two lists that are only read may overlap.
    let twice = generator.below(16) == 0;
    let [first, second] = [a.list(), if twice { a.list() } else { b.list() }];

    let number = checks::compare(format, first, second);
    let mut expected = Comparison {
        number,
        same: 0,
        count: 0,
        first: 0,
    };
    let mut met = met(number, &f);
    if number == PASSED {
        let comparison = compare::compare(f.m, first, second);
        expected.same = comparison.same.into();
        expected.count = comparison.count;
        expected.first = comparison.first;
        met.outcome = if comparison.same { Same } else { Different };
    }
    let found = interface::compare(format, first, second);
    compared(
        format!(
            "format {format}, lists of {} and {}",
            first.len(),
            second.len()
        ),
        met,
        [
            equal(found, expected),
            a.unchanged("the first list"),
            b.unchanged("the second list"),
        ],
    )
}

/// Two lists of labels that have much in common.
fn lists_of(generator: &mut Generator, lengths: [usize; 2], m: usize) -> [Vec<u8>; 2] {
    let longer = lengths[0].max(lengths[1]);
    let mut first = draw::list(generator, longer, m);
    let mut second = first.clone();
    first.truncate(lengths[0]);
    second.truncate(lengths[1]);
    draw::change(generator, &mut second, m);
    [first, second]
}
