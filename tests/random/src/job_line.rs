//! The job line's calls: one reads a line of either form, and two move it to the
//! other.

use crate::calls::{compared, equal, met, Compared};
use crate::draw::{self, Plan};
use crate::generator::Generator;
use crate::lent::Lent;
use crate::tally::Met;
use crate::tally::Outcome::{Longer, Old, RefusedFor};
use interface::{JobAnswer, LineAnswer, UNSCRAMBLED};
use oracle::annex_c::AnnexC;
use oracle::checks::{CODE, FORMAT, JOB_LINE, NO_WAY_BACK, OUTPUT, PASSED, PATTERN, PILOTS};
use oracle::job_line::{self, Added, Line, Moved, Read, LAST_CODE};
use oracle::tables::{self, Format};

/// The checks of a line that is read, in order, by its form.
const OLD_CHECKS: &[u64] = &[JOB_LINE, FORMAT, PATTERN];
const LONGER_CHECKS: &[u64] = &[JOB_LINE, FORMAT, PATTERN, PILOTS, CODE];

/// The largest number of a field, and of the code number's.
const LARGEST: u64 = 999;
const LARGEST_CODE: u64 = 999_999;

/// Fields that no line has, or not in every place.
const OTHER_FIELDS: [&[u8]; 7] = [b"", b"-", b"--", b"00", b"01", b"1000", b"1000000"];

/// Bytes that a line has, and neighbours of theirs.
const BYTES: &[u8] = b"019,-./: \n\r";

pub fn job_call(generator: &mut Generator, _: &AnnexC) -> Compared {
    // Of three lines two are of the longer form, which can fail more.
    let longer = generator.below(3) > 0;
    let plan = Plan::new(generator, if longer { LONGER_CHECKS } else { OLD_CHECKS });
    let f = draw::format(generator);
    let mut line = old_line(generator, &plan, &f);
    if longer {
        let fails = [PILOTS, CODE].map(|check| plan.fails(generator, check));
        let set = [generator.coin(), generator.coin()];
        line.added = Some(added(generator, fails, set));
    }
    let mut text = line.text();
    if plan.fails(generator, JOB_LINE) {
        spoil(generator, &mut text);
    }
    let text = Lent::new(generator, &text);

    let expected = job_line::job(text.list());
    let found = interface::job(text.list());
    compared(
        shown(&text),
        met_job(expected.number, &f, text.list()),
        [equal(found, answer(&expected)), text.unchanged("the line")],
    )
}

pub fn lengthen_call(generator: &mut Generator, _: &AnnexC) -> Compared {
    let plan = Plan::new(generator, &[JOB_LINE, FORMAT, PATTERN, OUTPUT]);
    let f = draw::format(generator);
    let line = old_line(generator, &plan, &f);
    let bad = generator.coin();
    let fails = draw::either(generator, bad);
    let set = [generator.coin(), generator.coin()];
    let other = Line {
        added: Some(added(generator, fails, set)),
        ..line
    };
    let fails = plan.fails(generator, JOB_LINE);
    let text = text(generator, &line, &other, fails);
    let fails = plan.fails(generator, OUTPUT);
    let room = draw::room(generator, line.lengthened().text().len(), fails);
    let text = Lent::new(generator, &text);
    let mut out = Lent::filled(generator, room);

    let expected = job_line::lengthen(text.list(), room);
    let found = interface::job_lengthen(text.list(), out.list_mut());
    moved(&f, &text, &out, &expected, found)
}

pub fn shorten_call(generator: &mut Generator, _: &AnnexC) -> Compared {
    let plan = Plan::new(
        generator,
        &[JOB_LINE, FORMAT, PATTERN, PILOTS, CODE, NO_WAY_BACK, OUTPUT],
    );
    let f = draw::format(generator);
    let other = old_line(generator, &plan, &f);
    let fails = [PILOTS, CODE].map(|check| plan.fails(generator, check));
    let stays = plan.fails(generator, NO_WAY_BACK);
    let set = draw::either(generator, stays);
    let line = Line {
        added: Some(added(generator, fails, set)),
        ..other
    };
    let fails = plan.fails(generator, JOB_LINE);
    let text = text(generator, &line, &other, fails);
    let fails = plan.fails(generator, OUTPUT);
    let room = draw::room(generator, other.text().len(), fails);
    let text = Lent::new(generator, &text);
    let mut out = Lent::filled(generator, room);

    let expected = job_line::shorten(text.list(), room);
    let found = interface::job_shorten(text.list(), out.list_mut());
    moved(&f, &text, &out, &expected, found)
}

/// What a move has met, unless something differs.
fn moved(
    f: &Format,
    text: &Lent<u8>,
    out: &Lent<u8>,
    expected: &Moved,
    found: LineAnswer,
) -> Compared {
    let answer = LineAnswer {
        number: expected.number,
        length: expected.text.len() as u64,
    };
    compared(
        format!("{}, output of {}", shown(text), out.list().len()),
        met_move(expected.number, f, text.list()),
        [
            equal(found, answer),
            text.unchanged("the line"),
            out.holds("the output", &expected.text),
        ],
    )
}

/// A job as the library gives it.
fn answer(read: &Read) -> JobAnswer {
    let mut answer = JobAnswer {
        number: read.number,
        format: 0,
        pattern: 0,
        pilots: 0,
        code: 0,
    };
    if let Some(job) = read.job {
        answer.format = job.format;
        answer.pattern = job.pattern;
        answer.pilots = job.pilots;
        answer.code = job.code.unwrap_or(UNSCRAMBLED);
    }
    answer
}

fn shown(text: &Lent<u8>) -> String {
    format!("line \"{}\"", text.list().escape_ascii())
}

/// What is met, and of which form a line is that passes.
fn met_job(number: u64, f: &Format, text: &[u8]) -> Met {
    let mut met = met(number, f);
    if number == PASSED {
        let longer = Line::read(text).is_some_and(|line| line.added.is_some());
        met.outcome = if longer { Longer } else { Old };
    }
    met
}

/// What is met, and whether it is a line of the other form that has no place in a
/// move.
fn met_move(number: u64, f: &Format, text: &[u8]) -> Met {
    let mut met = met(number, f);
    if number == JOB_LINE && Line::read(text).is_some() {
        met.outcome = RefusedFor(JOB_LINE, "other form");
    }
    met
}

/// An old line of a format, or one whose numbers fail.
fn old_line(generator: &mut Generator, plan: &Plan, f: &Format) -> Line {
    let mut line = Line {
        format: f.number,
        pattern: generator.below(3) as u64,
        added: None,
    };
    if plan.fails(generator, FORMAT) {
        let above = above(generator, tables::formats().len() as u64, LARGEST);
        line.format = generator.pick(&[0, above, above, above]);
    }
    if plan.fails(generator, PATTERN) {
        line.pattern = above(generator, 2, LARGEST);
    }
    line
}

/// Pilots and code number that fail or not, and are set or not if they don't.
fn added(generator: &mut Generator, fails: [bool; 2], set: [bool; 2]) -> Added {
    let pilots = match fails[0] {
        true => above(generator, 1, LARGEST),
        false => set[0].into(),
    };
    let [any, low] = [LAST_CODE, LARGEST].map(|last| generator.below(last as usize + 1) as u64);
    let good = generator.pick(&[0, LAST_CODE, any, low]);
    let code = match fails[1] {
        true => Some(above(generator, LAST_CODE, LARGEST_CODE)),
        false => Some(good).filter(|_| set[1]),
    };
    Added { pilots, code }
}

/// A number that a field can have, above the last good one: the next, the largest
/// or any.
fn above(generator: &mut Generator, last: u64, largest: u64) -> u64 {
    let any = last + 1 + generator.below((largest - last) as usize) as u64;
    generator.pick(&[last + 1, largest, any, any])
}

/// The text of a line that is to be moved; or, if it is to fail, that of a line of
/// the other form, or of none.
fn text(generator: &mut Generator, line: &Line, other: &Line, fails: bool) -> Vec<u8> {
    if !fails {
        return line.text();
    }
    if generator.coin() {
        return other.text();
    }
    let mut text = generator.pick(&[*line, *other]).text();
    spoil(generator, &mut text);
    text
}

/// Makes a text that is a line one that is none: anything, or the line with as many
/// changes as that takes.
fn spoil(generator: &mut Generator, text: &mut Vec<u8>) {
    if generator.below(8) == 0 {
        let length = generator.below(24);
        *text = generator.bytes(length);
    }
    while Line::read(text).is_some() {
        change(generator, text);
    }
}

/// Changes a line: a byte is another, gone or there twice, or has another before
/// it; a field is another; or the end comes sooner or later.
fn change(generator: &mut Generator, text: &mut Vec<u8>) {
    let any = generator.below(256) as u8;
    let likely = generator.pick(BYTES);
    let byte = generator.pick(&[any, likely, likely]);
    let at = generator.below(text.len());
    match generator.below(12) {
        0 => text[at] = byte,
        1 => {
            text.remove(at);
        }
        2 => text.insert(at, text[at]),
        3 => text.insert(at, byte),
        4 => text.truncate(at),
        5 => text.push(byte),
        6 => text.extend_from_within(..),
        7 => {
            let length = generator.below(3000);
            text.extend(generator.bytes(length));
        }
        _ => change_field(generator, text),
    }
}

fn change_field(generator: &mut Generator, text: &mut Vec<u8>) {
    let before_end = &text[..text.len() - 1];
    let mut fields: Vec<&[u8]> = before_end.split(|&byte| byte == b',').collect();
    let at = generator.below(fields.len());
    fields[at] = generator.pick(&OTHER_FIELDS);
    *text = [&fields.join(&b',')[..], b"\n"].concat();
}

#[cfg(test)]
mod tests {
    use super::*;

    #[test]
    fn numbers_above_begin_just_above_and_end_at_the_largest() {
        let mut generator = Generator::of_case(1, 1);
        for (last, largest) in [(1, 999), (2, 999), (37, 999), (262_142, 999_999)] {
            let numbers = (0..100).map(|_| above(&mut generator, last, largest));
            let numbers: Vec<u64> = numbers.collect();
            assert_eq!(numbers.iter().min(), Some(&(last + 1)));
            assert_eq!(numbers.iter().max(), Some(&largest));
        }
    }

    #[test]
    fn added_numbers_fail_and_are_set_as_they_are_to() {
        let mut generator = Generator::of_case(1, 1);
        for _ in 0..100 {
            let [fails, set] = [(); 2].map(|()| [generator.coin(), generator.coin()]);
            let Added { pilots, code } = added(&mut generator, fails, set);
            assert_eq!([pilots > 1, code > Some(LAST_CODE)], fails);
            assert_eq!(pilots > 0, fails[0] || set[0]);
            assert_eq!(code.is_some(), fails[1] || set[1]);
        }
    }

    /// Some are empty, some have a line at their front or are longer than any.
    #[test]
    fn spoilt_texts_are_no_lines() {
        let mut generator = Generator::of_case(1, 1);
        for line in [&b"13,0\n"[..], b"13,0,0,-\n", b"999,999,999,999999\n"] {
            let texts = (0..2000).map(|_| {
                let mut text = line.to_vec();
                spoil(&mut generator, &mut text);
                text
            });
            let texts: Vec<Vec<u8>> = texts.collect();
            assert!(texts.iter().all(|text| Line::read(text).is_none()));
            assert!(texts.iter().any(|text| text.is_empty()));
            assert!(texts.iter().any(|text| text.starts_with(line)));
            assert!(texts.iter().any(|text| line.starts_with(text)));
            assert!(texts.iter().any(|text| text.len() > 19));
        }
    }
}
