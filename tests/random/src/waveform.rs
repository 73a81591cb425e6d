//! The waveform: the point of any slot, runs of all labels, and points in a row.

use crate::calls::{compared, equal, met, Compared};
use crate::draw::{self, Plan};
use crate::generator::Generator;
use crate::lent::Lent;
use crate::tally::Met;
use crate::tally::Outcome::{self, Refused, Scrambled, Unscrambled};
use interface::UNSCRAMBLED;
use oracle::annex_c::AnnexC;
use oracle::checks::{CODE, ELEMENT, FORMAT, OUTPUT, PASSED, POSITION};
use oracle::job_line::LAST_CODE;
use oracle::tables::{self, Format};
use oracle::waveform::{self, Point, FORMATS, PERIOD, PLACES, SHIFT};

const LABELS: u64 = 256;

/// The place from which on the heavier bits of the turns begin anew.
const ANEW: u64 = (PERIOD - SHIFT) as u64;

/// What the calls of a run meet: formats 1 to 32 have no points.
pub const OUTCOMES: &[Outcome] = &[Unscrambled, Scrambled, Refused(FORMAT)];

pub fn point_call(generator: &mut Generator, _: &AnnexC) -> Compared {
    let plan = Plan::new(generator, &[FORMAT, ELEMENT, CODE, POSITION]);
    let f = format(generator);
    let fails = plan.fails(generator, FORMAT);
    let format = format_number(generator, &f, fails);
    let fails = plan.fails(generator, ELEMENT);
    let slot = slot(generator, fails);
    let fails = plan.fails(generator, CODE);
    let code = code(generator, fails);
    let fails = plan.fails(generator, POSITION);
    let place = place(generator, fails);
    point(&f, format, slot, code, place)
}

/// Every label of a format, unscrambled, and turned by one code number, each at
/// a place of its own.
pub fn run(generator: &mut Generator, _: &AnnexC, f: &Format) -> Compared<Vec<Met>> {
    let code = good_code(generator);
    let mut met = vec![];
    for label in 0..LABELS {
        for code in [UNSCRAMBLED, code] {
            let place = place(generator, false);
            met.push(point(f, f.number, label, code, place)?);
        }
    }
    Ok(met)
}

/// A call on both sides.
fn point(f: &Format, format: u64, slot: u64, code: u64, place: u64) -> Compared {
    let expected = waveform::point(format, slot, asked(code), place);
    let bits = expected.point.map_or([0; 2], Point::bits);
    let found = interface::point(format, slot, code, place);
    compared(
        format!("format {format}, slot {slot}, code {code}, place {place}"),
        met_points(expected.number, f, code),
        [
            equal(found.number, expected.number),
            equal(
                [found.i, found.q].map(shown),
                bits.map(|bits| shown(f64::from_bits(bits))),
            ),
        ],
    )
}

pub fn points_call(generator: &mut Generator, _: &AnnexC) -> Compared {
    let plan = Plan::new(generator, &[FORMAT, ELEMENT, CODE, POSITION, OUTPUT]);
    let f = format(generator);
    let fails = plan.fails(generator, FORMAT);
    let format = format_number(generator, &f, fails);
    let fails = plan.fails(generator, POSITION);
    let (place, length) = row(generator, fails);
    let fails = plan.fails(generator, ELEMENT);
    let slots = slots(generator, length, fails);
    let fails = plan.fails(generator, CODE);
    let code = code(generator, fails);
    // There is always room for no points.
    let fails = plan.fails(generator, OUTPUT) && length > 0;
    let out_length = draw::room(generator, 2 * length, fails);
    let slots = Lent::words(generator, &slots);
    let mut out = Lent::filled_doubles(generator, out_length);

    let expected = waveform::points(format, slots.list(), asked(code), place, out_length);
    let bits: Vec<u64> = expected.coordinates.iter().map(|c| c.to_bits()).collect();
    let found = interface::points(format, slots.list(), code, place, out.list_mut());
    compared(
        format!(
            "format {format}, {length} slots, code {code}, place {place}, output of {out_length}"
        ),
        met_points(expected.number, &f, code),
        [
            equal(u64::from(found), expected.number),
            slots.unchanged("the list of slots"),
            out.holds("the output", &bits),
        ],
    )
}

/// The code number, if it stands for one.
fn asked(code: u64) -> Option<u64> {
    Some(code).filter(|&code| code != UNSCRAMBLED)
}

/// What is met, and whether what passes is turned.
fn met_points(number: u64, f: &Format, code: u64) -> Met {
    let mut met = met(number, f);
    if number == PASSED {
        met.outcome = match code {
            UNSCRAMBLED => Unscrambled,
            _ => Scrambled,
        };
    }
    met
}

/// A coordinate with its bits, which tell 0 from -0.
fn shown(coordinate: f64) -> String {
    format!("{coordinate:?} ({:016X})", coordinate.to_bits())
}

/// A format that has points.
pub fn format(generator: &mut Generator) -> Format {
    let formats: Vec<u64> = FORMATS.collect();
    tables::format(generator.pick(&formats)).expect("a format")
}

/// Its number, or one that has no points, which may be another format's.
pub fn format_number(generator: &mut Generator, f: &Format, fails: bool) -> u64 {
    if !fails {
        return f.number;
    }
    let [first, last] = [*FORMATS.start(), *FORMATS.end()];
    let before = generator.below(first as usize) as u64;
    let behind = not_below(generator, f.number, last + 1);
    generator.pick(&[before, first - 1, behind, behind])
}

/// A label, or a slot that is none.
fn slot(generator: &mut Generator, fails: bool) -> u64 {
    let label = generator.below(LABELS as usize) as u64;
    if fails {
        return not_below(generator, label, LABELS);
    }
    generator.pick(&[0, LABELS - 1, label, label, label, label])
}

/// A code number, or what stands for none, or another number.
fn code(generator: &mut Generator, fails: bool) -> u64 {
    let good = good_code(generator);
    if fails {
        return not_below(generator, good, LAST_CODE + 1);
    }
    generator.pick(&[UNSCRAMBLED, good, good])
}

fn good_code(generator: &mut Generator) -> u64 {
    let any = generator.below(LAST_CODE as usize + 1) as u64;
    generator.pick(&[0, 1, LAST_CODE, any, any, any])
}

/// A place, more likely at either end or where the turns begin anew; or a number
/// behind the last place.
fn place(generator: &mut Generator, fails: bool) -> u64 {
    let any = generator.below(PLACES as usize) as u64;
    if fails {
        return not_below(generator, any, PLACES);
    }
    let near = ANEW - 2 + generator.below(4) as u64;
    generator.pick(&[0, 1, PLACES - 1, near, near, any, any, any])
}

/// The first symbol's place and the number of symbols: none, one, some or as many as
/// there are places, often from the first place on or up to the last; or with the
/// row's end behind the last.
fn row(generator: &mut Generator, fails: bool) -> (u64, usize) {
    let some = generator.below(3000) as u64;
    let length = generator.pick(&[0, 1, some, some, some, some, some, PLACES]);
    let last = PLACES - length;
    let any = generator.below(last as usize + 1) as u64;
    let place = if fails {
        let over = u64::MAX - generator.below(length as usize + 1) as u64;
        let beyond = not_below(generator, any, last + 1);
        generator.pick(&[last + 1, PLACES + 1, over, beyond])
    } else {
        let anew = ANEW.saturating_sub(length / 2).min(last);
        generator.pick(&[0, last, anew, any])
    };
    (place, length as usize)
}

/// Labels, or some that are none: the first, the last or any, or a few.
fn slots(generator: &mut Generator, length: usize, fails: bool) -> Vec<u16> {
    let mut slots: Vec<u16> = (generator.bytes(length).into_iter())
        .map(u16::from)
        .collect();
    if !fails || length == 0 {
        return slots;
    }
    let any = [(); 3].map(|()| generator.below(length));
    let places = generator.pick(&[[0; 3], [length - 1; 3], [any[0]; 3], any]);
    for place in places {
        let none = LABELS as usize + generator.below(usize::from(u16::MAX) - 255);
        slots[place] = generator.pick(&[256, 257, 258, u16::MAX, none as u16]);
    }
    slots
}

/// A number from the bound on.
fn not_below(generator: &mut Generator, good: u64, bound: u64) -> u64 {
    loop {
        let number = draw::outside(generator, good, bound);
        if number >= bound {
            return number;
        }
    }
}

#[cfg(test)]
mod tests {
    use super::*;

    #[test]
    fn arguments_fail_as_they_are_to() {
        let mut generator = Generator::of_case(1, 1);
        for _ in 0..1000 {
            let fails = generator.coin();
            let f = format(&mut generator);
            let number = format_number(&mut generator, &f, fails);
            assert_ne!(FORMATS.contains(&number), fails);
            assert_ne!(slot(&mut generator, fails) < LABELS, fails);
            assert_ne!(place(&mut generator, fails) < PLACES, fails);
            let (place, length) = row(&mut generator, fails);
            let end = place.checked_add(length as u64);
            assert_ne!(end.is_some_and(|end| end <= PLACES), fails);
            let slots = slots(&mut generator, length, fails);
            let labels = slots.iter().all(|&slot| u64::from(slot) < LABELS);
            assert_ne!(labels, fails && length > 0);
            // What stands for no code number is above all of them.
            let code = code(&mut generator, fails);
            assert!(code == UNSCRAMBLED || (code > LAST_CODE) == fails);
        }
    }
}
