//! Random arguments, with and without faults.

use crate::generator::Generator;
use oracle::framing::{FRAME_SLOTS, PILOT_FRAME_SLOTS};
use oracle::segments::MOST_CUTS;
use oracle::tables::{self, Format};

/// Which check a case is meant to fail first. The checks before it are to pass;
/// those after it fail as often as not, so that their order is seen.
pub struct Plan {
    /// Its place in the order of the call's checks; past the last for none.
    first: usize,
    checks: &'static [u64],
}

impl Plan {
    /// One of the checks of a call, which are given in order, or none.
    pub fn new(generator: &mut Generator, checks: &'static [u64]) -> Plan {
        Plan {
            first: generator.below(checks.len() + 2),
            checks,
        }
    }

    /// None of them.
    pub fn passing(checks: &'static [u64]) -> Plan {
        Plan {
            first: checks.len(),
            checks,
        }
    }

    /// Whether a check is to fail.
    pub fn fails(&self, generator: &mut Generator, check: u64) -> bool {
        let place = self.checks.iter().position(|&one| one == check);
        let place = place.expect("a check of the call");
        place == self.first || (place > self.first && generator.coin())
    }
}

pub fn format(generator: &mut Generator) -> Format {
    generator.pick(tables::formats())
}

/// The number of a format, or one that no format has.
pub fn format_number(generator: &mut Generator, f: &Format, fails: bool) -> u64 {
    if !fails {
        return f.number;
    }
    if generator.below(8) == 0 {
        return 0;
    }
    let bound = tables::formats().len() as u64 + 1;
    outside(generator, f.number, bound)
}

/// A number that is most likely not below the bound: just above it, a good one
/// with a high bit, at the end of a width, or any.
pub fn outside(generator: &mut Generator, good: u64, bound: u64) -> u64 {
    match generator.below(4) {
        0 => generator.pick(&[bound, bound + 1]),
        1 => good + (1 << generator.pick(&[8, 16, 31, 32, 48, 63])),
        2 => generator.pick(&[257, (1 << 32) + 1, 1 << 63, u64::MAX]),
        _ => generator.number(),
    }
}

/// The length that a call takes, or another one: off by one, far off, or right
/// for another format.
pub fn exact_length(
    generator: &mut Generator,
    f: &Format,
    length: impl Fn(&Format) -> usize,
    fails: bool,
) -> usize {
    let right = length(f);
    if !fails {
        return right;
    }
    match generator.below(6) {
        0 => 0,
        1 => right - 1,
        2 => right + 1,
        3 => right + 256,
        4 => length(&format(generator)),
        _ => generator.below(2 * right),
    }
}

/// A length that is at least so much, or less.
pub fn room(generator: &mut Generator, least: usize, fails: bool) -> usize {
    match (fails, generator.below(4)) {
        (false, 0 | 1) => least,
        (false, 2) => least + 1,
        (false, _) => least + generator.below(3000),
        (true, 0 | 1) => least - 1,
        (true, 2) => 0,
        (true, _) => generator.below(least),
    }
}

/// Room for a frame with a pilot choice, or less. Where the other choice's length
/// will do, as often as not it is that one or lies between the two.
pub fn slots(generator: &mut Generator, pilots: u64, fails: bool) -> usize {
    let [least, other] = match pilots {
        1 => [PILOT_FRAME_SLOTS, FRAME_SLOTS],
        _ => [FRAME_SLOTS, PILOT_FRAME_SLOTS],
    };
    if (other < least) == fails && generator.coin() {
        let between = FRAME_SLOTS + generator.below(PILOT_FRAME_SLOTS - FRAME_SLOTS);
        return generator.pick(&[other, between]);
    }
    room(generator, least, fails)
}

/// The largest element of m bits.
fn top(m: usize) -> u8 {
    ((1u16 << m) - 1) as u8
}

/// Whether some byte is no element of m bits: of eight bits every byte is one.
pub fn can_be_illegal(m: usize) -> bool {
    top(m) < u8::MAX
}

/// Elements of m bits: random ones as a rule; else one value throughout, or a
/// single element that is not 0.
pub fn list(generator: &mut Generator, length: usize, m: usize) -> Vec<u8> {
    let mut list = vec![0; length];
    match generator.below(8) {
        0 => {}
        1 => list.fill(top(m)),
        2 if length > 0 => list[generator.below(length)] = top(m),
        _ => {
            list = generator.bytes(length);
            list.iter_mut().for_each(|x| *x &= top(m));
        }
    }
    list
}

/// Puts an illegal element at the first place, at the last or at any, or some.
/// There has to be one.
pub fn spoil(generator: &mut Generator, list: &mut [u8], m: usize) {
    if list.is_empty() {
        return;
    }
    let length = list.len();
    let places = match generator.below(4) {
        0 => vec![0],
        1 => vec![length - 1],
        2 => vec![generator.below(length)],
        _ => (0..5).map(|_| generator.below(length)).collect(),
    };
    for place in places {
        list[place] = illegal(generator, m);
    }
}

fn illegal(generator: &mut Generator, m: usize) -> u8 {
    let least = top(m) + 1;
    match generator.below(3) {
        0 => least,
        1 => u8::MAX,
        _ => least + generator.below(usize::from(u8::MAX - least) + 1) as u8,
    }
}

/// Changes no element, one (the first, the last or any), some, or about half,
/// or every bit of all. They stay elements of m bits.
pub fn change(generator: &mut Generator, list: &mut [u8], m: usize) {
    if list.is_empty() {
        return;
    }
    if generator.below(7) == 0 {
        list.iter_mut().for_each(|x| *x ^= top(m));
        return;
    }
    let length = list.len();
    let places = match generator.below(6) {
        0 => vec![],
        1 => vec![0],
        2 => vec![length - 1],
        3 => vec![generator.below(length)],
        4 => (0..20).map(|_| generator.below(length)).collect(),
        _ => (0..length).filter(|_| generator.coin()).collect(),
    };
    for place in places {
        list[place] ^= 1 + generator.below(usize::from(top(m))) as u8;
    }
}

/// Cuts of so many bits, none, some or fifteen; or too many, or one of them out
/// of its place.
pub fn cuts(generator: &mut Generator, length: usize, many: bool, misplaced: bool) -> Vec<u16> {
    let some = 1 + generator.below(MOST_CUTS);
    let more = MOST_CUTS + 1 + generator.below(100);
    let count = match (many, misplaced) {
        (true, _) => generator.pick(&[MOST_CUTS + 1, MOST_CUTS + 1, MOST_CUTS + 256, more]),
        (false, true) => generator.pick(&[some, some, MOST_CUTS]),
        (false, false) => generator.pick(&[0, some, some, MOST_CUTS]),
    };
    let mut cuts: Vec<u16> = (0..count).map(|_| cut(generator, length)).collect();
    if generator.below(8) == 0 {
        cuts.fill(cut(generator, length));
    }
    cuts.sort_unstable();
    if misplaced {
        misplace(generator, &mut cuts, length);
    }
    cuts
}

/// A place from 0 to the end. The ends are likely, so that cuts are equal there.
fn cut(generator: &mut Generator, length: usize) -> u16 {
    let any = generator.below(length + 1);
    generator.pick(&[0, 1, length - 1, length, any, any, any, any]) as u16
}

/// Lets one cut fall below the one before it, or lie beyond the end. The first,
/// and one behind a cut at 0, cannot fall; only the last lies beyond the end
/// without making the next one fall, so it does so more often.
fn misplace(generator: &mut Generator, cuts: &mut [u16], length: usize) {
    let last = cuts.len() - 1;
    let any = generator.below(cuts.len());
    let at = generator.pick(&[last.min(1), last, any]);
    let before = if at == 0 { 0 } else { cuts[at - 1] };
    if before > 0 && generator.coin() {
        let below = generator.below(before.into()) as u16;
        cuts[at] = generator.pick(&[0, before - 1, below]);
    } else {
        let end = length as u16;
        let beyond = end + 1 + generator.below((u16::MAX - end).into()) as u16;
        cuts[generator.pick(&[at, last])] = generator.pick(&[end + 1, u16::MAX, beyond]);
    }
}

/// Which of two lists have a fault: the first, the second or both; none if
/// there is no fault.
pub fn either(generator: &mut Generator, fails: bool) -> [bool; 2] {
    if fails {
        generator.pick(&[[true, false], [false, true], [true, true]])
    } else {
        [false, false]
    }
}

#[cfg(test)]
mod tests {
    use super::*;
    use oracle::checks::{cuts_inside, few_cuts};

    /// As in a push, which asks 9 before 2.
    #[test]
    fn a_plan_goes_by_the_order_of_the_checks() {
        let mut generator = Generator::of_case(1, 1);
        let plan = Plan {
            first: 1,
            checks: &[1, 9, 2],
        };
        let mut fails = |check| {
            (0..64)
                .filter(|_| plan.fails(&mut generator, check))
                .count()
        };
        assert_eq!([fails(1), fails(9)], [0, 64]);
        assert!((1..64).contains(&fails(2)));
    }

    #[test]
    fn a_spoilt_list_is_illegal_wherever_a_byte_can_be() {
        let mut generator = Generator::of_case(1, 1);
        for m in (1..=8).filter(|&m| can_be_illegal(m)) {
            for length in [1, 2, 100] {
                let mut list = list(&mut generator, length, m);
                assert!(list.iter().all(|&x| x <= top(m)));
                spoil(&mut generator, &mut list, m);
                assert!(list.iter().any(|&x| x > top(m)));
            }
        }
        assert!(can_be_illegal(7) && !can_be_illegal(8));
    }

    #[test]
    fn slots_are_enough_or_not() {
        let mut generator = Generator::of_case(1, 1);
        for (pilots, least) in [(0, 129_920), (1, 133_760)] {
            for _ in 0..100 {
                let fails = generator.coin();
                let length = slots(&mut generator, pilots, fails);
                assert_eq!(length < least, fails, "{pilots} {length}");
            }
        }
    }

    #[test]
    fn changed_elements_stay_legal() {
        let mut generator = Generator::of_case(1, 1);
        for m in 1..=8 {
            for _ in 0..100 {
                let before = list(&mut generator, 100, m);
                let mut after = before.clone();
                change(&mut generator, &mut after, m);
                assert!(after.iter().all(|&x| x <= top(m)));
            }
        }
    }

    #[test]
    fn cuts_are_good_or_have_the_fault() {
        let mut generator = Generator::of_case(1, 1);
        for f in tables::formats() {
            for _ in 0..100 {
                let [many, misplaced] = [generator.coin(), generator.coin()];
                let length = generator.pick(&[f.K1, f.I]);
                let list = cuts(&mut generator, length, many, misplaced);
                assert_eq!(few_cuts(&list), !many);
                assert_eq!(cuts_inside(&list, length), !misplaced);
            }
        }
    }
}
