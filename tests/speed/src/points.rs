//! The plain encoder's points: table 5-2 and both m-sequences made beforehand, a
//! turn by its cases.

use crate::plain::all_at_most;
use interface::UNSCRAMBLED;
use oracle::job_line::LAST_CODE;
use oracle::waveform::{self, FORMATS, PERIOD, PLACES, SHIFT};

const LABELS: usize = 256;

pub struct PlainPoints {
    /// The coordinates of each label.
    table: [(f64, f64); LABELS],
    /// The symbols of the m-sequences.
    x: Vec<u8>,
    y: Vec<u8>,
}

impl PlainPoints {
    pub fn new() -> PlainPoints {
        let points = waveform::constellation();
        PlainPoints {
            table: std::array::from_fn(|label| (points[label].I, points[label].Q)),
            x: waveform::x().to_vec(),
            y: waveform::y().to_vec(),
        }
    }

    /// The output is lent by the bits of its numbers, as the library's is.
    pub fn points(&self, format: u64, slots: &[u16], code: u64, place: u64, out: &mut [u64]) -> u8 {
        let number = check(format, slots, code, place, out.len());
        if number != 0 {
            return number;
        }
        match code {
            UNSCRAMBLED => self.put(slots, out),
            n => self.put_turned(slots, n as usize, place as usize, out),
        }
        0
    }

    fn put(&self, slots: &[u16], out: &mut [u64]) {
        for (slot, coordinates) in slots.iter().zip(out.chunks_exact_mut(2)) {
            write(self.point(*slot), coordinates);
        }
    }

    fn put_turned(&self, slots: &[u16], n: usize, place: usize, out: &mut [u64]) {
        let symbols = (place..).zip(slots);
        for ((i, slot), coordinates) in symbols.zip(out.chunks_exact_mut(2)) {
            write(turned(self.point(*slot), self.turns(n, i)), coordinates);
        }
    }

    /// The slot is a label, so nothing is lost, and the compiler needs no check.
    fn point(&self, slot: u16) -> (f64, f64) {
        self.table[usize::from(slot as u8)]
    }

    fn turns(&self, n: usize, i: usize) -> u8 {
        2 * self.z(n, (i + SHIFT) % PERIOD) + self.z(n, i)
    }

    fn z(&self, n: usize, i: usize) -> u8 {
        self.x[(i + n) % PERIOD] ^ self.y[i]
    }
}

fn check(format: u64, slots: &[u16], code: u64, place: u64, room: usize) -> u8 {
    if !FORMATS.contains(&format) {
        return 1;
    }
    if !all_at_most(slots, u8::MAX.into()) {
        return 3;
    }
    if code > LAST_CODE && code != UNSCRAMBLED {
        return 16;
    }
    if place > PLACES || slots.len() as u64 > PLACES - place {
        return 8;
    }
    if room < 2 * slots.len() {
        return 5;
    }
    0
}

fn turned((i, q): (f64, f64), turns: u8) -> (f64, f64) {
    match turns {
        0 => (i, q),
        1 => (-q, i),
        2 => (-i, -q),
        _ => (q, -i),
    }
}

fn write((i, q): (f64, f64), coordinates: &mut [u64]) {
    coordinates[0] = i.to_bits();
    coordinates[1] = q.to_bits();
}

#[cfg(test)]
mod tests {
    use super::*;
    use oracle::digest::seeded_frame;

    /// What stands in an output beforehand.
    const FILLING: u64 = u64::MAX;

    /// A call, beside the oracle: its number, what it writes, and what it leaves.
    fn is_the_oracles(format: u64, slots: &[u16], code: u64, place: u64, room: usize) {
        let mut out = vec![FILLING; room];
        let number = PlainPoints::new().points(format, slots, code, place, &mut out);
        let asked = Some(code).filter(|&code| code != UNSCRAMBLED);
        let due = waveform::points(format, slots, asked, place, room);
        let mut bits: Vec<u64> = due.coordinates.iter().map(|c| c.to_bits()).collect();
        bits.resize(room, FILLING);
        assert_eq!((u64::from(number), out), (due.number, bits));
    }

    /// Both sequences begin anew on the way.
    #[test]
    fn the_points_are_the_oracles() {
        let slots: Vec<u16> = (seeded_frame(1, PLACES as usize).into_iter())
            .map(u16::from)
            .collect();
        for code in [UNSCRAMBLED, 0, 1, 200_000, LAST_CODE] {
            is_the_oracles(33, &slots, code, 0, 2 * slots.len() + 1);
            is_the_oracles(37, &slots[..1000], code, PLACES - 1000, 2000);
            is_the_oracles(37, &[], code, PLACES, 0);
        }
    }

    #[test]
    fn the_checks_are_the_oracles() {
        let none = LABELS as u16;
        is_the_oracles(32, &[none], LAST_CODE + 1, PLACES, 0);
        is_the_oracles(38, &[0], 0, 0, 2);
        is_the_oracles(33, &[0, none], LAST_CODE + 1, PLACES, 0);
        is_the_oracles(33, &[0], LAST_CODE + 1, PLACES, 0);
        is_the_oracles(33, &[0], UNSCRAMBLED - 1, PLACES, 0);
        is_the_oracles(33, &[0], LAST_CODE, PLACES, 0);
        is_the_oracles(33, &[], LAST_CODE, PLACES + 1, 0);
        is_the_oracles(33, &[0], LAST_CODE, u64::MAX, 0);
        is_the_oracles(33, &[0], LAST_CODE, PLACES - 1, 1);
    }
}
