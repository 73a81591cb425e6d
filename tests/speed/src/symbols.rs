//! The call for a point, of symbols of many code numbers and places: how far it has
//! to step to a symbol's turns depends on both.

use interface::PointAnswer;
use oracle::digest::seeded_frame;
use oracle::job_line::LAST_CODE;
use oracle::waveform::{self, Point, PLACES};

const SYMBOLS: usize = 1000;

/// Octets that a symbol is drawn from: one for its slot, three for its code number
/// and three for its place.
const OCTETS: usize = 7;

pub struct Symbol {
    format: u64,
    slot: u64,
    code: u64,
    place: u64,
}

impl Symbol {
    /// Symbols of a format.
    pub fn drawn(format: u64) -> Vec<Symbol> {
        let symbol = |octets: &[u8]| Symbol {
            format,
            slot: number(&octets[..1]),
            code: number(&octets[1..4]) % (LAST_CODE + 1),
            place: number(&octets[4..]) % PLACES,
        };
        let octets = seeded_frame(4, OCTETS * SYMBOLS);
        octets.chunks_exact(OCTETS).map(symbol).collect()
    }

    /// The library's call.
    pub fn point(&self) -> PointAnswer {
        interface::point(self.format, self.slot, self.code, self.place)
    }

    /// Whether it passes and gives the oracle's point.
    pub fn agrees(&self) -> bool {
        let answer = self.point();
        let given = waveform::point(self.format, self.slot, Some(self.code), self.place);
        let bits = [answer.i, answer.q].map(f64::to_bits);
        answer.number == 0 && given.point.map(Point::bits) == Some(bits)
    }
}

fn number(octets: &[u8]) -> u64 {
    (octets.iter()).fold(0, |number, &octet| 256 * number + u64::from(octet))
}
