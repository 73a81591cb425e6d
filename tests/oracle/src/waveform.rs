//! The waveform of formats 33 to 37 (document 02, L12): the points of table 5-2 of
//! document 004, turned as annex E's randomizer says.

use crate::checks::{self, PASSED};
use std::ops::RangeInclusive;
use std::sync::OnceLock;

/// Document 02, L12: the formats that have these points.
pub const FORMATS: RangeInclusive<u64> = 33..=37;

/// Document 02, L12: a place is below this.
pub const PLACES: u64 = 133_760;

/// Document 004, table 5-2, as printed, but for six coordinates of the labels 31,
/// 63, 95 and 127: the copy has a space there for the decimal point. Label,
/// label in hexadecimal digits, I, Q, and the same four again for the other columns.
const TABLE_5_2: &str = "\
0 00 -0.9412 -0.9412 32 20 -0.6043 -1.1860 64 40 -1.0344 -0.8376 96 60 -0.5968 -0.9872
1 01 -0.4770 -1.2426 33 21 -0.0697 -1.3292 65 41 -0.4734 -1.0519 97 61 -0.0697 -1.1515
2 02 0.6043 -1.1860 34 22 0.9412 -0.9412 66 42 0.5968 -0.9872 98 62 1.0344 -0.8376
3 03 0.0697 -1.3292 35 23 0.4770 -1.2426 67 43 0.0697 -1.1515 99 63 0.4734 -1.0519
4 04 -1.2426 -0.4770 36 24 -0.6542 -0.4581 68 44 -1.2857 -0.3445 100 64 -0.7238 -0.3375
5 05 -0.4392 -0.4392 37 25 -0.0695 -0.6172 69 45 -0.5259 -0.3305 101 65 -0.0694 -0.4382
6 06 0.6542 -0.4581 38 26 1.2426 -0.4770 70 46 0.7238 -0.3375 102 66 1.2857 -0.3445
7 07 0.0695 -0.6172 39 27 0.4392 -0.4392 71 47 0.0694 -0.4382 103 67 0.5259 -0.3305
8 08 -1.1860 0.6043 40 28 -0.5647 0.5647 72 48 -1.1163 0.7249 104 68 -0.5850 0.7814
9 09 -0.4581 0.6542 41 29 -0.0696 0.7956 73 49 -0.4678 0.8567 105 69 -0.0696 0.9736
10 0A 0.5647 0.5647 42 2A 1.1860 0.6043 74 4A 0.5850 0.7814 106 6A 1.1163 0.7249
11 0B 0.0696 0.7956 43 2B 0.4581 0.6542 75 4B 0.0696 0.9736 107 6B 0.4678 0.8567
12 0C -1.3292 0.0697 44 2C -0.7956 0.0696 76 4C -1.3147 0.2082 108 6C -0.7714 0.2067
13 0D -0.6172 0.0695 45 2D -0.0627 0.0627 77 4D -0.5863 0.2052 109 6D -0.0689 0.2571
14 0E 0.7956 0.0696 46 2E 1.3292 0.0697 78 4E 0.7714 0.2067 110 6E 1.3147 0.2082
15 0F 0.0627 0.0627 47 2F 0.6172 0.0695 79 4F 0.0689 0.2571 111 6F 0.5863 0.2052
16 10 -0.8376 -1.0344 48 30 -0.7249 -1.1163 80 50 -0.8157 -0.8157 112 70 -0.7114 -0.9081
17 11 -0.3445 -1.2857 49 31 -0.2082 -1.3147 81 51 -0.3432 -1.1013 113 71 -0.2079 -1.1347
18 12 0.7249 -1.1163 50 32 0.8376 -1.0344 82 52 0.7114 -0.9081 114 72 0.8157 -0.8157
19 13 0.2082 -1.3147 51 33 0.3445 -1.2857 83 53 0.2079 -1.1347 115 73 0.3432 -1.1013
20 14 -1.0519 -0.4734 52 34 -0.8567 -0.4678 84 54 -1.1013 -0.3432 116 74 -0.9145 -0.3411
21 15 -0.3305 -0.5259 53 35 -0.2052 -0.5863 85 55 -0.3137 -0.3137 117 75 -0.2014 -0.3953
22 16 0.8567 -0.4678 54 36 1.0519 -0.4734 86 56 0.9145 -0.3411 118 76 1.1013 -0.3432
23 17 0.2052 -0.5863 55 37 0.3305 -0.5259 87 57 0.2014 -0.3953 119 77 0.3137 -0.3137
24 18 -0.9872 0.5968 56 38 -0.7814 0.5850 88 58 -0.9081 0.7114 120 78 -0.6902 0.6902
25 19 -0.3375 0.7238 57 39 -0.2067 0.7714 89 59 -0.3411 0.9145 121 79 -0.2075 0.9538
26 1A 0.7814 0.5850 58 3A 0.9872 0.5968 90 5A 0.6902 0.6902 122 7A 0.9081 0.7114
27 1B 0.2067 0.7714 59 3B 0.3375 0.7238 91 5B 0.2075 0.9538 123 7B 0.3411 0.9145
28 1C -1.1515 0.0697 60 3C -0.9736 0.0696 92 5C -1.1347 0.2079 124 7C -0.9538 0.2075
29 1D -0.4382 0.0694 61 3D -0.2571 0.0689 93 5D -0.3953 0.2014 125 7D -0.1882 0.1882
30 1E 0.9736 0.0696 62 3E 1.1515 0.0697 94 5E 0.9538 0.2075 126 7E 1.1347 0.2079
31 1F 0.2571 0.0689 63 3F 0.4382 0.0694 95 5F 0.1882 0.1882 127 7F 0.3953 0.2014
128 80 -1.1860 -0.6043 160 A0 -0.5647 -0.5647 192 C0 -1.1163 -0.7249 224 E0 -0.5850 -0.7814
129 81 -0.4581 -0.6542 161 A1 -0.0696 -0.7956 193 C1 -0.4678 -0.8567 225 E1 -0.0696 -0.9736
130 82 0.5647 -0.5647 162 A2 1.1860 -0.6043 194 C2 0.5850 -0.7814 226 E2 1.1163 -0.7249
131 83 0.0696 -0.7956 163 A3 0.4581 -0.6542 195 C3 0.0696 -0.9736 227 E3 0.4678 -0.8567
132 84 -1.3292 -0.0697 164 A4 -0.7956 -0.0696 196 C4 -1.3147 -0.2082 228 E4 -0.7714 -0.2067
133 85 -0.6172 -0.0695 165 A5 -0.0627 -0.0627 197 C5 -0.5863 -0.2052 229 E5 -0.0689 -0.2571
134 86 0.7956 -0.0696 166 A6 1.3292 -0.0697 198 C6 0.7714 -0.2067 230 E6 1.3147 -0.2082
135 87 0.0627 -0.0627 167 A7 0.6172 -0.0695 199 C7 0.0689 -0.2571 231 E7 0.5863 -0.2052
136 88 -0.9412 0.9412 168 A8 -0.6043 1.1860 200 C8 -1.0344 0.8376 232 E8 -0.5968 0.9872
137 89 -0.4770 1.2426 169 A9 -0.0697 1.3292 201 C9 -0.4734 1.0519 233 E9 -0.0697 1.1515
138 8A 0.6043 1.1860 170 AA 0.9412 0.9412 202 CA 0.5968 0.9872 234 EA 1.0344 0.8376
139 8B 0.0697 1.3292 171 AB 0.4770 1.2426 203 CB 0.0697 1.1515 235 EB 0.4734 1.0519
140 8C -1.2426 0.4770 172 AC -0.6542 0.4581 204 CC -1.2857 0.3445 236 EC -0.7238 0.3375
141 8D -0.4392 0.4392 173 AD -0.0695 0.6172 205 CD -0.5259 0.3305 237 ED -0.0694 0.4382
142 8E 0.6542 0.4581 174 AE 1.2426 0.4770 206 CE 0.7238 0.3375 238 EE 1.2857 0.3445
143 8F 0.0695 0.6172 175 AF 0.4392 0.4392 207 CF 0.0694 0.4382 239 EF 0.5259 0.3305
144 90 -0.9872 -0.5968 176 B0 -0.7814 -0.5850 208 D0 -0.9081 -0.7114 240 F0 -0.6902 -0.6902
145 91 -0.3375 -0.7238 177 B1 -0.2067 -0.7714 209 D1 -0.3411 -0.9145 241 F1 -0.2075 -0.9538
146 92 0.7814 -0.5850 178 B2 0.9872 -0.5968 210 D2 0.6902 -0.6902 242 F2 0.9081 -0.7114
147 93 0.2067 -0.7714 179 B3 0.3375 -0.7238 211 D3 0.2075 -0.9538 243 F3 0.3411 -0.9145
148 94 -1.1515 -0.0697 180 B4 -0.9736 -0.0696 212 D4 -1.1347 -0.2079 244 F4 -0.9538 -0.2075
149 95 -0.4382 -0.0694 181 B5 -0.2571 -0.0689 213 D5 -0.3953 -0.2014 245 F5 -0.1882 -0.1882
150 96 0.9736 -0.0696 182 B6 1.1515 -0.0697 214 D6 0.9538 -0.2075 246 F6 1.1347 -0.2079
151 97 0.2571 -0.0689 183 B7 0.4382 -0.0694 215 D7 0.1882 -0.1882 247 F7 0.3953 -0.2014
152 98 -0.8376 1.0344 184 B8 -0.7249 1.1163 216 D8 -0.8157 0.8157 248 F8 -0.7114 0.9081
153 99 -0.3445 1.2857 185 B9 -0.2082 1.3147 217 D9 -0.3432 1.1013 249 F9 -0.2079 1.1347
154 9A 0.7249 1.1163 186 BA 0.8376 1.0344 218 DA 0.7114 0.9081 250 FA 0.8157 0.8157
155 9B 0.2082 1.3147 187 BB 0.3445 1.2857 219 DB 0.2079 1.1347 251 FB 0.3432 1.1013
156 9C -1.0519 0.4734 188 BC -0.8567 0.4678 220 DC -1.1013 0.3432 252 FC -0.9145 0.3411
157 9D -0.3305 0.5259 189 BD -0.2052 0.5863 221 DD -0.3137 0.3137 253 FD -0.2014 0.3953
158 9E 0.8567 0.4678 190 BE 1.0519 0.4734 222 DE 0.9145 0.3411 254 FE 1.1013 0.3432
159 9F 0.2052 0.5863 191 BF 0.3305 0.5259 223 DF 0.2014 0.3953 255 FF 0.3137 0.3137";

/// An entry of the table as printed.
#[derive(Clone, Copy, Debug)]
pub struct Entry {
    pub label: &'static str,
    pub hexadecimal: &'static str,
    pub I: &'static str,
    pub Q: &'static str,
}

/// The entries by their labels.
pub fn table_5_2() -> Vec<Entry> {
    let words: Vec<&str> = TABLE_5_2.split_ascii_whitespace().collect();
    let entry = |words: &[&'static str]| Entry {
        label: words[0],
        hexadecimal: words[1],
        I: words[2],
        Q: words[3],
    };
    let mut entries: Vec<Entry> = words.chunks(4).map(entry).collect();
    entries.sort_by_key(|entry| entry.label.parse::<usize>().expect("a label"));
    entries
}

/// What is sent for a label.
#[derive(Clone, Copy, Debug, PartialEq)]
pub struct Point {
    pub I: f64,
    pub Q: f64,
}

impl Point {
    /// The bits of both coordinates, which tell 0 from -0.
    pub fn bits(self) -> [u64; 2] {
        [self.I, self.Q].map(f64::to_bits)
    }
}

/// The points by their labels. A coordinate is the float that is nearest to the
/// printed decimal.
pub fn constellation() -> &'static [Point] {
    static POINTS: OnceLock<Vec<Point>> = OnceLock::new();
    let nearest = |decimal: &str| decimal.parse().expect("a decimal");
    let point = |entry: &Entry| Point {
        I: nearest(entry.I),
        Q: nearest(entry.Q),
    };
    POINTS.get_or_init(|| table_5_2().iter().map(point).collect())
}

/// Annex E: symbols of x and y.
pub const PERIOD: usize = (1 << 18) - 1;

/// Annex E: the degree of both polynomials, and the first symbols of x and y.
pub const DEGREE: usize = 18;
pub const X_START: [u8; DEGREE] = [1, 0, 0, 0, 0, 0, 0, 0, 0, 0, 0, 0, 0, 0, 0, 0, 0, 0];
pub const Y_START: [u8; DEGREE] = [1; DEGREE];

/// Annex E: symbol i + 18 is the sum of those that stand so far behind i.
pub const X_TERMS: [usize; 2] = [7, 0];
pub const Y_TERMS: [usize; 4] = [10, 7, 5, 0];

/// Annex E: how far on z_n gives the heavier bit of R_n.
pub const SHIFT: usize = 131_072;

fn m_sequence(start: [u8; DEGREE], terms: &[usize]) -> Vec<u8> {
    let mut sequence = start.to_vec();
    for i in 0..PERIOD - DEGREE {
        let sum: u8 = terms.iter().map(|&term| sequence[i + term]).sum();
        sequence.push(sum % 2);
    }
    sequence
}

/// Annex E: the sequence x.
pub fn x() -> &'static [u8] {
    static X: OnceLock<Vec<u8>> = OnceLock::new();
    X.get_or_init(|| m_sequence(X_START, &X_TERMS))
}

/// Annex E: the sequence y.
pub fn y() -> &'static [u8] {
    static Y: OnceLock<Vec<u8>> = OnceLock::new();
    Y.get_or_init(|| m_sequence(Y_START, &Y_TERMS))
}

/// Annex E: the n-th Gold code sequence.
fn z(n: usize, i: usize) -> u8 {
    (x()[(i + n) % PERIOD] + y()[i]) % 2
}

/// Annex E: the quarter turns at a place. The annex ends at 133,440; its formula
/// goes on.
pub fn R(n: u64, i: u64) -> u8 {
    let [n, i] = [n, i].map(|number| number as usize);
    2 * z(n, (i + SHIFT) % PERIOD) + z(n, i)
}

/// Annex E's table: exp(j R pi / 2), its real part first.
const EXP: [[f64; 2]; 4] = [[1.0, 0.0], [0.0, 1.0], [-1.0, 0.0], [0.0, -1.0]];

/// Annex E: I and Q multiplied by C_I + j C_Q. No coordinate is 0, so nothing is
/// rounded, and what is multiplied by 0 leaves no sign.
pub fn randomized(Point { I, Q }: Point, R: u8) -> Point {
    let [C_I, C_Q] = EXP[usize::from(R)];
    Point {
        I: I * C_I - Q * C_Q,
        Q: Q * C_I + I * C_Q,
    }
}

/// What a call gives; no point in a refusal.
#[derive(Debug, PartialEq)]
pub struct Given {
    pub number: u64,
    pub point: Option<Point>,
}

/// The point of a slot at a place.
pub fn point(format: u64, slot: u64, code: Option<u64>, place: u64) -> Given {
    let number = checks::point(format, slot, code, place);
    Given {
        number,
        point: (number == PASSED).then(|| sent(slot as usize, code, place)),
    }
}

/// What a call for points in a row gives: I and Q of each in turn, and in a refusal
/// nothing.
#[derive(Debug, PartialEq)]
pub struct Row {
    pub number: u64,
    pub coordinates: Vec<f64>,
}

/// The points of slots in a row, the first of them at a place.
pub fn points(format: u64, slots: &[u16], code: Option<u64>, place: u64, out_len: usize) -> Row {
    let number = checks::points(format, slots, code, place, out_len);
    let passing = if number == PASSED { slots } else { &[] };
    let coordinates = passing.iter().zip(place..).flat_map(|(&slot, place)| {
        let Point { I, Q } = sent(slot.into(), code, place);
        [I, Q]
    });
    Row {
        number,
        coordinates: coordinates.collect(),
    }
}

/// A label's point, turned if there is a code number.
fn sent(label: usize, code: Option<u64>, place: u64) -> Point {
    let point = constellation()[label];
    code.map_or(point, |n| randomized(point, R(n, place)))
}

#[cfg(test)]
mod tests {
    use super::*;
    use crate::checks::{CODE, ELEMENT, FORMAT, POSITION};

    fn passed(slot: u64, code: Option<u64>, place: u64) -> Point {
        let given = point(33, slot, code, place);
        assert_eq!(given.number, PASSED);
        given.point.expect("it has passed")
    }

    fn at(I: f64, Q: f64) -> Point {
        Point { I, Q }
    }

    #[test]
    fn without_a_code_number_a_point_stays_where_the_table_has_it() {
        for place in [0, 1, 131_071, PLACES - 1] {
            assert_eq!(passed(0, None, place), at(-0.9412, -0.9412));
            assert_eq!(passed(0x2F, None, place), at(0.6172, 0.0695));
            assert_eq!(passed(0x5F, None, place), at(0.1882, 0.1882));
            assert_eq!(passed(0xFF, None, place), at(0.3137, 0.3137));
        }
    }

    /// x starts with a one and zeros, y with ones; the heavier bits are 0 there, as
    /// DVB-S2's taps have it (see the self-check).
    #[test]
    fn turns_by_hand() {
        assert_eq!([0, 1, 2, 3].map(|i| R(0, i)), [0, 1, 1, 1]);
        assert_eq!(passed(0x2F, Some(0), 0), at(0.6172, 0.0695));
        assert_eq!(passed(0x2F, Some(0), 1), at(-0.0695, 0.6172));
    }

    #[test]
    fn the_heavier_bits_begin_anew_at_131071() {
        let back = (PERIOD - SHIFT) as u64;
        assert_eq!(back, 131_071);
        for n in [0, 1, 131_072, 262_142] {
            assert!((back..PLACES).all(|i| R(n, i) / 2 == R(n, i - back) % 2));
        }
    }

    #[test]
    fn the_formats_have_the_same_points() {
        for label in 0..256 {
            let points = FORMATS.map(|format| point(format, label, Some(7), 20).point);
            let points: Vec<Option<Point>> = points.collect();
            assert!(points.iter().all(|point| *point == points[0]));
        }
    }

    #[test]
    fn points_in_a_row_are_those_of_their_places() {
        let slots = [0x2F, 0x2F, 0xFF];
        let row = points(33, &slots, Some(0), 0, 6);
        let due = vec![0.6172, 0.0695, -0.0695, 0.6172, -0.3137, 0.3137];
        assert_eq!((row.number, row.coordinates), (PASSED, due));
        let row = points(33, &[], Some(0), PLACES, 0);
        assert_eq!((row.number, row.coordinates), (PASSED, vec![]));
        let row = points(33, &slots, Some(0), PLACES - 2, 6);
        assert_eq!((row.number, row.coordinates), (POSITION, vec![]));
    }

    #[test]
    fn a_refusal_has_no_point() {
        for (given, number) in [
            (point(32, 0, None, 0), FORMAT),
            (point(33, 256, None, 0), ELEMENT),
            (point(33, 0, Some(262_143), 0), CODE),
            (point(33, 0, None, PLACES), POSITION),
        ] {
            let point = None;
            assert_eq!(given, Given { number, point });
        }
    }
}
