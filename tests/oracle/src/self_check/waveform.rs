//! Table 5-2 of document 004 and annex E against what the papers say of them, and
//! against DVB-S2's generator, to which 5.4 refers.

use super::Report;
use crate::waveform::{
    constellation, randomized, table_5_2, x, y, Entry, Point, DEGREE, FORMATS, PERIOD, SHIFT,
    X_TERMS, Y_TERMS,
};
use std::f64::consts::PI;

/// Document 02, L12: so many ten-thousandths are one.
pub const ONE: i64 = 10_000;

/// 5.2.3.1 and 5.2.3.2: the points of each circumference, and its radius by the
/// first one's.
const POINTS: [usize; 8] = [4, 12, 20, 28, 36, 44, 52, 60];
const RATIOS: [i64; 8] = [1, 3, 5, 7, 9, 11, 13, 15];

/// 5.2.3.3: how often each radius' square is added, and what all add up to.
const WEIGHTS: [i64; 8] = [1, 3, 5, 7, 9, 11, 13, 15];
const ENERGY: i64 = 64;

/// Document 02, L12: of one, the square of the first ring's radius is a part in so
/// many.
const SCALE: i64 = 127;

/// EN 302 307, 5.5.4: the cells of DVB-S2's two registers whose sum is the symbol
/// that is 131,072 on.
const X_CELLS: [usize; 3] = [4, 6, 15];
const Y_CELLS: [usize; 10] = [5, 6, 8, 9, 10, 11, 12, 13, 14, 15];

/// Table 5-2, and what document 02, L12, makes of it.
pub fn table(report: &mut Report) {
    let entries = table_5_2();
    let labelled = |(label, entry): (usize, &Entry)| {
        entry.label == label.to_string() && entry.hexadecimal == format!("{label:02X}")
    };
    report.check(
        "document 004, table 5-2: the labels are 0 to 255, each once, and so are their hexadecimal digits",
        entries.len() == 256 && entries.iter().enumerate().all(labelled),
    );
    let decimals = |number: &str| number.split_once('.').map(|(_, decimals)| decimals.len());
    report.check(
        "document 004, table 5-2: each coordinate has four decimals",
        (entries.iter()).all(|entry| [entry.I, entry.Q].map(decimals) == [Some(4); 2]),
    );
    let divided = |whole: i64| (whole as f64 / ONE as f64).to_bits();
    let points = constellation().iter().map(|point| point.bits());
    report.check(
        "document 02, L12: each coordinate is its ten-thousandths divided by 10000 with one rounding, bit for bit",
        (whole_points().into_iter().map(|point| point.map(divided))).eq(points),
    );
    report.each_format(
        "document 02, L12: formats 33 to 37 have labels of eight bits, and no others have",
        |f| FORMATS.contains(&f.number) == (f.m == 8),
    );
}

/// The points by their labels, as whole ten-thousandths.
pub fn whole_points() -> Vec<[i64; 2]> {
    let whole = |decimal: &str| decimal.replace('.', "").parse().expect("four decimals");
    let entries = table_5_2().into_iter();
    entries.map(|entry| [entry.I, entry.Q].map(whole)).collect()
}

/// Document 02's rings, and 5.2.3.1 on how many points they have.
pub fn rings(report: &mut Report) {
    let found: Vec<Vec<usize>> = whole_points().into_iter().map(rings_of).collect();
    let count = |k: usize| found.iter().filter(|found| **found == [k]).count();
    report.check(
        "document 02, L12: each point lies on one ring, and ring k has 4 (2k - 1) points",
        (1..=8).map(count).eq((1..=8).map(|k| 4 * (2 * k - 1))),
    );
    report.check(
        "document 004, 5.2.3.1: these are 4, 12, 20, .., 60 points",
        (1..=8).map(count).eq(POINTS),
    );
    report.check(
        "document 004, 5.2.3.4's note: point E5 is on the second ring",
        found[0xE5] == [2],
    );
}

/// 5.2.3.2 to 5.2.3.4.
pub fn circumferences(report: &mut Report) {
    let points = whole_points();
    let weighted = |(ratio, weight): (i64, i64)| weight * ratio * ratio;
    report.check(
        "document 004, 5.2.3.2 and 5.2.3.3: the radii are those of document 02's rings, (2k - 1) / sqrt(127)",
        (1..=8).map(ratio).eq(RATIOS)
            && RATIOS.into_iter().zip(WEIGHTS).map(weighted).sum::<i64>() == SCALE * ENERGY,
    );
    let energy: i64 = points.iter().map(|[X, Y]| X * X + Y * Y).sum();
    report.check(
        "document 004, 5.2.3.3: the average energy of the points is 1 to four decimals",
        (energy - 256 * ONE * ONE).abs() < 256 * ONE / 2,
    );
    let taken = |place| points.iter().filter(|&&point| near(point, place)).count() == 1;
    report.check(
        "document 004, 5.2.3.4: the points are equally spaced in phase from pi / 4, pi / 12, .., pi / 60 on, no coordinate a ten-thousandth off",
        (1..=8).flat_map(spaced).all(taken),
    );
}

/// The radius of a ring by the first one's.
fn ratio(k: usize) -> i64 {
    2 * k as i64 - 1
}

/// Document 02, L12: the rings that a point lies on.
fn rings_of([X, Y]: [i64; 2]) -> Vec<usize> {
    let lies = |&k: &usize| {
        let off = SCALE * (X * X + Y * Y) - ratio(k).pow(2) * ONE * ONE;
        off.abs() <= SCALE * (X.abs() + Y.abs() + 1)
    };
    (1..=8).filter(lies).collect()
}

/// 5.2.3.4: the places on a circumference, in ten-thousandths.
fn spaced(k: usize) -> Vec<[f64; 2]> {
    let radius = (ratio(k) * ONE) as f64 / (SCALE as f64).sqrt();
    let count = POINTS[k - 1];
    let phase = |j: usize| (2 * j + 1) as f64 * PI / count as f64;
    let place = |j| [radius * phase(j).cos(), radius * phase(j).sin()];
    (0..count).map(place).collect()
}

fn near(point: [i64; 2], place: [f64; 2]) -> bool {
    (point.iter().zip(place)).all(|(&whole, exact)| (whole as f64 - exact).abs() < 1.0)
}

/// 5.2.3's last note: what the BCH decoder has to tell apart.
pub fn subsets(report: &mut Report) {
    let points = whole_points();
    let all = least_distance(&points);
    report.check(
        "document 004, 5.2.3's note: the points of labels with the same first four bits are further apart than the closest of all",
        (points.chunks(16)).all(|subset| least_distance(subset) > all),
    );
}

/// The square of the smallest distance between two points of a list.
fn least_distance(points: &[[i64; 2]]) -> i64 {
    let distance = |a: [i64; 2], b: [i64; 2]| (a[0] - b[0]).pow(2) + (a[1] - b[1]).pow(2);
    (0..points.len())
        .flat_map(|i| (0..i).map(move |j| (i, j)))
        .map(|(i, j)| distance(points[i], points[j]))
        .min()
        .unwrap_or(0)
}

/// Annex E's sequences x and y.
pub fn sequences(report: &mut Report) {
    let both = |holds: fn(&[u8]) -> bool| holds(x()) && holds(y());
    report.check(
        "annex E: x and y have 2^18 - 1 symbols, and their recursions lead from the last ones back to the first",
        both(|s| s.len() == PERIOD)
            && follows(x(), DEGREE, &X_TERMS)
            && follows(y(), DEGREE, &Y_TERMS),
    );
    report.check(
        "annex E: x and y are m-sequences: 131072 ones each, and no eighteen symbols in a row twice",
        both(|s| s.iter().filter(|&&symbol| symbol == 1).count() == 131_072 && windows_differ(s)),
    );
    report.check(
        "annex E: symbol i + 131072 of x, and of y, is the sum that DVB-S2's generator takes from its cells",
        follows(x(), SHIFT, &X_CELLS) && follows(y(), SHIFT, &Y_CELLS),
    );
}

/// A symbol of x or y, counted on around the end.
fn symbol(sequence: &[u8], i: usize) -> u8 {
    sequence[i % PERIOD]
}

/// Whether, for every i, symbol i + ahead is the sum of the symbols i + term.
fn follows(sequence: &[u8], ahead: usize, terms: &[usize]) -> bool {
    let sum = |i: usize| (terms.iter().map(|term| symbol(sequence, i + term))).sum::<u8>() % 2;
    (0..PERIOD).all(|i| symbol(sequence, i + ahead) == sum(i))
}

/// Whether no eighteen symbols in a row are there twice.
fn windows_differ(sequence: &[u8]) -> bool {
    let add = |number: u32, i: usize| 2 * number + u32::from(symbol(sequence, i));
    let mut windows: Vec<u32> = (0..PERIOD).map(|i| (i..i + DEGREE).fold(0, add)).collect();
    windows.sort();
    windows.dedup();
    windows.len() == PERIOD
}

/// Annex E's formula for a turn against its table.
pub fn turns(report: &mut Report) {
    let each = |holds: fn(Point) -> bool| constellation().iter().all(|&point| holds(point));
    let as_in_table =
        |point| (0..4).all(|R| randomized(point, R).bits() == swapped(point, R).bits());
    report.check(
        "annex E: multiplying by C_I + j C_Q swaps and negates as its table says, bit for bit, each of 256 points",
        each(as_in_table),
    );
    let around = |point| (0..4).fold(point, |point, _| randomized(point, 1)).bits() == point.bits();
    report.check(
        "document 02, L12: four quarter turns of a point give back the same bits, each of 256 points",
        each(around),
    );
}

/// Annex E's table: what comes of I and Q.
fn swapped(Point { I, Q }: Point, R: u8) -> Point {
    let (I, Q) = match R {
        0 => (I, Q),
        1 => (-Q, I),
        2 => (-I, -Q),
        _ => (Q, -I),
    };
    Point { I, Q }
}

#[cfg(test)]
mod tests {
    use super::*;

    #[test]
    fn what_the_papers_say() {
        let mut report = Report::default();
        table(&mut report);
        rings(&mut report);
        circumferences(&mut report);
        subsets(&mut report);
        sequences(&mut report);
        turns(&mut report);
        assert!(!report.failed, "{}", report.text);
    }
}
