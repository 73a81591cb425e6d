//! Document 02's reading of a pair of coordinates against exact arithmetic, and
//! against symmetry where distances are equal.

use super::waveform::{whole_points, ONE};
use super::Report;
use crate::digest::seeded_frame;
use crate::judge::nearest;
use crate::waveform::{constellation, Point};

/// A pair is of whole numbers of this part of one, which floats hold.
const PART: i128 = 1 << 40;

/// The square of an exact distance is a whole number of this part of one.
const SQUARE: i128 = (ONE as i128 * PART).pow(2);

/// Squares that are so far apart stay in their order when they are rounded: of a
/// pair from -2 to 2 a rounded one is off by less than 2^-46.
const ROUNDING: i128 = SQUARE >> 44;

/// A point's coordinate, which is no smaller than 2^-4, is a whole number of this part
/// of one.
const FINE_PART: i128 = 1 << 56;

/// Whole numbers of this part are floats, up to 2.
const FLOAT_PART: i128 = 1 << 52;

/// Bits that a float holds.
const FLOAT_BITS: u32 = 53;

/// Pairs that are drawn, from so many octets each.
const PAIRS: usize = 20_000;
const OCTETS: usize = 12;

/// The label that is read, at points and anywhere between them.
pub fn readings(report: &mut Report) {
    let own = |label: u8| nearest(constellation()[usize::from(label)]) == label;
    report.check(
        "document 02, L14: each of 256 points is read as its own label",
        (0..=u8::MAX).all(own),
    );
    let points = whole_points();
    let exact = |pair: &[i128; 2]| labels_near(&points, *pair, ROUNDING) == [read(*pair)];
    let drawn = drawn_pairs();
    report.check(
        "document 02, L14: a pair is read as the label that is nearest in exact arithmetic, each of 20000 pairs from -2 to 2",
        drawn.len() == PAIRS && drawn.iter().all(exact),
    );
    let beside = pairs_beside_middles(&points);
    report.check(
        "document 02, L14: so is a pair some 2^-29 off the middle of two neighbours, each of 3288 pairs",
        beside.len() == 3288 && beside.iter().all(exact),
    );
}

/// The label that is read where rounding decides.
pub fn rounding(report: &mut Report) {
    let whole = |coordinate: f64| (coordinate * FINE_PART as f64) as i128;
    let points: Vec<[i128; 2]> = (constellation().iter())
        .map(|point| [point.I, point.Q].map(whole))
        .collect();
    let pairs = pairs_in_middles(&points);
    let float = |parts: i128| parts as f64 / FINE_PART as f64;
    let same =
        |&[I, Q]: &[i128; 2]| nearest(at(float(I), float(Q))) == read_rounded(&points, [I, Q]);
    report.check(
        "document 02, L14: in and around the middle of two neighbours a pair is read as whole numbers say that are rounded to 53 bits at each operation, each of 20550 pairs",
        pairs.len() == 20_550 && pairs.iter().all(same),
    );
}

/// The label that is read where points are equally near.
pub fn ties(report: &mut Report) {
    let points = whole_points();
    let signs = [[1.0, 1.0], [-1.0, 1.0], [1.0, -1.0], [-1.0, -1.0]];
    let quadrants = |size: f64| signs.map(|[I, Q]| at(I * size, Q * size));
    let lowest = |size| quadrants(size).into_iter().all(|pair| nearest(pair) == 15);
    report.check(
        "document 02, L14: the origin is as near to each point of ring 1, and read as their lowest label, 15",
        labels_near(&points, [0, 0], 1) == [15, 45, 135, 165] && lowest(0.0),
    );
    // Beside 0.0627 a quarter of its last bit's weight is rounded away.
    report.check(
        "document 02, L14: so is a pair in any quadrant that is too near to the origin to be left in a difference",
        [5e-324, f64::MIN_POSITIVE, 2f64.powi(-58)].into_iter().all(lowest),
    );
    let mirrored = mirrored_pairs(&points);
    let lower = |(pair, labels): &([i128; 2], [u8; 2])| read(*pair) == labels[0];
    report.check(
        "document 02, L14: a pair on an axis, nearest to two points that are mirrored there, is read as the lower label, each of 512 pairs",
        mirrored.len() == 512 && mirrored.iter().all(lower),
    );
}

fn at(I: f64, Q: f64) -> Point {
    Point { I, Q }
}

/// The label that a pair of whole parts is read as.
fn read([I, Q]: [i128; 2]) -> u8 {
    let float = |parts: i128| parts as f64 / PART as f64;
    nearest(at(float(I), float(Q)))
}

/// The labels of the points that are nearest to a pair, or whose distance's square
/// is less than a margin larger.
fn labels_near(points: &[[i64; 2]], pair: [i128; 2], margin: i128) -> Vec<u8> {
    let distance = |point: &[i64; 2]| -> i128 {
        let apart = |k: usize| i128::from(ONE) * pair[k] - PART * i128::from(point[k]);
        apart(0).pow(2) + apart(1).pow(2)
    };
    let distances: Vec<i128> = points.iter().map(distance).collect();
    let least = distances.iter().min().expect("256 points");
    let near = |&label: &u8| distances[usize::from(label)] < least + margin;
    (0..=u8::MAX).filter(near).collect()
}

/// Pairs from -2 to 2.
fn drawn_pairs() -> Vec<[i128; 2]> {
    let part = |octets: &[u8]| {
        let number = octets
            .iter()
            .fold(0, |n, &octet| 256 * n + i128::from(octet));
        number % (4 * PART + 1) - 2 * PART
    };
    let octets = seeded_frame(7, OCTETS * PAIRS);
    let pairs = octets.chunks(OCTETS).map(|pair| pair.split_at(OCTETS / 2));
    pairs.map(|(I, Q)| [part(I), part(Q)]).collect()
}

/// The labels of each two points that are less than a quarter apart.
fn neighbours(points: &[[i64; 2]]) -> Vec<[usize; 2]> {
    let apart = |a: [i64; 2], b: [i64; 2]| (a[0] - b[0]).pow(2) + (a[1] - b[1]).pow(2);
    let near = |&[i, j]: &[usize; 2]| apart(points[i], points[j]) < (ONE / 4).pow(2);
    let twos = (0..points.len()).flat_map(|i| (0..i).map(move |j| [i, j]));
    twos.filter(near).collect()
}

/// Of each two neighbours the middle, moved a little to four sides, along no line in
/// which points are mirrored.
fn pairs_beside_middles(points: &[[i64; 2]]) -> Vec<[i128; 2]> {
    let step = PART >> 30;
    let moves = [[1, 2], [-2, 1], [-1, -2], [2, -1]];
    let middle = |[a, b]: [usize; 2]| [0, 1].map(|k| parts(points[a][k] + points[b][k]) / 2);
    let middles = neighbours(points).into_iter().map(middle);
    middles
        .flat_map(|[I, Q]| moves.map(|[i, q]| [I + i * step, Q + q * step]))
        .collect()
}

/// Of each two neighbours a float in the middle, and those around it, two to each
/// side.
fn pairs_in_middles(points: &[[i128; 2]]) -> Vec<[i128; 2]> {
    let step = FINE_PART / FLOAT_PART;
    let middle =
        |[a, b]: [usize; 2]| [0, 1].map(|k| (points[a][k] + points[b][k]) / (2 * step) * step);
    let middles = neighbours(&whole_points()).into_iter().map(middle);
    let around =
        |[I, Q]: [i128; 2]| (0..25).map(move |n| [I + (n / 5 - 2) * step, Q + (n % 5 - 2) * step]);
    middles.flat_map(around).collect()
}

/// The label that is read of a pair, in whole numbers.
fn read_rounded(points: &[[i128; 2]], pair: [i128; 2]) -> u8 {
    let square = |a: i128, b: i128| rounded(rounded(a - b).pow(2));
    let distance = |&[I, Q]: &[i128; 2]| rounded(square(pair[0], I) + square(pair[1], Q));
    let distances: Vec<i128> = points.iter().map(distance).collect();
    let least = distances.iter().min();
    let label = distances
        .iter()
        .position(|distance| Some(distance) == least);
    label.expect("256 points") as u8
}

/// The nearest number that has so few bits before its zeros, of two the one whose
/// last bit is 0.
fn rounded(number: i128) -> i128 {
    let bits = i128::BITS - number.unsigned_abs().leading_zeros();
    let unit = 1 << bits.saturating_sub(FLOAT_BITS);
    let (whole, rest) = (number.div_euclid(unit), number.rem_euclid(unit));
    let up = 2 * rest > unit || 2 * rest == unit && whole % 2 != 0;
    (whole + i128::from(up)) * unit
}

/// Ten-thousandths in whole parts, what is left over cut off.
fn parts(whole: i64) -> i128 {
    i128::from(whole) * PART / i128::from(ONE)
}

/// The feet of the points on both axes that are nearest to just two points, with
/// their labels. Both distances are made of the same two squares, so they are equal
/// however they are rounded.
fn mirrored_pairs(points: &[[i64; 2]]) -> Vec<([i128; 2], [u8; 2])> {
    let feet = points
        .iter()
        .flat_map(|&[X, Y]| [[parts(X), 0], [0, parts(Y)]]);
    let with_labels = |pair| match labels_near(points, pair, 1)[..] {
        [lower, higher] => Some((pair, [lower, higher])),
        _ => None,
    };
    feet.filter_map(with_labels).collect()
}

#[cfg(test)]
mod tests {
    use super::*;

    #[test]
    fn what_exact_arithmetic_and_symmetry_say() {
        let mut report = Report::default();
        readings(&mut report);
        rounding(&mut report);
        ties(&mut report);
        assert!(!report.failed, "{}", report.text);
    }
}
