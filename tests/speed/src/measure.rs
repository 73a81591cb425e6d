//! Times of a function alone, and of two taken in turns.

use std::time::{Duration, Instant};

/// One sample takes at least this long, so that the clock's own cost is small.
const SAMPLE: Duration = Duration::from_micros(20);

/// The shortest time of one call, in nanoseconds.
pub fn alone(budget: Duration, mut call: impl FnMut()) -> f64 {
    let calls = calls_in_a_sample(&mut call);
    let mut best = Duration::MAX;
    let start = Instant::now();
    while start.elapsed() < budget {
        best = best.min(sample(&mut call, calls));
    }
    best.as_nanos() as f64 / f64::from(calls)
}

/// The shortest time of one call of each, in nanoseconds. They take turns until
/// the budget is spent, so that what else the machine does meets both alike.
pub fn side_by_side(budget: Duration, mut a: impl FnMut(), mut b: impl FnMut()) -> [f64; 2] {
    let calls = calls_in_a_sample(&mut a).max(calls_in_a_sample(&mut b));
    let mut best = [Duration::MAX; 2];
    let start = Instant::now();
    while start.elapsed() < budget {
        best[0] = best[0].min(sample(&mut a, calls));
        best[1] = best[1].min(sample(&mut b, calls));
    }
    best.map(|time| time.as_nanos() as f64 / f64::from(calls))
}

fn sample(call: &mut impl FnMut(), calls: u32) -> Duration {
    let start = Instant::now();
    for _ in 0..calls {
        call();
    }
    start.elapsed()
}

fn calls_in_a_sample(call: &mut impl FnMut()) -> u32 {
    let mut calls = 1;
    while sample(call, calls) < SAMPLE {
        calls *= 2;
    }
    calls
}

/// How far numbers lie from their mean, and how straight a line is.
pub struct Line {
    pub mean_rate: f64,
    /// The largest distance of a rate from the mean, as a part of the mean.
    pub deviation: f64,
    /// The correlation of sizes and times.
    pub correlation: f64,
}

/// Times held against sizes; a rate is a time divided by its size.
pub fn line(sizes: &[f64], times: &[f64]) -> Line {
    let rates: Vec<f64> = sizes.iter().zip(times).map(|(s, t)| t / s).collect();
    let mean_rate = mean(&rates);
    let deviation = (rates.iter())
        .map(|rate| (rate / mean_rate - 1.0).abs())
        .fold(0.0, f64::max);
    let product = |a: &[f64], b: &[f64]| -> f64 {
        let (mean_a, mean_b) = (mean(a), mean(b));
        a.iter()
            .zip(b)
            .map(|(a, b)| (a - mean_a) * (b - mean_b))
            .sum()
    };
    let spread = product(sizes, sizes) * product(times, times);
    Line {
        mean_rate,
        deviation,
        correlation: product(sizes, times) / spread.sqrt(),
    }
}

fn mean(numbers: &[f64]) -> f64 {
    numbers.iter().sum::<f64>() / numbers.len() as f64
}

#[cfg(test)]
mod tests {
    use super::*;

    #[test]
    fn a_straight_line_has_correlation_1() {
        let line = line(&[1.0, 2.0, 4.0], &[3.0, 6.0, 12.0]);
        assert_eq!(line.mean_rate, 3.0);
        assert_eq!(line.deviation, 0.0);
        assert!((line.correlation - 1.0).abs() < 1e-12);
    }

    #[test]
    fn deviation_is_a_part_of_the_mean() {
        let line = line(&[1.0, 1.0], &[1.0, 3.0]);
        assert_eq!((line.mean_rate, line.deviation), (2.0, 0.5));
    }
}
