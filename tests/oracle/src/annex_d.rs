//! Annex D: the spread that the interleavers of annex C were built to keep.

use crate::annex_c::{AnnexC, Interleaver};

/// The heads of tables C-1 and C-2: N (the size, I elsewhere), W, S1, S2.
const HEADS: &str = "\
8640 72 84 84
10440 87 90 90
12600 105 102 102
14760 123 110 110
16920 141 109 109
19800 165 127 127
22320 186 135 135
25560 213 144 144
28800 240 153 153
32040 267 161 161
35280 294 158 158
38880 324 166 166
42480 354 174 174
46440 387 193 193
50040 417 189 189
54000 450 208 208
57960 483 215 215
61560 513 222 222
65520 546 216 216";

/// What the head of one size prints.
#[derive(Clone, Copy, Debug, PartialEq, Eq)]
pub struct Head {
    pub I: usize,
    pub W: usize,
    pub S1: usize,
    pub S2: usize,
}

/// The heads of the 19 sizes in order.
pub fn heads() -> Vec<Head> {
    HEADS
        .lines()
        .map(|line| {
            let fields: Vec<usize> = line
                .split(' ')
                .map(|field| field.parse().expect("a decimal number in a table head"))
                .collect();
            Head {
                I: fields[0],
                W: fields[1],
                S1: fields[2],
                S2: fields[3],
            }
        })
        .collect()
}

/// The smallest |i - j| + |pi(i) - pi(j)| over all i != j of one interleaver.
pub fn smallest_spread(interleaver: &Interleaver) -> usize {
    smallest_among(interleaver, |_| true)
}

/// The same over the positions whose rows the copy of the standard has.
pub fn smallest_printed_spread(interleaver: &Interleaver) -> usize {
    smallest_among(interleaver, |i| !interleaver.stand_in[i % interleaver.W])
}

/// The sum for a distance d = |i - j| is at least d + 1, as pi never takes a
/// value twice; so distances from the smallest sum on need no look.
fn smallest_among(interleaver: &Interleaver, counts: impl Fn(usize) -> bool) -> usize {
    let pi: Vec<usize> = interleaver.permutation().iter().map(|p| p.0).collect();
    let mut smallest = usize::MAX;
    let mut d = 1;
    while d < interleaver.I && d + 1 < smallest {
        let sums = (0..interleaver.I - d)
            .filter(|&i| counts(i) && counts(i + d))
            .map(|i| d + pi[i].abs_diff(pi[i + d]));
        smallest = sums.min().map_or(smallest, |sum| sum.min(smallest));
        d += 1;
    }
    smallest
}

/// The table of sizes: printed S, and the smallest spread found.
pub fn listing(annex_c: &AnnexC) -> String {
    let mut text = String::from("size,W,S,smallest\n");
    for head in heads() {
        let smallest = smallest_spread(annex_c.of_size(head.I));
        let line = format!("{},{},{},{smallest}\n", head.I, head.W, head.S1);
        text.push_str(&line);
    }
    text
}
