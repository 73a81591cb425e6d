//! Annex C: the 19 interleavers, read from the data file.

use crate::tables::{self, M};
use std::path::Path;

/// A position in the upper register, where the inner encoder writes.
#[derive(Clone, Copy, Debug, PartialEq, Eq)]
pub struct UpperPosition(pub usize);

/// An interleaved position: where the outer encoder wrote the same bit.
#[derive(Clone, Copy, Debug, PartialEq, Eq)]
pub struct InterleavedPosition(pub usize);

/// One interleaver: the two vectors of annex C for one size.
#[derive(Clone, Debug)]
pub struct Interleaver {
    pub I: usize,
    pub W: usize,
    pub alpha: Vec<usize>,
    pub beta: Vec<usize>,
    /// Rows that are missing from the copy of the standard, with numbers
    /// standing in for them.
    pub stand_in: Vec<bool>,
}

impl Interleaver {
    /// Equation A-1, with the whole quotient and the range that B-2 of annex D
    /// gives: the reading address of the inner encoder at time i.
    pub fn pi(&self, i: UpperPosition) -> InterleavedPosition {
        let i_w = i.0 % self.W;
        let bank = (i.0 / self.W + self.beta[i_w]) % M;
        InterleavedPosition(self.W * bank + self.alpha[i_w])
    }

    /// The whole permutation, indexed by upper position.
    pub fn permutation(&self) -> Vec<InterleavedPosition> {
        (0..self.I).map(|i| self.pi(UpperPosition(i))).collect()
    }

    pub fn has_stand_in_rows(&self) -> bool {
        self.stand_in.contains(&true)
    }
}

/// Annex C as a whole.
pub struct AnnexC {
    pub interleavers: Vec<Interleaver>,
}

impl AnnexC {
    /// The interleaver of size I.
    pub fn of_size(&self, I: usize) -> &Interleaver {
        self.interleavers
            .iter()
            .find(|interleaver| interleaver.I == I)
            .expect("annex C has every size of table 4-1")
    }
}

const HEADER: &str = "size,W,row,alpha,beta,source";

/// Reads the data file: one line for each row of annex C, the rows of a size
/// in order, with every size that a format needs.
pub fn read(path: &Path) -> Result<AnnexC, String> {
    let named = |message: String| format!("{}: {message}", path.display());
    let text = std::fs::read_to_string(path).map_err(|e| named(e.to_string()))?;
    let annex_c = parse(&text).map_err(named)?;
    let has = |I: usize| annex_c.interleavers.iter().any(|one| one.I == I);
    match tables::formats().iter().find(|f| !has(f.I)) {
        Some(f) => Err(named(format!("size {} is missing", f.I))),
        None => Ok(annex_c),
    }
}

/// The data file's text as annex C.
pub fn parse(text: &str) -> Result<AnnexC, String> {
    let mut lines = text.lines();
    if lines.next() != Some(HEADER) {
        return Err(format!("the first line is not {HEADER}"));
    }
    let mut interleavers: Vec<Interleaver> = Vec::new();
    for line in lines {
        add_row(&mut interleavers, line).ok_or(format!("not a row in order: {line}"))?;
    }
    match interleavers.iter().find(|one| one.alpha.len() != one.W) {
        Some(one) => Err(format!("size {} has {} rows", one.I, one.alpha.len())),
        None => Ok(AnnexC { interleavers }),
    }
}

/// Adds one line's row to its size, or starts the next size with it.
fn add_row(interleavers: &mut Vec<Interleaver>, line: &str) -> Option<()> {
    let fields: Vec<&str> = line.split(',').collect();
    let [size, W, row, alpha, beta, source] = fields.try_into().ok()?;
    let I = size.parse().ok()?;
    if interleavers.last().map(|last| last.I) != Some(I) {
        interleavers.push(Interleaver {
            I,
            W: W.parse().ok()?,
            alpha: Vec::new(),
            beta: Vec::new(),
            stand_in: Vec::new(),
        });
    }
    let last = interleavers.last_mut()?;
    if row.parse() != Ok(last.alpha.len()) || W.parse() != Ok(last.W) {
        return None;
    }
    last.alpha.push(alpha.parse().ok()?);
    last.beta.push(beta.parse().ok()?);
    last.stand_in.push(source == "stand-in");
    Some(())
}

/// The data file.
#[cfg(test)]
pub fn data() -> AnnexC {
    parse(include_str!("../../../data/annex-c.csv")).unwrap()
}

/// An interleaver small enough to work out by hand: W = 2.
#[cfg(test)]
pub fn small() -> Interleaver {
    Interleaver {
        I: 240,
        W: 2,
        alpha: vec![1, 0],
        beta: vec![119, 3],
        stand_in: vec![false; 2],
    }
}

#[cfg(test)]
mod tests {
    use super::*;

    #[test]
    fn parse_takes_rows_in_order_only() {
        let row = |n| format!("240,2,{n},{n},7,copy\n");
        let good = format!("{HEADER}\n{}{}", row(0), row(1));
        let annex_c = parse(&good).unwrap();
        assert_eq!(annex_c.of_size(240).alpha, [0, 1]);
        assert!(parse(&format!("{HEADER}\n{}", row(0))).is_err());
        assert!(parse(&format!("{HEADER}\n{}{}", row(1), row(0))).is_err());
        assert!(parse(&row(0)).is_err());
    }

    #[test]
    fn pi_follows_a_1() {
        let small = small();
        assert_eq!(small.pi(UpperPosition(0)), InterleavedPosition(239));
        assert_eq!(small.pi(UpperPosition(1)), InterleavedPosition(6));
        assert_eq!(small.pi(UpperPosition(2)), InterleavedPosition(1));
    }
}
