//! What the comparisons of a call met.

use std::collections::{BTreeMap, BTreeSet};
use std::fmt::{self, Display, Formatter};

/// What the oracle expects of a call.
#[derive(Clone, Copy, Debug, PartialEq, Eq, PartialOrd, Ord)]
pub enum Outcome {
    Passed,
    /// A frame passed, or is what three frames make, pilots off or on.
    PilotsOff,
    PilotsOn,
    /// A call with shared memory passed, which held its size or was built.
    Held,
    Built,
    /// A comparison passed, of lists that are the same or that differ, or a judgement
    /// of a capture in which nothing differs or something does.
    Same,
    Different,
    /// A slicer was asked for a block, and has one or has to wait.
    Block,
    Wait,
    /// A job line was read, of the old form or of the longer one.
    Old,
    Longer,
    /// A point was given, as the table has it or turned by a code number.
    Unscrambled,
    Scrambled,
    /// A capture passed that holds what the name says.
    Judged(&'static str),
    /// With the number of the check that failed.
    Refused(u64),
    /// The same, and which of two lists failed it; that a frame has no room for its
    /// pilots, and would have without; that the entries of a memory failed it; that
    /// a line to be moved is one of the other form; or what is wrong with a capture.
    RefusedFor(u64, &'static str),
}

impl Outcome {
    fn is_refusal(&self) -> bool {
        matches!(self, Outcome::Refused(_) | Outcome::RefusedFor(..))
    }
}

impl Display for Outcome {
    fn fmt(&self, f: &mut Formatter) -> fmt::Result {
        match self {
            Outcome::Passed => write!(f, "passed"),
            Outcome::PilotsOff => write!(f, "pilots off"),
            Outcome::PilotsOn => write!(f, "pilots on"),
            Outcome::Held => write!(f, "held"),
            Outcome::Built => write!(f, "built"),
            Outcome::Same => write!(f, "same"),
            Outcome::Different => write!(f, "different"),
            Outcome::Block => write!(f, "block"),
            Outcome::Wait => write!(f, "wait"),
            Outcome::Old => write!(f, "old"),
            Outcome::Longer => write!(f, "longer"),
            Outcome::Unscrambled => write!(f, "unscrambled"),
            Outcome::Scrambled => write!(f, "scrambled"),
            Outcome::Judged(kind) => write!(f, "{kind}"),
            Outcome::Refused(number) => write!(f, "{number}"),
            Outcome::RefusedFor(number, what) => write!(f, "{number} {what}"),
        }
    }
}

/// What one comparison met: the outcome, and the format if it passed.
pub struct Met {
    pub outcome: Outcome,
    pub format: Option<u64>,
}

/// The comparisons of one call.
#[derive(Default)]
pub struct Tally {
    outcomes: BTreeMap<Outcome, u64>,
    formats: BTreeSet<u64>,
}

impl Tally {
    pub fn add(&mut self, met: Met) {
        *self.outcomes.entry(met.outcome).or_default() += 1;
        self.formats.extend(met.format);
    }

    /// How many comparisons there were.
    pub fn count(&self) -> u64 {
        self.outcomes.values().sum()
    }

    /// How many of them met an outcome.
    pub fn met(&self, outcome: Outcome) -> u64 {
        self.outcomes.get(&outcome).copied().unwrap_or(0)
    }

    /// How many comparisons there were, and how many of them passed and were
    /// refused with each number.
    pub fn line(&self, name: &str) -> String {
        let (refused, passed): (Vec<_>, Vec<_>) =
            (self.outcomes.iter()).partition(|(outcome, _)| outcome.is_refusal());
        let mut line = format!(
            "{name:12} {:6} compared: {}; {}",
            self.count(),
            counted("passed", &passed),
            counted("refused", &refused)
        );
        if !self.formats.is_empty() {
            line.push_str(&format!("; {} formats passed", self.formats.len()));
        }
        line
    }

    /// Those of the outcomes that no comparison met.
    pub fn missing(&self, outcomes: &[Outcome]) -> Vec<Outcome> {
        let missing = |outcome: &Outcome| self.met(*outcome) == 0;
        outcomes.iter().copied().filter(missing).collect()
    }
}

/// The sum of some outcomes' counts, and each of them if there is a choice.
fn counted(what: &str, outcomes: &[(&Outcome, &u64)]) -> String {
    let sum: u64 = outcomes.iter().map(|(_, count)| *count).sum();
    let each: Vec<String> = (outcomes.iter())
        .filter(|(outcome, _)| **outcome != Outcome::Passed)
        .map(|(outcome, count)| format!("{outcome}: {count}"))
        .collect();
    if each.is_empty() {
        return format!("{sum:5} {what}");
    }
    format!("{sum:5} {what} ({})", each.join(", "))
}

#[cfg(test)]
mod tests {
    use super::*;

    #[test]
    fn an_outcome_that_was_not_met_is_missing() {
        let mut tally = Tally::default();
        tally.add(Met {
            outcome: Outcome::Refused(1),
            format: None,
        });
        let all = [Outcome::Passed, Outcome::Refused(1), Outcome::Refused(2)];
        assert_eq!(tally.missing(&all), [Outcome::Passed, Outcome::Refused(2)]);
    }
}
