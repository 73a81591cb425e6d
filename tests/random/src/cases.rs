//! The cases of a seed: each number fixes a call and its arguments, or a run of
//! calls.

use crate::calls::{Call, Compared, CALLS};
use crate::generator::Generator;
use crate::tally::{Met, Outcome, Tally};
use crate::{judge, shared, slicer, three, waveform};
use oracle::annex_c::AnnexC;
use oracle::tables::{self, Format};
use std::time::{Duration, Instant};

/// So many cases are compared however slow the machine is, so that every
/// outcome is met. The least likely is a frame's refusal with 5 where only the
/// pilots have no room. Of 91 cases 6 are frames, of 7 frames one is to fail this
/// check first, of 2 choices one is pilots on, and of 4 rooms that are too short
/// for it 3 would do without: 6/91 x 1/7 x 1/2 x 3/4 = 1/283. Next come ten: 12 and
/// 13, for the outer cuts, the inner ones or both, and 6 of either move, for a text
/// that is no line or a line of the other form. Of 91 cases 9 encode by segments, of
/// 9 of those one is to fail this check first, and of 3 faults one is in these cuts:
/// 9/91 x 1/9 x 1/3 = 1/273. Of 91 cases 4 lengthen a line and 6 shorten one, of 6
/// and of 9 of those one is to fail this check first, and of 2 faults it is one:
/// 4/91 x 1/6 x 1/2 and 6/91 x 1/9 x 1/2, which are 1/273 too. Then comes a push's
/// refusal with 3. Of 91 cases 4 are pushes, of 8 pushes one is to fail this check
/// first; of 5 slicers that are drawn for it one has no bits waiting, and of 8
/// memories one is empty: 4/91 x 1/8 x 4/5 x 7/8 = 1/260. So 12,600 cases, the runs
/// taken off, miss one of the outcomes, 171 in all, less than once in 10^17 runs of
/// this program.
const LEAST: u64 = 12_600;

/// A kind of run: its name, the outcomes that its calls can have, how many cases
/// have one of it, and its comparison.
struct Run {
    name: &'static str,
    outcomes: &'static [Outcome],
    every: u64,
    compare: fn(&mut Generator, &AnnexC, &Format) -> Compared<Vec<Met>>,
}

const RUNS: [Run; 5] = [
    Run {
        name: "slicer run",
        outcomes: slicer::OUTCOMES,
        every: 100,
        compare: slicer::run,
    },
    Run {
        name: "shared run",
        outcomes: shared::OUTCOMES,
        every: 100,
        compare: shared::run,
    },
    Run {
        name: "point run",
        outcomes: waveform::OUTCOMES,
        every: 100,
        compare: waveform::run,
    },
    // Dear: the library encodes 64 blocks, and the oracle sixteen.
    Run {
        name: "three frames",
        outcomes: three::OUTCOMES,
        every: 300,
        compare: three::run,
    },
    // Of 37 formats five have points.
    Run {
        name: "capture run",
        outcomes: judge::OUTCOMES,
        every: 50,
        compare: judge::run,
    },
];

/// What is tallied, with the outcomes to be met: each call, and the runs last.
fn parts() -> Vec<(&'static str, &'static [Outcome])> {
    let calls = CALLS.iter().map(|call| (call.name, call.outcomes));
    let runs = RUNS.iter().map(|run| (run.name, run.outcomes));
    calls.chain(runs).collect()
}

/// The cases of one seed.
pub struct Cases<'a> {
    pub annex_c: &'a AnnexC,
    pub seed: u64,
}

impl Cases<'_> {
    /// One case alone.
    pub fn one(&self, case: u64) -> Result<String, String> {
        let (part, compared) = self.compare(case);
        let outcomes: Vec<String> = (compared?.iter())
            .map(|met| met.outcome.to_string())
            .collect();
        Ok(format!(
            "{} agrees: {}",
            parts()[part].0,
            outcomes.join(", ")
        ))
    }

    /// Cases 0, 1, .. until the time is up and there were enough, or one
    /// differs. Each is announced before it begins.
    pub fn all(&self, time: Duration, announce: impl Fn(u64)) -> Result<String, String> {
        let tallies = self.tallies(time, announce)?;
        let mut text = String::new();
        let mut missing = Vec::new();
        for ((name, outcomes), tally) in parts().into_iter().zip(&tallies) {
            text.push_str(&format!("{}\n", tally.line(name)));
            for outcome in tally.missing(outcomes) {
                missing.push(format!("{name} {outcome}"));
            }
        }
        let calls: u64 = tallies.iter().map(Tally::count).sum();
        if missing.is_empty() {
            return Ok(format!("{text}ok: {calls} calls, and none differs"));
        }
        let missing = missing.join(", ");
        Err(format!("{text}NOT MET in {calls} calls: {missing}"))
    }

    /// The options that repeat a case.
    pub fn again(&self, case: u64) -> String {
        format!("again: --seed {} --case {case}", self.seed)
    }

    /// What each part met.
    fn tallies(&self, time: Duration, announce: impl Fn(u64)) -> Result<Vec<Tally>, String> {
        let start = Instant::now();
        let mut tallies: Vec<Tally> = parts().iter().map(|_| Tally::default()).collect();
        let mut case = 0;
        while case < LEAST || start.elapsed() < time {
            announce(case);
            let (part, compared) = self.compare(case);
            compared?.into_iter().for_each(|met| tallies[part].add(met));
            case += 1;
        }
        Ok(tallies)
    }

    /// Draws a case and compares it: the part it belongs to, and what its calls
    /// met.
    fn compare(&self, case: u64) -> (usize, Compared<Vec<Met>>) {
        let mut generator = Generator::of_case(self.seed, case);
        let (part, compared) = match run_of(case) {
            Some((run, f)) => {
                let compared = (RUNS[run].compare)(&mut generator, self.annex_c, f);
                (CALLS.len() + run, compared)
            }
            None => {
                let call = drawn_call(&mut generator);
                let compared = (CALLS[call].compare)(&mut generator, self.annex_c);
                (call, compared.map(|met| vec![met]))
            }
        };
        let named = |difference| {
            let name = parts()[part].0;
            format!("{name} DIFFERS: {difference}\n  {}", self.again(case))
        };
        (part, compared.map_err(named))
    }
}

/// The run that a case is, by its place in the list, and its format, if it is one.
/// The formats take turns, so that each has one.
fn run_of(case: u64) -> Option<(usize, &'static Format)> {
    let run = (0..RUNS.len()).find(|&run| case % RUNS[run].every == run as u64)?;
    let turn = (case / RUNS[run].every) as usize;
    let formats = tables::formats();
    Some((run, &formats[turn % formats.len()]))
}

/// A call's place in the list, each as often as its weight says.
fn drawn_call(generator: &mut Generator) -> usize {
    let mut at = generator.below(CALLS.iter().map(|call| call.weight).sum());
    let drawn = |call: &Call| {
        let here = at < call.weight;
        at = at.saturating_sub(call.weight);
        here
    };
    CALLS.iter().position(drawn).expect("below the sum of all")
}

#[cfg(test)]
mod tests {
    use super::*;
    use oracle::annex_c;

    #[test]
    fn every_format_has_a_run_of_each_kind() {
        for run in 0..RUNS.len() {
            let has = |f: &Format| (0..LEAST).any(|case| run_of(case) == Some((run, f)));
            assert!(tables::formats().iter().all(has));
        }
    }

    /// 42 are to be expected of the least likely outcome.
    #[test]
    fn the_least_number_of_cases_meets_every_outcome_often() {
        let annex_c = annex_c::parse(crate::ANNEX_C).unwrap();
        let cases = Cases {
            annex_c: &annex_c,
            seed: 1,
        };
        let tallies = cases.tallies(Duration::ZERO, |_| ()).unwrap();
        for ((name, outcomes), tally) in parts().into_iter().zip(&tallies) {
            for &outcome in outcomes {
                let met = tally.met(outcome);
                assert!(met >= 25, "{name} {outcome}: {met} times");
            }
        }
    }
}
