//! 4.4.2, steps 1) to 8): the search that found table 4-2, done again.
//!
//! Figure 4-3, which shows the order of the kept outer bits, is missing in our
//! copy. Each printed position must be a best choice after those printed before
//! it, and under a wrong order it is not.
//!
//! 4.4.2 does not say what A(d) counts: here it is the error events of weight d,
//! paths that leave the zero state and come back to it, of one period.

use crate::encoder::PERIOD;
use crate::tables;
use crate::trellis;

/// Trellis steps of one period: 4.4.1 has 200 for 300 outer coded bits.
const STEPS: usize = 200;

/// 4.4.2, step 5): coefficients are compared up to A(8).
const HEAVIEST: usize = 8;

/// The events of a catastrophic pattern may last for ever; counting ends here.
const MOST_PERIODS: usize = 12;

const STATES: usize = 4;

/// How many events have weight 0, 1, .., 8.
type Weights = [u64; HEAVIEST + 1];

/// A kept bit of two trellis steps: of the first or the second.
#[derive(Clone, Copy, Debug, PartialEq, Eq)]
enum Kept {
    Systematic(usize),
    Parity(usize),
}

/// How the three kept bits of two trellis steps stand among the outer bits.
#[derive(Clone, Copy, Debug, PartialEq, Eq)]
pub struct Order([Kept; 3]);

/// The order that figure 4-3 is read as: s0 p0 s1.
pub const READ: Order = Order([Kept::Systematic(0), Kept::Parity(0), Kept::Systematic(1)]);

impl Order {
    /// All twelve: either parity, at any place of the three, between or beside
    /// the systematic bits in either order.
    pub fn all() -> Vec<Order> {
        let mut orders = Vec::new();
        for parity in [0, 1] {
            for place in 0..3 {
                for first in [0, 1] {
                    let mut bits = vec![Kept::Systematic(first), Kept::Systematic(1 - first)];
                    bits.insert(place, Kept::Parity(parity));
                    orders.push(Order([bits[0], bits[1], bits[2]]));
                }
            }
        }
        orders
    }

    fn name(&self) -> String {
        let names = self.0.map(|bit| match bit {
            Kept::Systematic(step) => format!("s{step}"),
            Kept::Parity(step) => format!("p{step}"),
        });
        names.join(" ")
    }

    /// Which bits of each trellis step are sent, systematic and parity, where
    /// the pattern punctures the kept ones.
    fn sent(&self, pattern: &[bool; PERIOD]) -> [[bool; 2]; STEPS] {
        let mut sent = [[false; 2]; STEPS];
        for (j, &survives) in pattern.iter().enumerate() {
            let first = 2 * (j / 3);
            match self.0[j % 3] {
                Kept::Systematic(step) => sent[first + step][0] = survives,
                Kept::Parity(step) => sent[first + step][1] = survives,
            }
        }
        sent
    }
}

/// One branch of the trellis: its two states by number, and its output.
struct Branch {
    from: usize,
    to: usize,
    output: [u8; 2],
}

impl Branch {
    fn new(from: usize, u: u8) -> Branch {
        let x = trellis::state_of(from as u64).expect("there are four states");
        Branch {
            from,
            to: trellis::state_number(trellis::next(x, u)) as usize,
            output: trellis::output(x, u),
        }
    }

    /// The ones among the bits that are sent.
    fn weight(&self, sent: [bool; 2]) -> usize {
        (0..2)
            .filter(|&bit| sent[bit] && self.output[bit] == 1)
            .count()
    }
}

/// Counts the error events of the outer code by their weight.
struct Counter {
    /// The branch that every event begins with, and all others but the one that
    /// stays in the zero state.
    first: Branch,
    others: Vec<Branch>,
}

impl Counter {
    fn new() -> Counter {
        let others = (1..STATES).flat_map(|from| [0, 1].map(|u| Branch::new(from, u)));
        Counter {
            first: Branch::new(0, 1),
            others: others.collect(),
        }
    }

    /// 4.4.2, step 4): A(d) for d up to 8, the error events that end in one
    /// period. An event may begin in an earlier one, so periods are gone
    /// through until one has the numbers of the one before.
    fn weights(&self, sent: &[[bool; 2]; STEPS]) -> Weights {
        let mut open = [[0; HEAVIEST + 1]; STATES];
        let mut last = [0; HEAVIEST + 1];
        for _ in 0..MOST_PERIODS {
            let mut ended = [0; HEAVIEST + 1];
            for &step in sent {
                open = self.step(&open, step);
                add(&mut ended, &std::mem::take(&mut open[0]), 0);
            }
            if ended == last {
                break;
            }
            last = ended;
        }
        last
    }

    /// The events that are open after a step, by state and weight; those in
    /// state 0 have just ended.
    fn step(&self, open: &[Weights; STATES], sent: [bool; 2]) -> [Weights; STATES] {
        let mut next = [[0; HEAVIEST + 1]; STATES];
        next[self.first.to][self.first.weight(sent)] = 1;
        for branch in &self.others {
            add(
                &mut next[branch.to],
                &open[branch.from],
                branch.weight(sent),
            );
        }
        next
    }
}

/// Adds events that have gained some weight; those above 8 are forgotten.
fn add(sum: &mut Weights, events: &Weights, gained: usize) {
    for (sum, count) in sum[gained..].iter_mut().zip(events) {
        *sum = sum.saturating_add(*count);
    }
}

/// What the search makes of one printed position.
#[derive(Clone, Copy, Debug, PartialEq, Eq)]
pub struct Choice {
    /// No other position is better.
    pub best: bool,
    /// Every other position is worse.
    pub only: bool,
}

/// Table 4-2's positions in turn, each after those before it. The coefficients
/// are compared from A(1) on.
pub fn choices(order: Order) -> impl Iterator<Item = Choice> {
    let counter = Counter::new();
    let mut pattern = [true; PERIOD];
    tables::table_4_2().iter().map(move |entry| {
        let weights = |j: usize| {
            let mut candidate = pattern;
            candidate[j] = false;
            counter.weights(&order.sent(&candidate))[1..].to_vec()
        };
        let printed = weights(entry.position);
        let others = (0..PERIOD).filter(|&j| pattern[j] && j != entry.position);
        let least = others.map(weights).min().expect("200 positions survive");
        pattern[entry.position] = false;
        Choice {
            best: printed <= least,
            only: printed < least,
        }
    })
}

/// The table of orders: how many printed positions are a best choice, how many
/// the only one, and the first that is not.
pub fn listing() -> String {
    let mut text = String::from("order,best,only best,first not best\n");
    for order in Order::all() {
        let choices: Vec<Choice> = choices(order).collect();
        let best = choices.iter().filter(|choice| choice.best).count();
        let only = choices.iter().filter(|choice| choice.only).count();
        let first = match choices.iter().position(|choice| !choice.best) {
            Some(at) => (at + 1).to_string(),
            None => "none".into(),
        };
        text.push_str(&format!("{},{best},{only},{first}\n", order.name()));
    }
    text
}

#[cfg(test)]
mod tests {
    use super::*;

    /// docs/DECISIONS.md has these numbers.
    #[test]
    fn only_the_order_read_and_its_mirror_image_find_table_4_2() {
        let mirror = Order([Kept::Systematic(1), Kept::Parity(1), Kept::Systematic(0)]);
        for order in Order::all() {
            let best = choices(order).take_while(|choice| choice.best);
            let only: Vec<bool> = best.map(|choice| choice.only).collect();
            if order == READ || order == mirror {
                assert_eq!(only.len(), 96, "{}", order.name());
                assert_eq!(only.iter().filter(|&&only| only).count(), 82);
            } else {
                assert!([0, 30].contains(&only.len()), "{}", order.name());
            }
        }
    }

    #[test]
    fn there_are_twelve_orders() {
        let mut names: Vec<String> = Order::all().iter().map(Order::name).collect();
        names.sort();
        names.dedup();
        assert_eq!(names.len(), 12);
        assert!(names.contains(&READ.name()));
    }

    /// With every bit of every step sent the free distance of the code is 5:
    /// one event, 11 10 11, in each of the 200 steps.
    #[test]
    fn the_unpunctured_code_has_free_distance_5() {
        let weights = Counter::new().weights(&[[true; 2]; STEPS]);
        assert_eq!(weights[..6], [0, 0, 0, 0, 0, 200]);
    }
}
