//! How often annex D's rule misses a wrong row of annex C: a row with another
//! beta, or two neighbours with their alphas exchanged.

use crate::annex_c::{AnnexC, Interleaver, UpperPosition};
use crate::annex_d::{self, Head};
use crate::tables::M;

/// Wrong rows that were tried, and those that keep the rule all the same.
#[derive(Clone, Copy, Debug, Default, PartialEq, Eq)]
pub struct Missed {
    pub tried: usize,
    pub missed: usize,
}

impl Missed {
    fn add(&mut self, keeps: bool) {
        self.tried += 1;
        self.missed += usize::from(keeps);
    }

    fn sum(all: &[Missed]) -> Missed {
        Missed {
            tried: all.iter().map(|one| one.tried).sum(),
            missed: all.iter().map(|one| one.missed).sum(),
        }
    }

    fn fields(&self) -> String {
        let percent = 100.0 * self.missed as f64 / self.tried as f64;
        format!("{},{},{percent:.1}", self.tried, self.missed)
    }
}

/// An interleaver whose rows may be changed, and its permutation.
struct Changed {
    interleaver: Interleaver,
    pi: Vec<usize>,
    S: usize,
}

impl Changed {
    fn new(annex_c: &AnnexC, head: &Head) -> Changed {
        let interleaver = annex_c.of_size(head.I).clone();
        Changed {
            pi: interleaver.permutation().iter().map(|p| p.0).collect(),
            interleaver,
            S: head.S1,
        }
    }

    fn positions(&self, row: usize) -> impl Iterator<Item = usize> {
        (row..self.interleaver.I).step_by(self.interleaver.W)
    }

    fn change(&mut self, rows: &[usize], change: impl FnOnce(&mut Interleaver)) {
        change(&mut self.interleaver);
        for &row in rows {
            for i in self.positions(row) {
                self.pi[i] = self.interleaver.pi(UpperPosition(i)).0;
            }
        }
    }

    /// Whether the sum is above S for each position of the row and any other;
    /// from a distance of S on it is.
    fn keeps_rule(&self, row: usize) -> bool {
        let (I, S, pi) = (self.interleaver.I, self.S, &self.pi);
        self.positions(row).all(|i| {
            let near = i.saturating_sub(S)..I.min(i + S);
            near.filter(|&j| j != i)
                .all(|j| i.abs_diff(j) + pi[i].abs_diff(pi[j]) > S)
        })
    }
}

/// Each row of a size with each beta that is not its own.
fn other_betas(annex_c: &AnnexC, head: &Head) -> Missed {
    let mut changed = Changed::new(annex_c, head);
    let mut missed = Missed::default();
    for row in 0..head.W {
        let own = changed.interleaver.beta[row];
        for beta in (0..M).filter(|&beta| beta != own) {
            changed.change(&[row], |size| size.beta[row] = beta);
            missed.add(changed.keeps_rule(row));
        }
        changed.change(&[row], |size| size.beta[row] = own);
    }
    missed
}

/// Each row of a size but the last, its alpha exchanged with the next row's.
fn exchanged_alphas(annex_c: &AnnexC, head: &Head) -> Missed {
    let mut changed = Changed::new(annex_c, head);
    let mut missed = Missed::default();
    for row in 0..head.W - 1 {
        let rows = [row, row + 1];
        changed.change(&rows, |size| size.alpha.swap(row, row + 1));
        missed.add(rows.iter().all(|&row| changed.keeps_rule(row)));
        changed.change(&rows, |size| size.alpha.swap(row, row + 1));
    }
    missed
}

/// The table of sizes: how many wrong rows were tried, how many missed, and how
/// many of a hundred that is.
pub fn listing(annex_c: &AnnexC) -> String {
    let heads = annex_d::heads();
    let of_each = |count: fn(&AnnexC, &Head) -> Missed| -> Vec<Missed> {
        heads.iter().map(|head| count(annex_c, head)).collect()
    };
    let betas = of_each(other_betas);
    let alphas = of_each(exchanged_alphas);
    let mut text = String::from("size,other betas,missed,%,exchanged alphas,missed,%\n");
    for ((head, beta), alpha) in heads.iter().zip(&betas).zip(&alphas) {
        text.push_str(&format!(
            "{},{},{}\n",
            head.I,
            beta.fields(),
            alpha.fields()
        ));
    }
    let [beta, alpha] = [Missed::sum(&betas), Missed::sum(&alphas)];
    text.push_str(&format!("all,{},{}\n", beta.fields(), alpha.fields()));
    text
}

#[cfg(test)]
mod tests {
    use super::*;
    use crate::annex_c;

    #[test]
    fn the_rows_as_they_are_keep_the_rule() {
        let annex_c = annex_c::data();
        for head in annex_d::heads() {
            let changed = Changed::new(&annex_c, &head);
            assert!((0..head.W).all(|row| changed.keeps_rule(row)), "{}", head.I);
        }
    }

    /// The rule by rows is the rule over the whole interleaver.
    #[test]
    fn a_row_that_breaks_the_rule_lessens_the_spread() {
        let annex_c = annex_c::data();
        let head = annex_d::heads()[0];
        let mut changed = Changed::new(&annex_c, &head);
        for beta in 0..M {
            changed.change(&[5], |size| size.beta[5] = beta);
            let spread = annex_d::smallest_spread(&changed.interleaver);
            assert_eq!(changed.keeps_rule(5), spread > head.S1, "{beta}");
        }
    }

    /// The smallest size's numbers, which are all printed ones.
    #[test]
    fn the_smallest_size() {
        let annex_c = annex_c::data();
        let head = annex_d::heads()[0];
        let missed = |tried, missed| Missed { tried, missed };
        assert_eq!(other_betas(&annex_c, &head), missed(72 * 119, 174));
        assert_eq!(exchanged_alphas(&annex_c, &head).tried, 71);
    }
}
