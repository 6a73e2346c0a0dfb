//! The least counts and the tops of a solvable model (01, "Counts, tops, partners").
//!
//! As in 002's PANTELIDES, but on counts alone: where the search from an equation over leading occurrences fails,
//! everything that was asked is differentiated once more, and the search begins again. [`crate::pryce`] goes
//! another way to the same counts.

use crate::pairing::{Holders, search};
use crate::table::Table;

/// Counts by equation and tops by unknown.
#[derive(Clone, Debug, PartialEq, Eq)]
pub struct Counts {
    /// c, one for each equation.
    pub counts: Vec<usize>,
    /// d, one for each unknown.
    pub tops: Vec<usize>,
}

impl Counts {
    /// These counts, each top the largest order + c over its unknown's occurrences.
    pub fn with_tops(table: &Table, counts: Vec<usize>) -> Counts {
        let mut tops = vec![0; table.unknowns()];
        for (e, &count) in counts.iter().enumerate() {
            for (u, top) in tops.iter_mut().enumerate() {
                if let Some(order) = table.order(e, u) {
                    *top = (*top).max(order + count);
                }
            }
        }
        Counts { counts, tops }
    }

    /// Whether the unknown has a leading occurrence in the equation: d = order + c.
    pub fn leads(&self, table: &Table, e: usize, u: usize) -> bool {
        table.order(e, u).is_some_and(|order| order + self.counts[e] == self.tops[u])
    }

    /// Each asked equation counts one more, and so does the top of each unknown that one of them holds.
    fn differentiate(&mut self, asked: &[bool], holder: &Holders) {
        for (count, &asked) in self.counts.iter_mut().zip(asked) {
            *count += usize::from(asked);
        }
        for (top, present) in self.tops.iter_mut().zip(holder) {
            *top += usize::from(present.is_some_and(|e| asked[e]));
        }
    }
}

/// The fit choice whose every count is no larger than in any other. The model must be solvable: otherwise the
/// differentiation would never end.
pub fn least(table: &Table) -> Counts {
    let equations = table.equations();
    let mut choice = Counts::with_tops(table, vec![0; equations]);
    let mut holder = vec![None; table.unknowns()];
    for e in 0..equations {
        loop {
            let mut asked = vec![false; equations];
            if search(&|e, u| choice.leads(table, e, u), e, &mut asked, &mut holder) {
                break;
            }
            choice.differentiate(&asked, &holder);
        }
    }
    choice
}
