//! Each equation's partner (01, "Counts, tops, partners"): equation 1 gets the lowest-numbered unknown with which
//! all the others can still be paired, then equation 2 likewise, and so on, over leading occurrences only.

use crate::pairing::{Holders, largest, partners, search};

/// For each equation its partner. `leads` must pair all equations with all unknowns, `size` of each.
pub fn first(leads: &impl Fn(usize, usize) -> bool, size: usize) -> Vec<usize> {
    let mut holder = largest(leads, size, size);
    for e in 0..size {
        for u in (0..size).filter(|&u| leads(e, u)) {
            if let Some(settled) = settle(leads, &holder, e, u) {
                holder = settled;
                break;
            }
        }
    }
    partners(&holder, size).into_iter().map(|partner| partner.expect("the pairing is full")).collect()
}

/// A full pairing that keeps the partners of the equations before `e` and gives `u` to `e`, if there is one.
fn settle(leads: &impl Fn(usize, usize) -> bool, holder: &Holders, e: usize, u: usize) -> Option<Holders> {
    let present = holder[u].expect("the pairing is full");
    if present == e {
        return Some(holder.clone());
    }
    if present < e {
        return None;
    }
    let mut trial = holder.clone();
    for held in trial.iter_mut().filter(|held| **held == Some(e)) {
        *held = None;
    }
    trial[u] = Some(e);
    // The equations up to e are settled: nobody may ask them to move on.
    let mut asked: Vec<bool> = (0..holder.len()).map(|other| other <= e).collect();
    search(leads, present, &mut asked, &mut trial).then_some(trial)
}
