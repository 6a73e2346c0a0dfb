//! Document 01's definitions by enumeration, for tiny models: every pairing, every choice of counts up to
//! 3×(E−1). Nothing here searches cleverly and nothing is shared with the rest of this crate but the table, so
//! agreement with it means something.

use crate::analysis::Verdict;
use crate::counts::Counts;
use crate::table::Table;

/// For each equation the unknown that it is paired with.
type Pairing = Vec<Option<usize>>;

/// The verdict from the definitions.
pub fn verdict(table: &Table) -> Verdict {
    let pairings = all_pairings(table, &|e, u| table.occurs(e, u));
    let rank = pairings.iter().map(size).max().expect("the empty pairing is one");
    if rank == table.equations() && rank == table.unknowns() {
        solvable(table)
    } else {
        let largest: Vec<Pairing> = pairings.into_iter().filter(|p| size(p) == rank).collect();
        singular(table, rank, &largest)
    }
}

/// Every set of pairs in which no equation and no unknown stands twice, for the pairs that `may` allows.
fn all_pairings(table: &Table, may: &dyn Fn(usize, usize) -> bool) -> Vec<Pairing> {
    let mut pairings: Vec<Pairing> = vec![Vec::new()];
    for e in 0..table.equations() {
        let mut longer = Vec::new();
        for pairing in &pairings {
            for u in 0..table.unknowns() {
                if may(e, u) && !pairing.contains(&Some(u)) {
                    longer.push(with(pairing, Some(u)));
                }
            }
            longer.push(with(pairing, None));
        }
        pairings = longer;
    }
    pairings
}

fn with(pairing: &Pairing, unknown: Option<usize>) -> Pairing {
    let mut longer = pairing.clone();
    longer.push(unknown);
    longer
}

fn size(pairing: &Pairing) -> usize {
    pairing.iter().flatten().count()
}

/// The pairings of all equations, each equation's unknown in its place.
fn full_pairings(table: &Table, may: &dyn Fn(usize, usize) -> bool) -> Vec<Vec<usize>> {
    all_pairings(table, may).into_iter().filter_map(|pairing| pairing.into_iter().collect()).collect()
}

fn singular(table: &Table, rank: usize, largest: &[Pairing]) -> Verdict {
    let surplus = (0..table.equations()).filter(|&e| largest.iter().any(|p| p[e].is_none())).collect();
    let unfixed = (0..table.unknowns()).filter(|&u| largest.iter().any(|p| !p.contains(&Some(u)))).collect();
    Verdict::Singular { rank, surplus, unfixed }
}

fn solvable(table: &Table) -> Verdict {
    let choice = least_fit_choice(table);
    let is_leading = |e: usize, u: usize| {
        table.order(e, u).is_some_and(|order| choice.tops[u] == order + choice.counts[e])
    };
    let partners = first_partners(table, &is_leading);
    let blocks = blocks(&partners, &is_leading);
    Verdict::Solvable { choice, partners, blocks }
}

/// The fit choice whose every count is no larger than in any other fit choice.
fn least_fit_choice(table: &Table) -> Counts {
    let full = full_pairings(table, &|e, u| table.occurs(e, u));
    let fit: Vec<Counts> = all_counts(table.equations())
        .into_iter()
        .flat_map(|counts| full.iter().filter_map(move |pairing| fit_choice(table, &counts, pairing)))
        .collect();
    let no_larger = |a: &Counts, b: &Counts| a.counts.iter().zip(&b.counts).all(|(x, y)| x <= y);
    let mut least = fit.iter().filter(|choice| fit.iter().all(|other| no_larger(choice, other)));
    let found = least.next().expect("a solvable model has a least fit choice").clone();
    assert!(least.all(|other| *other == found), "the least fit choice is one");
    found
}

/// Every choice of counts up to 3×(E−1).
fn all_counts(equations: usize) -> Vec<Vec<usize>> {
    let highest = 3 * (equations - 1);
    let mut choices = vec![Vec::new()];
    for _ in 0..equations {
        choices = choices
            .iter()
            .flat_map(|choice: &Vec<usize>| {
                (0..=highest).map(move |count| [choice.as_slice(), &[count]].concat())
            })
            .collect();
    }
    choices
}

/// These counts with the tops that this full pairing asks for, if they are fit.
fn fit_choice(table: &Table, counts: &[usize], pairing: &[usize]) -> Option<Counts> {
    let mut tops = vec![0; table.unknowns()];
    for (e, &u) in pairing.iter().enumerate() {
        tops[u] = table.order(e, u)? + counts[e];
    }
    let at_least = |e: usize, u: usize| match table.order(e, u) {
        Some(order) => tops[u] >= order + counts[e],
        None => true,
    };
    let fit = (0..table.equations()).all(|e| (0..table.unknowns()).all(|u| at_least(e, u)));
    fit.then(|| Counts { counts: counts.to_vec(), tops })
}

/// Equation 1 gets the lowest unknown that it has in any full pairing, then equation 2 the lowest in any full
/// pairing that agrees so far, and so on.
fn first_partners(table: &Table, is_leading: &dyn Fn(usize, usize) -> bool) -> Vec<usize> {
    let mut candidates = full_pairings(table, is_leading);
    for e in 0..table.equations() {
        let lowest = candidates.iter().map(|pairing| pairing[e]).min().expect("a fit choice has a pairing");
        candidates.retain(|pairing| pairing[e] == lowest);
    }
    candidates.remove(0)
}

/// Blocks by the transitive closure of needs, placed one by one.
fn blocks(partners: &[usize], is_leading: &dyn Fn(usize, usize) -> bool) -> Vec<Vec<usize>> {
    let equations = partners.len();
    let needs = |f: usize, g: usize| f != g && is_leading(f, partners[g]);
    let mut reaches: Vec<Vec<bool>> =
        (0..equations).map(|f| (0..equations).map(|g| f == g || needs(f, g)).collect()).collect();
    for middle in 0..equations {
        for f in 0..equations {
            for g in 0..equations {
                reaches[f][g] |= reaches[f][middle] && reaches[middle][g];
            }
        }
    }
    let block_of =
        |e: usize| -> Vec<usize> { (0..equations).filter(|&g| reaches[e][g] && reaches[g][e]).collect() };
    let mut waiting: Vec<Vec<usize>> = (0..equations).map(block_of).collect();
    waiting.sort();
    waiting.dedup();
    let mut placed: Vec<Vec<usize>> = Vec::new();
    while !waiting.is_empty() {
        // Sorted, so the first ready one has the lowest equation number in it.
        let ready = waiting
            .iter()
            .position(|block| {
                let stands = |g: usize| placed.iter().any(|other| other.contains(&g));
                let asks = |g: usize| block.iter().any(|&f| needs(f, g));
                (0..equations).all(|g| !asks(g) || block.contains(&g) || stands(g))
            })
            .expect("some block is ready");
        placed.push(waiting.remove(ready));
    }
    placed
}
