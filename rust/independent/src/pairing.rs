//! The largest pairing, and what some largest pairing leaves over (01, "Solvable or singular"; demand 3).
//!
//! `may(e, u)` says whether equation `e` may be paired with unknown `u`: that it occurs, for the rank; that it
//! leads, for counts and partners.

/// For each unknown the equation that holds it.
pub type Holders = Vec<Option<usize>>;

/// The search of 002's MATCH-EQUATION: equation `e`, which holds nothing, takes a free unknown or asks the holder
/// of a taken one to move on. Each equation is asked at most once, so the asking ends.
pub fn search(
    may: &impl Fn(usize, usize) -> bool,
    e: usize,
    asked: &mut [bool],
    holder: &mut Holders,
) -> bool {
    asked[e] = true;
    let unknowns = holder.len();
    if let Some(free) = (0..unknowns).find(|&u| holder[u].is_none() && may(e, u)) {
        holder[free] = Some(e);
        return true;
    }
    for u in (0..unknowns).filter(|&u| may(e, u)) {
        let Some(present) = holder[u] else { continue };
        if !asked[present] && search(may, present, asked, holder) {
            holder[u] = Some(e);
            return true;
        }
    }
    false
}

/// A largest pairing: every equation is tried in turn.
pub fn largest(may: &impl Fn(usize, usize) -> bool, equations: usize, unknowns: usize) -> Holders {
    let mut holder = vec![None; unknowns];
    for e in 0..equations {
        let mut asked = vec![false; equations];
        search(may, e, &mut asked, &mut holder);
    }
    holder
}

/// The number of pairs.
pub fn size(holder: &Holders) -> usize {
    holder.iter().flatten().count()
}

/// For each equation the unknown that it holds.
pub fn partners(holder: &Holders, equations: usize) -> Vec<Option<usize>> {
    let mut partner = vec![None; equations];
    for (u, present) in holder.iter().enumerate() {
        if let Some(e) = *present {
            partner[e] = Some(u);
        }
    }
    partner
}

/// Every equation that at least one largest pairing leaves over, ascending. `holder` is any largest pairing: an
/// equation that it leaves over can take an unknown of its own from the holder, who is then left over instead,
/// and so on.
pub fn surplus(may: &impl Fn(usize, usize) -> bool, equations: usize, holder: &Holders) -> Vec<usize> {
    let mut left_over: Vec<bool> = partners(holder, equations).iter().map(Option::is_none).collect();
    let mut to_visit = numbers_of(&left_over);
    while let Some(e) = to_visit.pop() {
        for u in (0..holder.len()).filter(|&u| may(e, u)) {
            let present = holder[u].expect("a largest pairing leaves no free unknown within reach");
            if !left_over[present] {
                left_over[present] = true;
                to_visit.push(present);
            }
        }
    }
    numbers_of(&left_over)
}

/// Every unknown that at least one largest pairing leaves over, ascending. The same from the other side: an
/// equation that contains a left-over unknown can take it and leave its partner over instead.
pub fn unfixed(may: &impl Fn(usize, usize) -> bool, equations: usize, holder: &Holders) -> Vec<usize> {
    let partner = partners(holder, equations);
    let mut left_over: Vec<bool> = holder.iter().map(Option::is_none).collect();
    let mut to_visit = numbers_of(&left_over);
    while let Some(u) = to_visit.pop() {
        for e in (0..equations).filter(|&e| may(e, u)) {
            let given_up = partner[e].expect("a largest pairing leaves no free equation within reach");
            if !left_over[given_up] {
                left_over[given_up] = true;
                to_visit.push(given_up);
            }
        }
    }
    numbers_of(&left_over)
}

fn numbers_of(marked: &[bool]) -> Vec<usize> {
    (0..marked.len()).filter(|&i| marked[i]).collect()
}
