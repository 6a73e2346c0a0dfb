//! A second opinion on the counts, by the way of Pryce's paper: find a full pairing whose orders have the largest
//! sum, then raise counts only as far as its pairs force. Every fit choice has d = order + c at each pair of such
//! a pairing, so nothing is raised too far.

use crate::counts::Counts;
use crate::table::{HIGHEST_CODE, LIMIT, Table};

/// The least fit choice of a solvable model.
pub fn least(table: &Table) -> Counts {
    let heaviest = heaviest_pairing(table);
    let mut choice = Counts::with_tops(table, vec![0; table.equations()]);
    loop {
        let forced: Vec<usize> = heaviest
            .iter()
            .enumerate()
            .map(|(e, &u)| choice.tops[u] - table.order(e, u).expect("a pair is an occurrence"))
            .collect();
        if forced == choice.counts {
            return choice;
        }
        choice = Counts::with_tops(table, forced);
    }
}

/// For each equation its unknown in a full pairing with the largest sum of orders (the Hungarian method, least
/// cost). The cost of a pair is what its order lacks of the highest one; a pair that does not occur costs more
/// than any full pairing of occurrences, so none is taken.
fn heaviest_pairing(table: &Table) -> Vec<usize> {
    let size = table.equations();
    let mut state = Hungarian {
        table,
        price_of_equation: vec![0; size],
        price_of_unknown: vec![0; size],
        holder: vec![None; size],
    };
    for e in 0..size {
        state.pair(e);
    }
    let mut partner = vec![0; size];
    for (u, present) in state.holder.iter().enumerate() {
        partner[present.expect("the pairing is full")] = u;
    }
    partner
}

/// The cost of a pair that does not occur.
const NEVER: i64 = (LIMIT as i64 + 1) * HIGHEST_CODE as i64;

struct Hungarian<'a> {
    table: &'a Table,
    price_of_equation: Vec<i64>,
    price_of_unknown: Vec<i64>,
    holder: Vec<Option<usize>>,
}

impl Hungarian<'_> {
    fn cost(&self, e: usize, u: usize) -> i64 {
        match self.table.order(e, u) {
            Some(order) => i64::from(HIGHEST_CODE) - 1 - order as i64,
            None => NEVER,
        }
    }

    /// What the pair costs above the two prices: never below 0, and 0 at every pair that is held.
    fn slack(&self, e: usize, u: usize) -> i64 {
        self.cost(e, u) - self.price_of_equation[e] - self.price_of_unknown[u]
    }

    /// Pairs one more equation by the cheapest chain of moves.
    fn pair(&mut self, start: usize) {
        let size = self.holder.len();
        let mut least_slack = vec![i64::MAX; size];
        let mut reached_from = vec![start; size];
        let mut visited = vec![false; size];
        let mut visited_equations = vec![start];
        let free = loop {
            let e = *visited_equations.last().expect("it begins with start");
            for u in (0..size).filter(|&u| !visited[u]) {
                let slack = self.slack(e, u);
                if slack < least_slack[u] {
                    least_slack[u] = slack;
                    reached_from[u] = e;
                }
            }
            let nearest = (0..size)
                .filter(|&u| !visited[u])
                .min_by_key(|&u| least_slack[u])
                .expect("a free unknown is left");
            let step = least_slack[nearest];
            for &e in &visited_equations {
                self.price_of_equation[e] += step;
            }
            for u in 0..size {
                if visited[u] {
                    self.price_of_unknown[u] -= step;
                } else {
                    least_slack[u] -= step;
                }
            }
            visited[nearest] = true;
            match self.holder[nearest] {
                Some(present) => visited_equations.push(present),
                None => break nearest,
            }
        };
        self.move_along(free, &reached_from, start);
    }

    /// Each equation of the chain gives up its unknown to the one before and takes the next.
    fn move_along(&mut self, free: usize, reached_from: &[usize], start: usize) {
        let mut to_take = free;
        loop {
            let e = reached_from[to_take];
            let given_up = self.holder.iter().position(|&present| present == Some(e));
            self.holder[to_take] = Some(e);
            match given_up {
                Some(u) => to_take = u,
                None => {
                    debug_assert_eq!(e, start);
                    return;
                }
            }
        }
    }
}
