//! The table: which unknown occurs in which equation, and at which derivative (01, "The table").

use crate::Refusal;

/// The most equations, and the most unknowns, that a model has.
pub const LIMIT: usize = 32;

/// The highest code: the unknown occurs, and its highest derivative has order 3.
pub const HIGHEST_CODE: u8 = 4;

/// A table within the limits.
#[derive(Clone, Debug, PartialEq, Eq)]
pub struct Table {
    equations: usize,
    unknowns: usize,
    codes: Vec<u8>,
}

/// Whether a number of equations or of unknowns is one that a model can have.
pub fn within_limit(number: usize) -> bool {
    (1..=LIMIT).contains(&number)
}

/// The offset of the first code above 4.
pub fn first_bad_code(codes: &[u8]) -> Option<usize> {
    codes.iter().position(|&code| code > HIGHEST_CODE)
}

impl Table {
    /// The table of these bytes, or refusal 1, 2 or 4 in that order.
    pub fn judge(equations: usize, unknowns: usize, codes: &[u8]) -> Result<Table, Refusal> {
        if !within_limit(equations) || !within_limit(unknowns) {
            return Err(Refusal::without_place(1));
        }
        if codes.len() != equations * unknowns {
            return Err(Refusal::without_place(2));
        }
        if let Some(place) = first_bad_code(codes) {
            return Err(Refusal::at(4, place));
        }
        let codes = codes.to_vec();
        Ok(Table { equations, unknowns, codes })
    }

    /// E.
    pub fn equations(&self) -> usize {
        self.equations
    }

    /// U.
    pub fn unknowns(&self) -> usize {
        self.unknowns
    }

    /// The E×U bytes, row by row.
    pub fn codes(&self) -> &[u8] {
        &self.codes
    }

    /// The order of the unknown's highest derivative in the equation. Code 0 is no order at all.
    pub fn order(&self, e: usize, u: usize) -> Option<usize> {
        match self.codes[e * self.unknowns + u] {
            0 => None,
            code => Some(usize::from(code) - 1),
        }
    }

    /// Whether the unknown occurs in the equation, at any order.
    pub fn occurs(&self, e: usize, u: usize) -> bool {
        self.order(e, u).is_some()
    }
}
