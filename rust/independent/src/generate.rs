//! Generated models for tests and benchmarks: the same seed gives the same models on every machine.

use crate::pairing::{largest, size};
use crate::table::{HIGHEST_CODE, Table};

/// A small xorshift generator (xorshift64*).
#[derive(Clone, Debug)]
pub struct Random(u64);

impl Random {
    /// A generator that always gives the same numbers for the same seed.
    pub fn new(seed: u64) -> Random {
        // The state must not be 0, and near seeds should not give like numbers.
        let mut random = Random(seed.wrapping_mul(0x9E37_79B9_7F4A_7C15) | 1);
        for _ in 0..8 {
            random.number();
        }
        random
    }

    /// The next number.
    pub fn number(&mut self) -> u64 {
        self.0 ^= self.0 >> 12;
        self.0 ^= self.0 << 25;
        self.0 ^= self.0 >> 27;
        self.0.wrapping_mul(0x2545_F491_4F6C_DD1D)
    }

    /// A number from 0 on, below `bound`.
    pub fn below(&mut self, bound: usize) -> usize {
        ((self.number() >> 32) as usize) % bound
    }

    /// A number from `low` to `high`, both included.
    pub fn between(&mut self, low: usize, high: usize) -> usize {
        low + self.below(high - low + 1)
    }

    /// True so many times in a hundred.
    pub fn percent(&mut self, percent: usize) -> bool {
        self.below(100) < percent
    }

    /// One of these.
    pub fn pick<T: Copy>(&mut self, from: &[T]) -> T {
        from[self.below(from.len())]
    }

    /// The numbers below `count` in some order.
    pub fn permutation(&mut self, count: usize) -> Vec<usize> {
        let mut numbers: Vec<usize> = (0..count).collect();
        for i in (1..count).rev() {
            numbers.swap(i, self.below(i + 1));
        }
        numbers
    }
}

/// What a generated model is like.
#[derive(Clone, Copy, Debug, PartialEq, Eq)]
pub enum Kind {
    /// Square, most places filled.
    Dense,
    /// Square, one to three occurrences in a row.
    Sparse,
    /// Square, solvable by a hidden full pairing, with a few more occurrences.
    Paired,
    /// Square, each equation differentiated for the sake of the next: counts up to 3×(E−1).
    Chain,
    /// Square, small blocks, each needing some of those before it.
    ManyBlocks,
    /// Square, one ring that takes in everything.
    Ring,
    /// E and U differ.
    Rectangular,
    /// Some equations share fewer unknowns than their number.
    Surplus,
    /// Some unknowns occur only in fewer equations than their number.
    Unfixed,
    /// Empty rows and columns.
    Blank,
}

impl Kind {
    /// All kinds.
    pub const ALL: [Kind; 10] = [
        Kind::Dense,
        Kind::Sparse,
        Kind::Paired,
        Kind::Chain,
        Kind::ManyBlocks,
        Kind::Ring,
        Kind::Rectangular,
        Kind::Surplus,
        Kind::Unfixed,
        Kind::Blank,
    ];
}

/// A model of this kind. `size` is E, and U but for a rectangular one. Rows and columns are shuffled.
pub fn model(kind: Kind, size: usize, largest_size: usize, random: &mut Random) -> Table {
    let mut draft = match kind {
        Kind::Dense => {
            let share = random.between(40, 100);
            Draft::scattered(size, size, share, random)
        }
        Kind::Sparse => sparse(size, random),
        Kind::Paired => paired(size, random),
        Kind::Chain => chain(size, random),
        Kind::ManyBlocks => many_blocks(size, random),
        Kind::Ring => ring(size, random),
        Kind::Rectangular => rectangular(size, largest_size, random),
        Kind::Surplus => confined(size, random),
        Kind::Unfixed => confined(size, random).transposed(),
        Kind::Blank => blank(size, random),
    };
    draft.shuffle(random);
    draft.table()
}

/// What the models of a benchmark are like.
#[derive(Clone, Copy, Debug, PartialEq, Eq)]
pub enum Shape {
    /// Most places filled, solvable.
    DenseSolvable,
    /// Most places filled, some equations confined to too few unknowns.
    DenseSingular,
    /// A hidden full pairing and two or three more occurrences in a row.
    SparseSolvable,
    /// Two or three occurrences in a row, no full pairing.
    SparseSingular,
}

impl Shape {
    /// All shapes.
    pub const ALL: [Shape; 4] =
        [Shape::DenseSolvable, Shape::DenseSingular, Shape::SparseSolvable, Shape::SparseSingular];

    /// Its name in a printed table.
    pub fn name(self) -> &'static str {
        match self {
            Shape::DenseSolvable => "dense, solvable",
            Shape::DenseSingular => "dense, singular",
            Shape::SparseSolvable => "sparse, solvable",
            Shape::SparseSingular => "sparse, singular",
        }
    }

    fn wants_solvable(self) -> bool {
        matches!(self, Shape::DenseSolvable | Shape::SparseSolvable)
    }

    /// A square model of this shape and size.
    pub fn model(self, size: usize, random: &mut Random) -> Table {
        loop {
            let mut draft = match self {
                Shape::DenseSolvable => Draft::scattered(size, size, 80, random),
                Shape::DenseSingular => dense_confined(size, random),
                Shape::SparseSolvable => paired_with(size, 3 * size, random),
                Shape::SparseSingular => sparse(size, random),
            };
            draft.shuffle(random);
            let table = draft.table();
            if is_solvable(&table) == self.wants_solvable() {
                return table;
            }
        }
    }
}

fn is_solvable(table: &Table) -> bool {
    let rank = size(&largest(&|e, u| table.occurs(e, u), table.equations(), table.unknowns()));
    rank == table.equations() && rank == table.unknowns()
}

/// A table in the making.
struct Draft {
    rows: Vec<Vec<u8>>,
}

impl Draft {
    fn empty(equations: usize, unknowns: usize) -> Draft {
        Draft { rows: vec![vec![0; unknowns]; equations] }
    }

    /// Every place is filled with the same chance.
    fn scattered(equations: usize, unknowns: usize, percent: usize, random: &mut Random) -> Draft {
        let mut draft = Draft::empty(equations, unknowns);
        let highest = highest_code(random);
        for code in draft.rows.iter_mut().flatten() {
            if random.percent(percent) {
                *code = random.between(1, highest) as u8;
            }
        }
        draft
    }

    fn sprinkle(&mut self, occurrences: usize, highest: usize, random: &mut Random) {
        for _ in 0..occurrences {
            let e = random.below(self.rows.len());
            let u = random.below(self.rows[e].len());
            self.rows[e][u] = random.between(1, highest) as u8;
        }
    }

    fn transposed(&self) -> Draft {
        let unknowns = self.rows[0].len();
        Draft { rows: (0..unknowns).map(|u| self.rows.iter().map(|row| row[u]).collect()).collect() }
    }

    fn shuffle(&mut self, random: &mut Random) {
        let row_order = random.permutation(self.rows.len());
        let column_order = random.permutation(self.rows[0].len());
        self.rows =
            row_order.iter().map(|&e| column_order.iter().map(|&u| self.rows[e][u]).collect()).collect();
    }

    fn table(&self) -> Table {
        Table::judge(self.rows.len(), self.rows[0].len(), &self.rows.concat())
            .expect("a generated model is within the limits")
    }
}

/// Often all codes, sometimes only the low ones, so that many occurrences lead.
fn highest_code(random: &mut Random) -> usize {
    random.pick(&[1, 2, 3, usize::from(HIGHEST_CODE), usize::from(HIGHEST_CODE)])
}

fn sparse(size: usize, random: &mut Random) -> Draft {
    let mut draft = Draft::empty(size, size);
    let highest = highest_code(random);
    for row in &mut draft.rows {
        for _ in 0..random.between(1, 3) {
            row[random.below(size)] = random.between(1, highest) as u8;
        }
    }
    draft
}

fn paired(size: usize, random: &mut Random) -> Draft {
    let more = random.below(4 * size);
    paired_with(size, more, random)
}

fn paired_with(size: usize, more: usize, random: &mut Random) -> Draft {
    let mut draft = Draft::empty(size, size);
    let highest = highest_code(random);
    draft.sprinkle(more, highest, random);
    for (e, row) in draft.rows.iter_mut().enumerate() {
        row[e] = random.between(1, highest) as u8;
    }
    draft
}

fn chain(size: usize, random: &mut Random) -> Draft {
    let mut draft = Draft::empty(size, size);
    let pure = random.percent(50);
    for e in 0..size {
        draft.rows[e][e] = 1;
        if e > 0 {
            let code = if pure { usize::from(HIGHEST_CODE) } else { random.between(2, 4) };
            draft.rows[e][e - 1] = code as u8;
        }
    }
    if !pure {
        let more = random.below(size);
        draft.sprinkle(more, 2, random);
    }
    draft
}

fn many_blocks(size: usize, random: &mut Random) -> Draft {
    let mut draft = Draft::empty(size, size);
    let highest = if random.percent(50) { 1 } else { highest_code(random) };
    let mut start = 0;
    while start < size {
        let length = random.between(1, 3).min(size - start);
        for i in 0..length {
            let (e, next) = (start + i, start + (i + 1) % length);
            draft.rows[e][e] = 1;
            draft.rows[e][next] = 1;
            if start > 0 && random.percent(60) {
                draft.rows[e][random.below(start)] = random.between(1, highest) as u8;
            }
        }
        start += length;
    }
    draft
}

fn ring(size: usize, random: &mut Random) -> Draft {
    let mut draft = Draft::empty(size, size);
    let code = random.between(1, 4) as u8;
    for e in 0..size {
        draft.rows[e][e] = code;
        draft.rows[e][(e + 1) % size] = code;
    }
    let more = random.below(size);
    draft.sprinkle(more, usize::from(code), random);
    draft
}

fn rectangular(size: usize, largest_size: usize, random: &mut Random) -> Draft {
    let mut other = random.between(1, largest_size);
    if other == size {
        other = if size == 1 { 2 } else { size - 1 };
    }
    let percent = random.pick(&[5, 15, 40, 90]);
    Draft::scattered(size, other, percent, random)
}

/// Some rows keep to fewer columns than their number; the rest are scattered.
fn confined(size: usize, random: &mut Random) -> Draft {
    let percent = random.pick(&[10, 25, 70]);
    let mut draft = paired_with(size, size * size * percent / 100, random);
    confine(&mut draft, random);
    draft
}

fn dense_confined(size: usize, random: &mut Random) -> Draft {
    let mut draft = Draft::scattered(size, size, 80, random);
    confine(&mut draft, random);
    draft
}

fn confine(draft: &mut Draft, random: &mut Random) {
    let equations = random.between(1, draft.rows.len());
    let unknowns = random.below(equations);
    for row in &mut draft.rows[..equations] {
        row[unknowns..].fill(0);
    }
}

fn blank(size: usize, random: &mut Random) -> Draft {
    let percent = random.pick(&[20, 50, 100]);
    let mut draft = Draft::scattered(size, size, percent, random);
    for _ in 0..random.between(0, 2) {
        let e = random.below(size);
        draft.rows[e].fill(0);
    }
    for _ in 0..random.between(0, 2) {
        let u = random.below(size);
        for row in &mut draft.rows {
            row[u] = 0;
        }
    }
    draft
}
