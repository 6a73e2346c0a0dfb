//! The analysis: the verdict, the six numbers and the five strips (01, "What the analysis hands back").

use crate::Refusal;
use crate::blocks::placed;
use crate::counts::{Counts, least};
use crate::pairing::{largest, size, surplus, unfixed};
use crate::partners::first;
use crate::table::{LIMIT, Table, first_bad_code, within_limit};

/// The bytes of one strip.
pub const STRIP: usize = LIMIT;

/// The bytes of the answer that are written.
pub const ANSWER: usize = 5 * STRIP;

/// The byte in an unused place of a strip.
pub const UNUSED: u8 = 255;

/// What a model within the limits is found to be. Equations and unknowns count from 0 here.
#[derive(Clone, Debug, PartialEq, Eq)]
pub enum Verdict {
    /// Some pairing takes in all equations and all unknowns.
    Solvable {
        /// Counts by equation and tops by unknown.
        choice: Counts,
        /// The partner of each equation.
        partners: Vec<usize>,
        /// The blocks in solving order.
        blocks: Vec<Vec<usize>>,
    },
    /// No such pairing.
    Singular {
        /// The size of a largest pairing.
        rank: usize,
        /// The equations that some largest pairing leaves over.
        surplus: Vec<usize>,
        /// The unknowns that some largest pairing leaves over.
        unfixed: Vec<usize>,
    },
}

/// The six numbers.
#[derive(Clone, Copy, Debug, Default, PartialEq, Eq)]
pub struct Numbers {
    /// 0 solvable, 10 singular, or a refusal.
    pub code: u8,
    /// The first offset of a code above 4, for refusal 4.
    pub place: usize,
    /// The size of a largest pairing.
    pub rank: usize,
    /// The largest count.
    pub index: usize,
    /// The sum of tops less the sum of counts.
    pub freedom: usize,
    /// The number of blocks.
    pub blocks: usize,
}

/// The largest count.
pub fn index(choice: &Counts) -> usize {
    choice.counts.iter().copied().max().unwrap_or(0)
}

/// The sum of tops less the sum of counts.
pub fn freedom(choice: &Counts) -> usize {
    choice.tops.iter().sum::<usize>() - choice.counts.iter().sum::<usize>()
}

/// The verdict on a model within the limits.
pub fn verdict(table: &Table) -> Verdict {
    let equations = table.equations();
    let occurs = |e, u| table.occurs(e, u);
    let holder = largest(&occurs, equations, table.unknowns());
    let rank = size(&holder);
    if rank != equations || rank != table.unknowns() {
        let surplus = surplus(&occurs, equations, &holder);
        let unfixed = unfixed(&occurs, equations, &holder);
        return Verdict::Singular { rank, surplus, unfixed };
    }
    let choice = least(table);
    let leads = |e, u| choice.leads(table, e, u);
    let partners = first(&leads, equations);
    let blocks = placed(&leads, &partners);
    Verdict::Solvable { choice, partners, blocks }
}

/// The analysis as the screen calls it: judges its input in the order 1, 2, 3, 4, then fills the strips. A
/// refusal writes nothing.
pub fn analyse(equations: usize, unknowns: usize, codes: &[u8], answer: &mut [u8]) -> Numbers {
    match judge(equations, unknowns, codes, answer.len()) {
        Err(refusal) => Numbers { code: refusal.number, place: refusal.place, ..Numbers::default() },
        Ok(table) => fill(&verdict(&table), &table, answer),
    }
}

fn judge(equations: usize, unknowns: usize, codes: &[u8], answer_length: usize) -> Result<Table, Refusal> {
    if !within_limit(equations) || !within_limit(unknowns) {
        return Err(Refusal::without_place(1));
    }
    if codes.len() != equations * unknowns {
        return Err(Refusal::without_place(2));
    }
    if answer_length < ANSWER {
        return Err(Refusal::without_place(3));
    }
    if let Some(place) = first_bad_code(codes) {
        return Err(Refusal::at(4, place));
    }
    Table::judge(equations, unknowns, codes)
}

fn fill(verdict: &Verdict, table: &Table, answer: &mut [u8]) -> Numbers {
    answer[..ANSWER].fill(UNUSED);
    match verdict {
        Verdict::Solvable { choice, partners, blocks } => {
            let order: Vec<usize> = blocks.concat();
            let block_numbers: Vec<usize> = blocks
                .iter()
                .enumerate()
                .flat_map(|(block, members)| vec![block + 1; members.len()])
                .collect();
            fill_strip(answer, 0, &choice.counts);
            fill_strip(answer, 1, &choice.tops);
            fill_strip(answer, 2, &from_one(partners));
            fill_strip(answer, 3, &from_one(&order));
            fill_strip(answer, 4, &block_numbers);
            Numbers {
                code: 0,
                place: 0,
                rank: table.equations(),
                index: index(choice),
                freedom: freedom(choice),
                blocks: blocks.len(),
            }
        }
        Verdict::Singular { rank, surplus, unfixed } => {
            fill_strip(answer, 0, &from_one(surplus));
            fill_strip(answer, 1, &from_one(unfixed));
            Numbers { code: 10, rank: *rank, ..Numbers::default() }
        }
    }
}

fn fill_strip(answer: &mut [u8], strip: usize, values: &[usize]) {
    for (byte, &value) in answer[strip * STRIP..].iter_mut().zip(values) {
        *byte = u8::try_from(value).expect("every value of a strip fits its byte");
    }
}

/// The same numbers as people count them.
pub fn from_one(numbers: &[usize]) -> Vec<usize> {
    numbers.iter().map(|number| number + 1).collect()
}
