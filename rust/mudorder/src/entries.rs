//! The library's entries as they are, with slices and numbers.

use crate::raw;

/// The six numbers of the analysis. What they mean for each code stands in document 01, "What the analysis hands
/// back".
#[derive(Clone, Copy, Debug, Default, PartialEq, Eq)]
pub struct Numbers {
    /// 0 solvable, 10 singular, 1 to 4 refused.
    pub code: u8,
    /// For refusal 4 the first offset in the table with a code above 4, else 0.
    pub place: usize,
    /// The size of a largest pairing.
    pub rank: u8,
    /// The largest count.
    pub index: u8,
    /// The sum of the tops less the sum of the counts.
    pub freedom: u8,
    /// The number of blocks.
    pub blocks: u8,
}

/// What the reader hands back.
#[derive(Clone, Copy, Debug, Default, PartialEq, Eq)]
pub struct Reading {
    /// 0 for a good card, 11 to 17 refused.
    pub number: u8,
    /// The first byte of the faulty line for 11 to 16, else 0.
    pub place: usize,
    /// E, or 0 when refused.
    pub equations: u8,
    /// U, or 0 when refused.
    pub unknowns: u8,
}

/// What the writer hands back.
#[derive(Clone, Copy, Debug, Default, PartialEq, Eq)]
pub struct Writing {
    /// 0 when the card was written, else 12, 13, 2, 4 or 18.
    pub number: u8,
    /// For refusal 4 the first offset in the table with a code above 4, else 0.
    pub place: usize,
    /// The bytes written, or 0 when refused.
    pub length: usize,
}

/// Analyses a table of `equations` × `unknowns` codes, row by row, and fills the first [`ANSWER`](crate::ANSWER)
/// bytes of the answer with five strips of [`STRIP`](crate::STRIP) bytes. A refusal changes no byte.
///
/// ```
/// // Two equations that both hold the first of two unknowns, and nothing that holds the second.
/// let mut answer = [0; mudorder::ANSWER];
/// let numbers = mudorder::analyse(2, 2, &[1, 0, 1, 0], &mut answer);
/// assert_eq!((numbers.code, numbers.rank), (10, 1));
/// assert_eq!(answer[..3], [1, 2, 255]); // both equations are surplus
/// assert_eq!(answer[32..34], [2, 255]); // the second unknown is unfixed: blank is not nil
/// ```
pub fn analyse(equations: usize, unknowns: usize, table: &[u8], answer: &mut [u8]) -> Numbers {
    let mut packed = raw::analyse(equations, unknowns, table, answer);
    let numbers = Numbers {
        code: packed.byte(),
        place: packed.two_bytes(),
        rank: packed.byte(),
        index: packed.byte(),
        freedom: packed.byte(),
        blocks: packed.byte(),
    };
    packed.nothing_left();
    numbers
}

/// Reads a card and writes its table to the first E×U bytes. A refusal changes no byte.
pub fn read(card: &[u8], table: &mut [u8]) -> Reading {
    let mut packed = raw::read(card, table);
    let reading = Reading {
        number: packed.byte(),
        place: packed.two_bytes(),
        equations: packed.byte(),
        unknowns: packed.byte(),
    };
    packed.nothing_left();
    reading
}

/// Writes a card. No byte beyond the length handed back is written; a refusal changes none.
pub fn write(name: &[u8], equations: usize, unknowns: usize, table: &[u8], card: &mut [u8]) -> Writing {
    let mut packed = raw::write(name, equations, unknowns, table, card);
    let writing = Writing { number: packed.byte(), place: packed.two_bytes(), length: packed.two_bytes() };
    packed.nothing_left();
    writing
}

/// The part of the card that holds the name; a part of length 0, at the card's start, if 11 to 16 applies.
pub fn name(card: &[u8]) -> &[u8] {
    let mut packed = raw::name(card);
    let length = usize::from(packed.byte());
    let start = packed.two_bytes();
    packed.nothing_left();
    &card[start..start + length]
}

/// Writes what the program `mudorder` prints for this input, and hands back its length. Where `out` is shorter
/// nothing is written; [`LONGEST_REPORT`](crate::LONGEST_REPORT) bytes always suffice.
pub fn report(card: &[u8], out: &mut [u8]) -> usize {
    usize::try_from(raw::report(card, out)).expect("a length fits usize on x86-64")
}
