//! Models and verdicts in Rust's own types.

use crate::{ANSWER, INPUT_LIMIT, LIMIT, LONGEST_CARD, Numbers, STRIP, UNUSED};
use std::error::Error;
use std::fmt::{self, Display, Formatter};

/// An equation's number, from 1. It is a type of its own so that no unknown's number is taken for it.
#[derive(Clone, Copy, Debug, PartialEq, Eq, PartialOrd, Ord, Hash)]
pub struct Equation(pub u8);

/// An unknown's number, from 1.
#[derive(Clone, Copy, Debug, PartialEq, Eq, PartialOrd, Ord, Hash)]
pub struct Unknown(pub u8);

impl Display for Equation {
    fn fmt(&self, f: &mut Formatter<'_>) -> fmt::Result {
        self.0.fmt(f)
    }
}

impl Display for Unknown {
    fn fmt(&self, f: &mut Formatter<'_>) -> fmt::Result {
        self.0.fmt(f)
    }
}

/// A refusal of document 01.
#[derive(Clone, Copy, Debug, PartialEq, Eq)]
pub struct Refusal {
    /// The number from the document's tables.
    pub number: u8,
    /// The offset of the fault, or 0 where the document gives none.
    pub place: usize,
}

impl Refusal {
    /// What the number means, for a person.
    pub fn reason(&self) -> &'static str {
        match self.number {
            1 => "the number of equations or of unknowns is 0 or above the limit",
            2 => "the table's length is not equations times unknowns",
            3 => "the answer buffer is too short",
            4 => "the table has a code above 4",
            11 => "the line due here has another shape",
            12 => "the name is empty, too long or has a byte that no name has",
            13 => "the number of equations or of unknowns is not within the limits",
            14 => "an equation, an unknown or an order is out of range",
            15 => "this pair equals or precedes the one before",
            16 => "the end line's number is not the number of occurs lines",
            17 => "the table buffer is too short",
            18 => "the card buffer is too short",
            19 => "the input is too long",
            _ => "no refusal of document 01",
        }
    }
}

impl Display for Refusal {
    fn fmt(&self, f: &mut Formatter<'_>) -> fmt::Result {
        write!(f, "refused {} at byte {}: {}", self.number, self.place, self.reason())
    }
}

impl Error for Refusal {}

/// A model: the rig's name, and which unknown occurs in which equation at which derivative. There is no other
/// way to one than through the library's own judgement, so a model is always good.
#[derive(Clone, Debug, PartialEq, Eq)]
pub struct Model {
    rig: String,
    equations: u8,
    unknowns: u8,
    table: Vec<u8>,
}

impl Model {
    /// A model of these codes, row by row, one row an equation; or refusal 12, 13, 2 or 4.
    pub fn new(rig: &str, equations: usize, unknowns: usize, table: &[u8]) -> Result<Model, Refusal> {
        // The writer judges room last: with none at all it says 18 exactly if the rest is in order.
        let judged = crate::write(rig.as_bytes(), equations, unknowns, table, &mut []);
        if judged.number != 18 {
            return Err(Refusal { number: judged.number, place: judged.place });
        }
        let narrow = |number: usize| u8::try_from(number).expect("the library found it within the limits");
        Ok(Model {
            rig: rig.to_string(),
            equations: narrow(equations),
            unknowns: narrow(unknowns),
            table: table.to_vec(),
        })
    }

    /// The model on a card, or refusal 11 to 16.
    pub fn read(card: &[u8]) -> Result<Model, Refusal> {
        let mut table = vec![0; LIMIT * LIMIT];
        let reading = crate::read(card, &mut table);
        if reading.number != 0 {
            return Err(Refusal { number: reading.number, place: reading.place });
        }
        table.truncate(usize::from(reading.equations) * usize::from(reading.unknowns));
        let rig = String::from_utf8_lossy(crate::name(card)).into_owned();
        Ok(Model { rig, equations: reading.equations, unknowns: reading.unknowns, table })
    }

    /// The model's card.
    pub fn card(&self) -> Vec<u8> {
        let mut card = vec![0; LONGEST_CARD];
        let (equations, unknowns) = (usize::from(self.equations), usize::from(self.unknowns));
        let writing = crate::write(self.rig.as_bytes(), equations, unknowns, &self.table, &mut card);
        card.truncate(writing.length);
        card
    }

    /// The rig's name.
    pub fn rig(&self) -> &str {
        &self.rig
    }

    /// The equations, ascending.
    pub fn equations(&self) -> impl ExactSizeIterator<Item = Equation> + use<> {
        (0..self.equations).map(|before| Equation(before + 1))
    }

    /// The unknowns, ascending.
    pub fn unknowns(&self) -> impl ExactSizeIterator<Item = Unknown> + use<> {
        (0..self.unknowns).map(|before| Unknown(before + 1))
    }

    /// The order of the unknown's highest derivative in the equation, or nothing where it does not occur. An
    /// order 0 and no order at all are different things.
    pub fn order(&self, equation: Equation, unknown: Unknown) -> Option<u8> {
        let inside = (1..=self.equations).contains(&equation.0) && (1..=self.unknowns).contains(&unknown.0);
        if !inside {
            return None;
        }
        let row = usize::from(equation.0 - 1) * usize::from(self.unknowns);
        self.table[row + usize::from(unknown.0 - 1)].checked_sub(1)
    }

    /// The table as the library takes it.
    pub fn table(&self) -> &[u8] {
        &self.table
    }

    /// Analyses the model.
    pub fn verdict(&self) -> Verdict {
        let mut answer = [UNUSED; ANSWER];
        let (equations, unknowns) = (usize::from(self.equations), usize::from(self.unknowns));
        let numbers = crate::analyse(equations, unknowns, &self.table, &mut answer);
        match numbers.code {
            0 => self.solvable(numbers, &answer),
            10 => self.singular(numbers, &answer),
            number => Verdict::Refused { number, place: numbers.place },
        }
    }

    fn solvable(&self, numbers: Numbers, answer: &[u8; ANSWER]) -> Verdict {
        Verdict::Solvable {
            rig: self.rig.clone(),
            counts: strip(answer, 0),
            tops: strip(answer, 1),
            partners: strip(answer, 2).into_iter().map(Unknown).collect(),
            blocks: blocks(&strip(answer, 3), &strip(answer, 4)),
            index: numbers.index,
            freedom: numbers.freedom,
        }
    }

    fn singular(&self, numbers: Numbers, answer: &[u8; ANSWER]) -> Verdict {
        Verdict::Singular {
            rig: self.rig.clone(),
            rank: numbers.rank,
            surplus: strip(answer, 0).into_iter().map(Equation).collect(),
            unfixed: strip(answer, 1).into_iter().map(Unknown).collect(),
        }
    }
}

/// The used places of a strip.
fn strip(answer: &[u8; ANSWER], number: usize) -> Vec<u8> {
    let strip = &answer[number * STRIP..][..STRIP];
    strip.iter().copied().take_while(|&byte| byte != UNUSED).collect()
}

/// The equations in solving order, divided where the block number changes.
fn blocks(order: &[u8], numbers: &[u8]) -> Vec<Vec<Equation>> {
    let placed: Vec<(u8, Equation)> =
        numbers.iter().copied().zip(order.iter().copied().map(Equation)).collect();
    placed
        .chunk_by(|before, after| before.0 == after.0)
        .map(|block| block.iter().map(|&(_, equation)| equation).collect())
        .collect()
}

/// What the analysis found. `Display` gives the bytes that the program `mudorder` prints, the last LF included:
/// use `print!` and not `println!`.
#[derive(Clone, Debug, PartialEq, Eq)]
pub enum Verdict {
    /// Some pairing takes in all equations and all unknowns.
    Solvable {
        /// The rig's name.
        rig: String,
        /// How often each equation is differentiated, by equation.
        counts: Vec<u8>,
        /// The highest derivative of each unknown, by unknown.
        tops: Vec<u8>,
        /// The unknown that each equation is solved for, by equation.
        partners: Vec<Unknown>,
        /// The blocks in solving order, each with its equations ascending.
        blocks: Vec<Vec<Equation>>,
        /// The largest count.
        index: u8,
        /// The sum of the tops less the sum of the counts.
        freedom: u8,
    },
    /// No such pairing: nothing may be shown as a value for an unfixed unknown, not even nil.
    Singular {
        /// The rig's name.
        rig: String,
        /// The size of a largest pairing.
        rank: u8,
        /// The equations that at least one largest pairing leaves over, ascending.
        surplus: Vec<Equation>,
        /// The unknowns that at least one largest pairing leaves over, ascending.
        unfixed: Vec<Unknown>,
    },
    /// No model was found.
    Refused {
        /// The number from document 01's tables.
        number: u8,
        /// The offset of the fault, or 0 where the document gives none.
        place: usize,
    },
}

impl Verdict {
    /// The verdict on the program's input: 19 where it is too long, 11 to 16 where it is no good card.
    pub fn of_card(card: &[u8]) -> Verdict {
        if card.len() > INPUT_LIMIT {
            return Verdict::Refused { number: 19, place: 0 };
        }
        match Model::read(card) {
            Ok(model) => model.verdict(),
            Err(refusal) => refusal.into(),
        }
    }
}

impl From<Refusal> for Verdict {
    fn from(refusal: Refusal) -> Verdict {
        Verdict::Refused { number: refusal.number, place: refusal.place }
    }
}

impl Display for Verdict {
    fn fmt(&self, f: &mut Formatter<'_>) -> fmt::Result {
        match self {
            Verdict::Solvable { rig, counts, tops, partners, blocks, index, freedom } => {
                writeln!(f, "rig={rig}\nverdict=solvable\nindex={index}\nfreedom={freedom}")?;
                writeln!(f, "counts={}\ntops={}\npairs={}", commas(counts), commas(tops), commas(partners))?;
                let blocks: Vec<String> = blocks.iter().map(|block| commas(block)).collect();
                writeln!(f, "blocks={}", blocks.join(";"))
            }
            Verdict::Singular { rig, rank, surplus, unfixed } => {
                writeln!(f, "rig={rig}\nverdict=singular\nrank={rank}")?;
                writeln!(f, "surplus={}\nunfixed={}", list(surplus), list(unfixed))
            }
            Verdict::Refused { number, place } => writeln!(f, "refused={number}\nplace={place}"),
        }
    }
}

fn commas<T: Display>(values: &[T]) -> String {
    values.iter().map(T::to_string).collect::<Vec<_>>().join(",")
}

/// An empty list is `none`: blank must never read as nil.
fn list<T: Display>(values: &[T]) -> String {
    if values.is_empty() { "none".to_string() } else { commas(values) }
}
