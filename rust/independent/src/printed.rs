//! What the program `mudorder` prints (01, "The printed result"). Every line ends in LF.

use crate::Refusal;
use crate::analysis::{Verdict, freedom, from_one, index, verdict};
use crate::card::judge;

/// The most bytes of input that the program takes.
pub const INPUT_LIMIT: usize = 16_384;

/// The printed result for this input. 19 is judged before everything else.
pub fn printed(input: &[u8]) -> String {
    if input.len() > INPUT_LIMIT {
        return printed_refusal(Refusal::without_place(19));
    }
    match judge(input) {
        Err(refusal) => printed_refusal(refusal),
        Ok(card) => {
            let name = std::str::from_utf8(card.name).expect("a good name is ASCII");
            printed_verdict(name, &verdict(&card.table))
        }
    }
}

/// A refusal prints its number and its place, and nothing else.
pub fn printed_refusal(refusal: Refusal) -> String {
    format!("refused={}\nplace={}\n", refusal.number, refusal.place)
}

/// The lines of a verdict.
pub fn printed_verdict(name: &str, verdict: &Verdict) -> String {
    match verdict {
        Verdict::Solvable { choice, partners, blocks } => {
            let blocks: Vec<String> = blocks.iter().map(|block| commas(&from_one(block))).collect();
            format!(
                "rig={name}\nverdict=solvable\nindex={}\nfreedom={}\ncounts={}\ntops={}\npairs={}\nblocks={}\n",
                index(choice),
                freedom(choice),
                commas(&choice.counts),
                commas(&choice.tops),
                commas(&from_one(partners)),
                blocks.join(";"),
            )
        }
        Verdict::Singular { rank, surplus, unfixed } => format!(
            "rig={name}\nverdict=singular\nrank={rank}\nsurplus={}\nunfixed={}\n",
            list(surplus),
            list(unfixed),
        ),
    }
}

fn commas(numbers: &[usize]) -> String {
    numbers.iter().map(usize::to_string).collect::<Vec<_>>().join(",")
}

fn list(numbers: &[usize]) -> String {
    if numbers.is_empty() { "none".to_string() } else { commas(&from_one(numbers)) }
}
