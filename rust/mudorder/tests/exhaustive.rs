//! Every table of the small sizes against brute force from the definitions.

mod common;

use common::say;
use independent::analysis::{Verdict as Expected, freedom, index};
use independent::brute;
use independent::table::Table;
use mudorder::{Equation, Model, Unknown, Verdict};

fn equations(numbers: &[usize]) -> Vec<Equation> {
    numbers.iter().map(|&e| Equation(e as u8 + 1)).collect()
}

fn unknowns(numbers: &[usize]) -> Vec<Unknown> {
    numbers.iter().map(|&u| Unknown(u as u8 + 1)).collect()
}

fn narrow(numbers: &[usize]) -> Vec<u8> {
    numbers.iter().map(|&number| number as u8).collect()
}

/// What brute force found, as the library says it.
fn as_verdict(rig: &str, expected: &Expected) -> Verdict {
    let rig = rig.to_string();
    match expected {
        Expected::Solvable { choice, partners, blocks } => Verdict::Solvable {
            rig,
            counts: narrow(&choice.counts),
            tops: narrow(&choice.tops),
            partners: unknowns(partners),
            blocks: blocks.iter().map(|block| equations(block)).collect(),
            index: index(choice) as u8,
            freedom: freedom(choice) as u8,
        },
        Expected::Singular { rank, surplus, unfixed } => Verdict::Singular {
            rig,
            rank: *rank as u8,
            surplus: equations(surplus),
            unfixed: unknowns(unfixed),
        },
    }
}

fn compare_all(equations: usize, unknowns: usize, highest: u8) {
    let mut codes = vec![0; equations * unknowns];
    let (mut seen, mut solvable) = (0, 0);
    loop {
        let table = Table::judge(equations, unknowns, &codes).expect("within the limits");
        let expected = as_verdict("tiny", &brute::verdict(&table));
        let model = Model::new("tiny", equations, unknowns, &codes).expect("a good model");
        assert_eq!(model.verdict(), expected, "table {codes:?} of {equations} x {unknowns}");
        seen += 1;
        solvable += usize::from(matches!(expected, Verdict::Solvable { .. }));
        let Some(place) = codes.iter().position(|&code| code < highest) else { break };
        codes[place] += 1;
        codes[..place].fill(0);
    }
    assert_eq!(seen, (usize::from(highest) + 1).pow((equations * unknowns) as u32));
    say(&format!(
        "library against brute force, {equations} x {unknowns}, codes 0 to {highest}: {seen} tables, {solvable} solvable, 0 differ"
    ));
}

#[test]
fn all_tables_of_2_by_2() {
    compare_all(2, 2, 4);
}

#[test]
fn all_tables_of_3_by_3() {
    compare_all(3, 3, 2);
}

#[test]
fn all_tables_of_other_small_sizes() {
    compare_all(1, 1, 4);
    compare_all(1, 2, 4);
    compare_all(2, 1, 4);
    compare_all(1, 3, 4);
    compare_all(3, 1, 4);
    compare_all(2, 3, 2);
    compare_all(3, 2, 2);
}
