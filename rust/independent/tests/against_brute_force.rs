//! The independent program against the definitions: all tables of small sizes by enumeration, larger generated
//! ones by slower ways that follow the definitions step by step.

use independent::analysis::{Verdict, verdict};
use independent::brute;
use independent::generate::{Kind, Random, model};
use independent::pairing::{largest, size};
use independent::pryce;
use independent::table::{LIMIT, Table};
use std::io::Write;

/// Every table of this size with codes from 0 to `highest`, one after another.
fn every_table(equations: usize, unknowns: usize, highest: u8, mut each: impl FnMut(&Table)) -> usize {
    let mut codes = vec![0; equations * unknowns];
    let mut seen = 0;
    loop {
        each(&Table::judge(equations, unknowns, &codes).expect("within the limits"));
        seen += 1;
        let Some(place) = codes.iter().position(|&code| code < highest) else {
            return seen;
        };
        codes[place] += 1;
        codes[..place].fill(0);
    }
}

fn say(line: &str) {
    // Straight to the stream, so that the counts are seen when the test passes too.
    // One write, so that the lines of tests that run side by side stay whole.
    std::io::stderr().write_all(format!("{line}\n").as_bytes()).expect("standard error takes a line");
}

fn compare_all(equations: usize, unknowns: usize, highest: u8) {
    let mut solvable = 0;
    let seen = every_table(equations, unknowns, highest, |table| {
        let expected = brute::verdict(table);
        assert_eq!(verdict(table), expected, "table {:?}", table.codes());
        solvable += usize::from(matches!(expected, Verdict::Solvable { .. }));
    });
    say(&format!(
        "independent against brute force, {equations} x {unknowns}, codes 0 to {highest}: {seen} tables, {solvable} solvable, 0 differ"
    ));
}

#[test]
fn all_tables_of_2_by_2() {
    compare_all(2, 2, 4);
}

#[test]
fn all_tables_of_3_by_3() {
    compare_all(3, 3, 2);
}

#[test]
fn all_tables_of_other_small_sizes() {
    compare_all(1, 1, 4);
    compare_all(1, 2, 4);
    compare_all(2, 1, 4);
    compare_all(2, 3, 2);
    compare_all(3, 2, 2);
    compare_all(1, 3, 4);
    compare_all(3, 1, 4);
}

/// Some tables of 3 × 3 with all codes, and of 4 × 4: too many to take all.
#[test]
fn some_tables_of_3_and_4() {
    let mut random = Random::new(34);
    let mut seen = 0;
    for (size, times) in [(3, 4_000), (4, 60)] {
        for turn in 0..times {
            let table = model(Kind::ALL[turn % Kind::ALL.len()], size, 4, &mut random);
            assert_eq!(verdict(&table), brute::verdict(&table), "table {:?}", table.codes());
            seen += 1;
        }
    }
    say(&format!("independent against brute force, generated, up to 4 x 4: {seen} tables, 0 differ"));
}

fn rank(may: &impl Fn(usize, usize) -> bool, equations: usize, unknowns: usize) -> usize {
    size(&largest(may, equations, unknowns))
}

/// An equation is left over by some largest pairing exactly if the rank without it is the same.
fn surplus_by_removal(table: &Table, whole: usize) -> Vec<usize> {
    let without =
        |gone: usize| rank(&|e, u| e != gone && table.occurs(e, u), table.equations(), table.unknowns());
    (0..table.equations()).filter(|&e| without(e) == whole).collect()
}

/// The same for an unknown.
fn unfixed_by_removal(table: &Table, whole: usize) -> Vec<usize> {
    let without =
        |gone: usize| rank(&|e, u| u != gone && table.occurs(e, u), table.equations(), table.unknowns());
    (0..table.unknowns()).filter(|&u| without(u) == whole).collect()
}

/// The definition word for word: for each candidate, are all the other equations still paired when they start
/// from nothing?
fn first_partners_from_nothing(leads: &impl Fn(usize, usize) -> bool, size: usize) -> Vec<usize> {
    let mut settled: Vec<usize> = Vec::new();
    for e in 0..size {
        let others_can = |taken: usize| {
            let may = |f, u| f > e && u != taken && !settled.contains(&u) && leads(f, u);
            rank(&may, size, size) == size - e - 1
        };
        let lowest = (0..size).find(|&u| leads(e, u) && !settled.contains(&u) && others_can(u));
        settled.push(lowest.expect("the leading occurrences pair fully"));
    }
    settled
}

#[test]
fn larger_models_by_slower_ways() {
    let mut random = Random::new(2001);
    let (mut solvable, mut singular, mut highest_count) = (0, 0, 0);
    for turn in 0..3_000 {
        let size = random.between(1, LIMIT);
        let table = model(Kind::ALL[turn % Kind::ALL.len()], size, LIMIT, &mut random);
        match verdict(&table) {
            Verdict::Singular { rank: shown, surplus, unfixed } => {
                singular += 1;
                assert_eq!(surplus, surplus_by_removal(&table, shown));
                assert_eq!(unfixed, unfixed_by_removal(&table, shown));
            }
            Verdict::Solvable { choice, partners, .. } => {
                solvable += 1;
                highest_count = highest_count.max(choice.counts.iter().copied().max().unwrap_or(0));
                assert_eq!(choice, pryce::least(&table), "table {:?}", table.codes());
                let leads = |e, u| choice.leads(&table, e, u);
                assert_eq!(partners, first_partners_from_nothing(&leads, table.equations()));
            }
        }
    }
    assert_eq!(highest_count, 3 * (LIMIT - 1), "the highest count possible was met");
    say(&format!(
        "independent against slower ways, up to {LIMIT} x {LIMIT}: {solvable} solvable, {singular} singular, highest count {highest_count}, 0 differ"
    ));
}
