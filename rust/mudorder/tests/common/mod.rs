//! What the tests share: counts that are always printed, and buffers with guard bytes around them.
#![allow(dead_code)]

pub mod damage;

use independent::generate::Random;
use independent::table::Table;
use independent::{analysis, card, printed};
use mudorder::{LIMIT, LONGEST_REPORT};
use std::io::Write;

/// Prints a line whether the test passes or not: straight to the stream, past the test harness.
pub fn say(line: &str) {
    // One write, so that the lines of tests that run side by side stay whole.
    std::io::stderr().write_all(format!("{line}\n").as_bytes()).expect("standard error takes a line");
}

/// The guard bytes on either side of a lent buffer.
const GUARD: usize = 48;

/// Random bytes: a guard, a buffer to lend, a guard. Two of the same content are lent to the library and to the
/// independent program, which is safe Rust and cannot write outside its slice. If they are equal afterwards as a
/// whole, then the buffers hold the same bytes and no guard byte changed.
#[derive(Clone, PartialEq, Eq, Debug)]
pub struct Lent {
    bytes: Vec<u8>,
}

impl Lent {
    pub fn new(length: usize, random: &mut Random) -> Lent {
        Lent { bytes: (0..length + 2 * GUARD).map(|_| random.number() as u8).collect() }
    }

    pub fn buffer(&mut self) -> &mut [u8] {
        let end = self.bytes.len() - GUARD;
        &mut self.bytes[GUARD..end]
    }
}

/// The numbers of the analysis in one form for both programs.
pub type SixNumbers = [usize; 6];

pub fn six_of_library(numbers: mudorder::Numbers) -> SixNumbers {
    let mudorder::Numbers { code, place, rank, index, freedom, blocks } = numbers;
    [code.into(), place, rank.into(), index.into(), freedom.into(), blocks.into()]
}

pub fn six_of_independent(numbers: analysis::Numbers) -> SixNumbers {
    let analysis::Numbers { code, place, rank, index, freedom, blocks } = numbers;
    [code.into(), place, rank, index, freedom, blocks]
}

/// Runs both analyses on the same input: the same numbers, the same bytes, no guard byte and no table byte
/// changed. Hands back the numbers and the answer.
pub fn compare_analysis(
    equations: usize,
    unknowns: usize,
    codes: &[u8],
    answer_length: usize,
    random: &mut Random,
) -> (SixNumbers, Vec<u8>) {
    let mut answer = Lent::new(answer_length, random);
    let mut expected_answer = answer.clone();
    let mut table = Lent::new(codes.len(), random);
    table.buffer().copy_from_slice(codes);
    let table_before = table.clone();

    let numbers = mudorder::analyse(equations, unknowns, table.buffer(), answer.buffer());
    let expected = analysis::analyse(equations, unknowns, codes, expected_answer.buffer());

    let numbers = six_of_library(numbers);
    let context = || format!("E = {equations}, U = {unknowns}, answer {answer_length}, table {codes:?}");
    assert_eq!(numbers, six_of_independent(expected), "numbers, {}", context());
    assert!(answer == expected_answer, "answer, {}:\n{answer:?}\n{expected_answer:?}", context());
    assert!(table == table_before, "a lent table changed, {}", context());
    (numbers, answer.buffer().to_vec())
}

/// Reads the same card with both programs, with a table buffer of this length. Hands back number, place, E, U.
pub fn compare_reading(bytes: &[u8], table_length: usize, random: &mut Random) -> [usize; 4] {
    let mut table = Lent::new(table_length, random);
    let mut expected_table = table.clone();
    let mut card = Lent::new(bytes.len(), random);
    card.buffer().copy_from_slice(bytes);
    let card_before = card.clone();

    let reading = mudorder::read(card.buffer(), table.buffer());
    let expected = card::read(bytes, expected_table.buffer());

    let four = [reading.number.into(), reading.place, reading.equations.into(), reading.unknowns.into()];
    let context = || format!("table buffer {table_length}, card:\n{}", bytes.escape_ascii());
    let card::Reading { number, place, equations, unknowns } = expected;
    assert_eq!(four, [number.into(), place, equations, unknowns], "{}", context());
    assert!(table == expected_table, "table, {}", context());
    assert!(card == card_before, "a lent card changed, {}", context());
    four
}

/// Asks both programs for the name. The library's part must lie in the caller's card, at the same place.
pub fn compare_name(bytes: &[u8]) {
    let name = mudorder::name(bytes);
    let expected = card::name(bytes);
    assert_eq!(name, expected, "name of the card:\n{}", bytes.escape_ascii());
    assert_eq!(name.as_ptr(), expected.as_ptr(), "part of the card:\n{}", bytes.escape_ascii());
}

/// Prints with both programs, into room enough, room just enough and one byte too little. Hands back the text.
pub fn compare_report(bytes: &[u8], random: &mut Random) -> String {
    let expected = printed::printed(bytes);
    let context = || format!("card:\n{}", bytes.escape_ascii());
    for room in [LONGEST_REPORT, expected.len(), expected.len() - 1] {
        let mut out = Lent::new(room, random);
        let mut expected_out = out.clone();
        let length = mudorder::report(bytes, out.buffer());
        if room >= expected.len() {
            expected_out.buffer()[..expected.len()].copy_from_slice(expected.as_bytes());
        }
        assert!(out == expected_out, "report with room for {room}, {}:\n{out:?}", context());
        assert_eq!(length, expected.len(), "length of the report, {}", context());
    }
    assert_eq!(mudorder::Verdict::of_card(bytes).to_string(), expected, "verdict, {}", context());
    expected
}

/// Everything that can be asked about a card, compared. Hands back the number of the reading with room enough.
pub fn compare_card(bytes: &[u8], random: &mut Random) -> usize {
    let [number, ..] = compare_reading(bytes, LIMIT * LIMIT, random);
    let shorter = random.below(LIMIT * LIMIT);
    compare_reading(bytes, shorter, random);
    compare_name(bytes);
    compare_report(bytes, random);
    number
}

/// Writes with both programs, with a card buffer of this length. Hands back number, place, length.
pub fn compare_writing(
    name: &[u8],
    equations: usize,
    unknowns: usize,
    codes: &[u8],
    card_length: usize,
    random: &mut Random,
) -> [usize; 3] {
    let mut card = Lent::new(card_length, random);
    let mut expected_card = card.clone();
    let mut table = Lent::new(codes.len(), random);
    table.buffer().copy_from_slice(codes);
    let table_before = table.clone();

    let writing = mudorder::write(name, equations, unknowns, table.buffer(), card.buffer());
    let expected = card::write(name, equations, unknowns, codes, expected_card.buffer());

    let three = [writing.number.into(), writing.place, writing.length];
    let context = || format!("name {name:?}, E = {equations}, U = {unknowns}, room {card_length}, {codes:?}");
    let card::Writing { number, place, length } = expected;
    assert_eq!(three, [number.into(), place, length], "{}", context());
    assert!(card == expected_card, "card, {}", context());
    assert!(table == table_before, "a lent table changed, {}", context());
    three
}

/// The card of a table, by the independent program.
pub fn card_of(name: &str, table: &Table) -> Vec<u8> {
    card::card_of(name.as_bytes(), table.equations(), table.unknowns(), table.codes()).expect("a good model")
}

/// A good name.
pub fn name(random: &mut Random) -> String {
    let letters: Vec<char> = "abcdefghijklmnopqrstuvwxyz0123456789-".chars().collect();
    let length = random.between(1, card::LONGEST_NAME);
    (0..length).map(|_| random.pick(&letters)).collect()
}
