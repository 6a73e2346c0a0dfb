//! The library against what was worked out by hand: the nine lettered models of document 01, the examples of
//! source document 002, the card of document 01 and the refused cards.

mod common;

use common::{compare_analysis, compare_card, compare_report, say, six_of_library};
use independent::cases::{CARD_A, EXAMPLES_002, LETTERED, ModelCase, PRINTED_A, refused_cards};
use independent::generate::Random;
use mudorder::{ANSWER, Equation, Model, Numbers, Unknown, Verdict, analyse};

fn check(case: &ModelCase, random: &mut Random) {
    let table = case.table();
    let (equations, unknowns) = (table.equations(), table.unknowns());
    let expected = format!("rig=by-hand\n{}", case.printed);
    let model = Model::new("by-hand", equations, unknowns, table.codes()).expect("a good model");
    assert_eq!(model.verdict().to_string(), expected, "model {}", case.title);
    assert_eq!(model.card(), case.card("by-hand"), "card of model {}", case.title);
    assert_eq!(Model::read(&model.card()), Ok(model), "model {} read again", case.title);
    assert_eq!(compare_report(&case.card("by-hand"), random), expected, "report of model {}", case.title);
    for room in [ANSWER, ANSWER + 1, ANSWER + 40] {
        compare_analysis(equations, unknowns, table.codes(), room, random);
    }
}

#[test]
fn lettered_models() {
    let mut random = Random::new(9);
    LETTERED.iter().for_each(|case| check(case, &mut random));
    say(&format!("lettered models: {} as document 01 has them", LETTERED.len()));
}

#[test]
fn examples_of_002() {
    let mut random = Random::new(2);
    EXAMPLES_002.iter().for_each(|case| check(case, &mut random));
    say(&format!("examples of 002: {} as worked out by hand", EXAMPLES_002.len()));
}

/// Model A down to the last byte of the answer.
#[test]
fn model_a_in_bytes() {
    let mut answer = [7; ANSWER + 8];
    let numbers = analyse(3, 3, &[2, 0, 1, 0, 1, 1, 1, 0, 0], &mut answer);
    assert_eq!(numbers, Numbers { code: 0, place: 0, rank: 3, index: 1, freedom: 0, blocks: 3 });
    let strips = [[0, 0, 1], [1, 0, 0], [3, 2, 1], [3, 1, 2], [1, 2, 3]];
    for (strip, used) in strips.iter().enumerate() {
        assert_eq!(answer[32 * strip..][..3], used[..], "strip {strip}");
        assert_eq!(answer[32 * strip..][3..32], [255; 29], "unused places of strip {strip}");
    }
    assert_eq!(answer[ANSWER..], [7; 8]);
}

/// Model C down to the last byte of the answer.
#[test]
fn model_c_in_bytes() {
    let mut answer = [7; ANSWER];
    let numbers = analyse(3, 3, &[2, 0, 1, 1, 0, 0, 1, 0, 0], &mut answer);
    assert_eq!(six_of_library(numbers), [10, 0, 2, 0, 0, 0]);
    let mut expected = [255; ANSWER];
    expected[..2].copy_from_slice(&[2, 3]);
    expected[32] = 2;
    assert_eq!(answer, expected);
}

#[test]
fn the_card_of_document_01() {
    assert_eq!(mudorder::name(CARD_A.as_bytes()), b"kestrel-4");
    assert_eq!(Verdict::of_card(CARD_A.as_bytes()).to_string(), PRINTED_A);
    let model = Model::read(CARD_A.as_bytes()).expect("a good card");
    assert_eq!(model.card(), CARD_A.as_bytes());
    assert_eq!(model.equations().len(), 3);
    assert_eq!(model.order(Equation(2), Unknown(3)), Some(0));
    assert_eq!(model.order(Equation(2), Unknown(1)), None);
    assert_eq!(model.order(Equation(4), Unknown(1)), None);
    assert_eq!(model.order(Equation(0), Unknown(0)), None);
}

#[test]
fn refused_cards_with_their_places() {
    let mut random = Random::new(11);
    let cases = refused_cards();
    for case in &cases {
        let reading = mudorder::read(&case.card, &mut [0; 1024]);
        assert_eq!((reading.number, reading.place), (case.number, case.place), "{}", case.why);
        assert_eq!((reading.equations, reading.unknowns), (0, 0), "{}", case.why);
        let expected = format!("refused={}\nplace={}\n", case.number, case.place);
        assert_eq!(Verdict::of_card(&case.card).to_string(), expected, "{}", case.why);
        compare_card(&case.card, &mut random);
    }
    say(&format!("refused cards by hand: {} with number and place", cases.len()));
}
