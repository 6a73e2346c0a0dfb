//! The independent program against what was worked out by hand.

use independent::Refusal;
use independent::analysis::{ANSWER, analyse};
use independent::card::{LONGEST_CARD, Reading, Writing, judge, name, read, write};
use independent::cases::{CARD_A, EXAMPLES_002, LETTERED, PRINTED_A, refused_cards};
use independent::printed::{INPUT_LIMIT, printed};

#[test]
fn lettered_models_and_examples_of_002() {
    for case in LETTERED.iter().chain(&EXAMPLES_002) {
        let expected = format!("rig=by-hand\n{}", case.printed);
        assert_eq!(printed(&case.card("by-hand")), expected, "{}", case.title);
    }
}

#[test]
fn the_card_of_document_01() {
    assert_eq!(printed(CARD_A.as_bytes()), PRINTED_A);
    assert_eq!(name(CARD_A.as_bytes()), b"kestrel-4");
    assert_eq!(LETTERED[0].card("kestrel-4"), CARD_A.as_bytes());
}

#[test]
fn refused_cards_with_their_places() {
    for case in refused_cards() {
        let expected = Refusal { number: case.number, place: case.place };
        assert_eq!(judge(&case.card), Err(expected), "{}", case.why);
        assert!(name(&case.card).is_empty(), "{}", case.why);
    }
}

#[test]
fn room() {
    let mut table = [7; 9];
    let refused = Reading { number: 17, ..Reading::default() };
    assert_eq!(read(CARD_A.as_bytes(), &mut table[..8]), refused);
    assert_eq!(table, [7; 9]);
    let good = Reading { number: 0, place: 0, equations: 3, unknowns: 3 };
    assert_eq!(read(CARD_A.as_bytes(), &mut table), good);
    assert_eq!(table, [2, 0, 1, 0, 1, 1, 1, 0, 0]);

    let mut card = [7; 109];
    let refused = Writing { number: 18, ..Writing::default() };
    assert_eq!(write(b"kestrel-4", 3, 3, &table, &mut card[..107]), refused);
    assert_eq!(card, [7; 109]);
    let good = Writing { number: 0, place: 0, length: 108 };
    assert_eq!(write(b"kestrel-4", 3, 3, &table, &mut card), good);
    assert_eq!(&card[..108], CARD_A.as_bytes());
    assert_eq!(card[108], 7);
}

#[test]
fn the_longest_card_and_the_longest_input() {
    let mut card = vec![0; 20_000];
    let longest = write(&[b'z'; 24], 32, 32, &[4; 1024], &mut card);
    assert_eq!(longest, Writing { number: 0, place: 0, length: LONGEST_CARD });
    assert_eq!(printed(&vec![b'x'; INPUT_LIMIT]), "refused=11\nplace=0\n");
    assert_eq!(printed(&vec![b'x'; INPUT_LIMIT + 1]), "refused=19\nplace=0\n");
}

#[test]
fn refusals_of_the_analysis() {
    let mut answer = [7; ANSWER];
    let mut numbers = |equations, unknowns, table: &[u8], length: usize| {
        let numbers = analyse(equations, unknowns, table, &mut answer[..length]);
        (numbers.code, numbers.place)
    };
    assert_eq!(numbers(0, 1, &[], 0), (1, 0));
    assert_eq!(numbers(33, 1, &[9; 33], 0), (1, 0));
    assert_eq!(numbers(1, usize::MAX, &[], 0), (1, 0));
    assert_eq!(numbers(2, 2, &[9; 5], 0), (2, 0));
    assert_eq!(numbers(2, 2, &[9; 3], 0), (2, 0));
    assert_eq!(numbers(2, 2, &[9; 4], ANSWER - 1), (3, 0));
    assert_eq!(numbers(2, 2, &[0, 4, 5, 9], ANSWER), (4, 2));
    assert_eq!(answer, [7; ANSWER]);
}
