//! Cards, good and damaged: reader, writer, name question and printed result against the independent program.

mod common;

use common::damage::damage;
use common::{
    card_of, compare_card, compare_name, compare_reading, compare_report, compare_writing, name, say,
};
use independent::cases::CARD_A;
use independent::generate::{Kind, Random, model};
use independent::table::Table;
use mudorder::{LIMIT, LONGEST_CARD, Model};

/// A generated model; most are small, because a short card is damaged in more telling places.
fn some_table(turn: usize, random: &mut Random) -> Table {
    let size = if random.percent(85) { random.between(1, 5) } else { random.between(6, LIMIT) };
    model(Kind::ALL[turn % Kind::ALL.len()], size, 8, random)
}

#[test]
fn good_cards_and_both_round_trips() {
    let mut random = Random::new(24);
    let mut bytes = 0;
    for turn in 0..5_000 {
        let size = turn % LIMIT + 1;
        let table = model(Kind::ALL[turn % Kind::ALL.len()], size, LIMIT, &mut random);
        let (equations, unknowns) = (table.equations(), table.unknowns());
        let rig = name(&mut random);
        let card = card_of(&rig, &table);
        bytes += card.len();

        // A good card read and written again has the same bytes.
        let read = Model::read(&card).expect("a good card");
        assert_eq!(read.card(), card);
        // A good table and name written and read again come back the same.
        let made = Model::new(&rig, equations, unknowns, table.codes()).expect("a good model");
        assert_eq!(made, read);
        assert_eq!((read.rig(), read.table()), (rig.as_str(), table.codes()));

        // Room just enough, one byte too little, and more.
        let cells = equations * unknowns;
        for (room, number) in [(cells, 0), (cells - 1, 17), (cells + 9, 0), (0, 17)] {
            assert_eq!(compare_reading(&card, room, &mut random)[0], number);
        }
        for (room, number) in [(card.len(), 0), (card.len() - 1, 18), (card.len() + 9, 0), (0, 18)] {
            let writing =
                compare_writing(rig.as_bytes(), equations, unknowns, table.codes(), room, &mut random);
            assert_eq!(writing[0], number);
        }
        compare_name(&card);
    }
    say(&format!("good cards: 5000 read, written and read again ({bytes} bytes), 0 differ"));
}

#[test]
fn damaged_cards() {
    let mut random = Random::new(0xdead);
    let mut met = [0; 20];
    let total = 60_000;
    for turn in 0..total {
        let mut card = card_of(&name(&mut random), &some_table(turn, &mut random));
        for _ in 0..random.pick(&[1, 1, 1, 2, 3]) {
            damage(&mut card, &mut random);
        }
        met[compare_card(&card, &mut random)] += 1;
    }
    let refused: Vec<String> = (11..=16).map(|number| format!("{number}: {}", met[number])).collect();
    say(&format!(
        "damaged cards: {total} compared (refused {}; still good: {}), 0 differ",
        refused.join(", "),
        met[0]
    ));
    assert!((11..=16).all(|number| met[number] >= 300) && met[0] >= 300, "{met:?}");
}

/// Document 01's card with every byte replaced by every byte, with every byte put in everywhere, with every byte
/// lost, and cut everywhere.
#[test]
fn every_small_change_of_one_card() {
    let mut random = Random::new(256);
    let card = CARD_A.as_bytes();
    let (mut compared, mut good) = (0, 0);
    let mut check = |changed: &[u8]| {
        compared += 1;
        good += usize::from(compare_card(changed, &mut random) == 0);
    };
    for place in 0..=card.len() {
        check(&card[..place]);
        for byte in 0..=u8::MAX {
            check(&[&card[..place], &[byte], &card[place..]].concat());
            if place < card.len() {
                check(&[&card[..place], &[byte], &card[place + 1..]].concat());
            }
        }
        if place < card.len() {
            check(&[&card[..place], &card[place + 1..]].concat());
        }
    }
    say(&format!(
        "one card with every byte replaced, added, lost or cut off: {compared} compared ({good} good), 0 differ"
    ));
}

/// The longest card, whole and with its last lines damaged: the highest places there are.
#[test]
fn the_longest_card() {
    let mut random = Random::new(14_847);
    let full = Table::judge(LIMIT, LIMIT, &[4; LIMIT * LIMIT]).expect("within the limits");
    let card = card_of(&"z".repeat(24), &full);
    assert_eq!(card.len(), LONGEST_CARD);
    assert_eq!(compare_card(&card, &mut random), 0);
    assert_eq!(Model::read(&card).expect("a good card").card(), card);
    let last = LONGEST_CARD - "end=1024\n".len();
    let place = |changed: &[u8], random: &mut Random| {
        compare_card(changed, random);
        let [number, place, ..] = compare_reading(changed, LIMIT * LIMIT, random);
        (number, place)
    };
    assert_eq!(place(&card[..last], &mut random), (11, last));
    assert_eq!(place(&card[..LONGEST_CARD - 1], &mut random), (11, last));
    assert_eq!(place(&[&card[..last], b"end=1023\n"].concat(), &mut random), (16, last));
    assert_eq!(place(&[&card[..], b"\n"].concat(), &mut random), (11, LONGEST_CARD));
    let again = [&card[..last], b"occurs=32,32,3\nend=1025\n"].concat();
    assert_eq!(place(&again, &mut random), (15, last));
}

/// Inputs far longer than any card: no place may be cut short to two bytes of a longer one.
#[test]
fn endless_inputs() {
    let mut random = Random::new(65_536);
    let long = 200_000;
    let cases: [(Vec<u8>, usize, usize); 9] = [
        (vec![b'x'; long], 11, 0),
        (vec![b'\n'; long], 11, 0),
        (vec![0; long], 11, 0),
        ([b"rig=".to_vec(), vec![b'a'; long]].concat(), 11, 0),
        ([b"rig=".to_vec(), vec![b'a'; long], CARD_A.as_bytes()[13..].to_vec()].concat(), 12, 0),
        ([CARD_A.as_bytes().to_vec(), vec![b'x'; long]].concat(), 11, 108),
        ([CARD_A.as_bytes()[..26].to_vec(), b"unknowns=".to_vec(), vec![b'1'; long]].concat(), 11, 26),
        ([CARD_A.as_bytes()[..37].to_vec(), CARD_A[37..50].repeat(long / 13).into_bytes()].concat(), 15, 50),
        (
            [CARD_A.as_bytes()[..102].to_vec(), b"end=".to_vec(), vec![b'0'; long], b"5\n".to_vec()].concat(),
            11,
            102,
        ),
    ];
    for (input, number, place) in &cases {
        let reading = compare_reading(input, LIMIT * LIMIT, &mut random);
        assert_eq!(reading, [*number, *place, 0, 0], "{}..", input[..40].escape_ascii());
        compare_name(input);
        assert_eq!(compare_report(input, &mut random), "refused=19\nplace=0\n");
    }
    say(&format!("inputs of {long} bytes and more: {} compared, 0 differ", cases.len()));
}
