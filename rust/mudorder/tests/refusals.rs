//! Every refusal of the analysis and of the writer, its place, the order in which they are judged, and that a
//! refusal changes no byte. The reader's stand in `by_hand` and `cards`.

mod common;

use common::{compare_analysis, compare_report, compare_writing, say};
use independent::generate::Random;
use mudorder::{ANSWER, INPUT_LIMIT, LIMIT, LONGEST_CARD, Model, Refusal, Verdict, analyse};

/// Numbers of equations or unknowns that are wrong, or would be right if someone cut them short.
const WRONG: [usize; 13] = [
    0,
    LIMIT + 1,
    64,
    255,
    256,
    257,
    256 + LIMIT,
    65_535,
    65_537,
    1 << 32,
    (1 << 32) + 1,
    usize::MAX / 2 + 2,
    usize::MAX,
];

fn code_and_place(equations: usize, unknowns: usize, table: &[u8], answer: &mut [u8]) -> (u8, usize) {
    let numbers = analyse(equations, unknowns, table, answer);
    assert_eq!((numbers.rank, numbers.index, numbers.freedom, numbers.blocks), (0, 0, 0, 0));
    (numbers.code, numbers.place)
}

#[test]
fn analysis_by_hand() {
    let mut answer = [7; ANSWER];
    for wrong in WRONG {
        assert_eq!(code_and_place(wrong, 1, &[0], &mut answer), (1, 0), "E = {wrong}");
        assert_eq!(code_and_place(1, wrong, &[0], &mut answer), (1, 0), "U = {wrong}");
        assert_eq!(code_and_place(wrong, wrong, &[], &mut []), (1, 0), "E = U = {wrong}");
    }
    // E × U is 0, or 1, for somebody who lets the product wrap.
    assert_eq!(code_and_place(1 << 32, 1 << 32, &[], &mut answer), (1, 0));
    assert_eq!(code_and_place(usize::MAX, usize::MAX, &[0], &mut answer), (1, 0));

    assert_eq!(code_and_place(2, 2, &[0; 3], &mut answer), (2, 0));
    assert_eq!(code_and_place(2, 2, &[0; 5], &mut answer), (2, 0));
    assert_eq!(code_and_place(2, 2, &[], &mut answer), (2, 0));
    assert_eq!(code_and_place(2, 2, &[9; 5], &mut []), (2, 0));
    assert_eq!(code_and_place(32, 32, &[0; 1023], &mut answer), (2, 0));
    assert_eq!(code_and_place(32, 32, &[0; 1025], &mut answer), (2, 0));

    assert_eq!(code_and_place(2, 2, &[0; 4], &mut answer[..ANSWER - 1]), (3, 0));
    assert_eq!(code_and_place(2, 2, &[9; 4], &mut answer[..ANSWER - 1]), (3, 0));
    assert_eq!(code_and_place(2, 2, &[9; 4], &mut []), (3, 0));

    assert_eq!(code_and_place(2, 2, &[5, 0, 0, 0], &mut answer), (4, 0));
    assert_eq!(code_and_place(2, 2, &[4, 4, 4, 5], &mut answer), (4, 3));
    assert_eq!(code_and_place(2, 2, &[0, 255, 5, 128], &mut answer), (4, 1));
    let mut large = [4; 1024];
    large[1023] = 5;
    assert_eq!(code_and_place(32, 32, &large, &mut answer), (4, 1023));
    large[256] = 5;
    assert_eq!(code_and_place(32, 32, &large, &mut answer), (4, 256));
    assert_eq!(answer, [7; ANSWER], "a refusal changes no byte");
}

/// Document 01: E = 32 is analysed, 33 is refused 1; code 4 is read, 5 is refused 4.
#[test]
fn edges_of_the_limits() {
    let mut random = Random::new(32);
    let (numbers, _) = compare_analysis(32, 32, &[4; 1024], ANSWER, &mut random);
    assert_eq!(numbers, [0, 0, 32, 0, 96, 1]);
    let (numbers, _) = compare_analysis(32, 1, &[4; 32], ANSWER, &mut random);
    assert_eq!(numbers, [10, 0, 1, 0, 0, 0]);
    let (numbers, _) = compare_analysis(1, 32, &[4; 32], ANSWER, &mut random);
    assert_eq!(numbers, [10, 0, 1, 0, 0, 0]);
    let (numbers, _) = compare_analysis(32, 32, &[0; 1024], ANSWER, &mut random);
    assert_eq!(numbers, [10, 0, 0, 0, 0, 0]);
    let (numbers, _) = compare_analysis(33, 32, &[4; 1056], ANSWER, &mut random);
    assert_eq!(numbers, [1, 0, 0, 0, 0, 0]);
    let (numbers, _) = compare_analysis(1, 1, &[4], ANSWER, &mut random);
    assert_eq!(numbers, [0, 0, 1, 0, 3, 1]);
    let (numbers, _) = compare_analysis(1, 1, &[5], ANSWER, &mut random);
    assert_eq!(numbers, [4, 0, 0, 0, 0, 0]);
}

#[test]
fn every_answer_length() {
    let mut random = Random::new(160);
    for length in 0..=2 * ANSWER {
        let (numbers, _) = compare_analysis(2, 2, &[1, 2, 3, 4], length, &mut random);
        assert_eq!(numbers[0], if length < ANSWER { 3 } else { 0 }, "answer of {length} bytes");
    }
}

/// A number of equations or unknowns: mostly good, sometimes wrong.
fn some_size(random: &mut Random) -> usize {
    match random.below(8) {
        0 => random.pick(&WRONG),
        1 => random.number() as usize,
        2 => LIMIT,
        _ => random.between(1, LIMIT),
    }
}

/// Codes for that size: mostly of the right length and within 4.
fn some_codes(equations: usize, unknowns: usize, random: &mut Random) -> Vec<u8> {
    let right = if equations.max(unknowns) <= 64 { equations * unknowns } else { random.below(40) };
    let length = match random.below(6) {
        0 => right + random.between(1, 3),
        1 => right.saturating_sub(random.between(1, 3)),
        2 if random.percent(20) => random.below(1_200),
        _ => right,
    };
    let bad = random.percent(50);
    let byte = |random: &mut Random| match bad && random.percent(3) {
        true => random.between(5, 255) as u8,
        false => random.below(5) as u8,
    };
    (0..length).map(|_| byte(random)).collect()
}

#[test]
fn analysis_with_several_faults_at_once() {
    let mut random = Random::new(1234);
    let mut met = [0; 11];
    for _ in 0..20_000 {
        let (equations, unknowns) = (some_size(&mut random), some_size(&mut random));
        let codes = some_codes(equations, unknowns, &mut random);
        let room = match random.below(5) {
            0 => random.below(ANSWER),
            1 => ANSWER - 1,
            _ => ANSWER + random.below(20),
        };
        let (numbers, _) = compare_analysis(equations, unknowns, &codes, room, &mut random);
        met[numbers[0]] += 1;
    }
    say(&format!(
        "analysis with wrong sizes, lengths and codes: 20000 compared (refused 1: {}, 2: {}, 3: {}, 4: {}; judged: {}), 0 differ",
        met[1],
        met[2],
        met[3],
        met[4],
        met[0] + met[10]
    ));
    assert!([0, 1, 2, 3, 4, 10].into_iter().all(|code| met[code] >= 100), "{met:?}");
}

#[test]
fn writer_by_hand() {
    let mut card = [7; 64];
    let mut write = |name: &[u8], equations, unknowns, table: &[u8]| {
        let writing = mudorder::write(name, equations, unknowns, table, &mut card);
        assert_eq!(writing.length, 0);
        assert_eq!(card, [7; 64], "a refusal changes no byte");
        (writing.number, writing.place)
    };
    assert_eq!(write(b"", 1, 1, &[1]), (12, 0));
    assert_eq!(write(&[b'a'; 25], 1, 1, &[1]), (12, 0));
    assert_eq!(write(&[b'a'; 256 + 3], 1, 1, &[1]), (12, 0));
    assert_eq!(write(b"Kestrel", 1, 1, &[1]), (12, 0));
    assert_eq!(write(b"kestrel\n", 1, 1, &[1]), (12, 0));
    assert_eq!(write(b"", 0, 0, &[9]), (12, 0));
    for wrong in WRONG {
        assert_eq!(write(b"kestrel-4", wrong, 1, &[1]), (13, 0), "E = {wrong}");
        assert_eq!(write(b"kestrel-4", 1, wrong, &[1]), (13, 0), "U = {wrong}");
    }
    assert_eq!(write(b"kestrel-4", 0, 0, &[9]), (13, 0));
    assert_eq!(write(b"kestrel-4", 2, 2, &[9; 3]), (2, 0));
    assert_eq!(write(b"kestrel-4", 2, 2, &[9; 5]), (2, 0));
    assert_eq!(write(b"kestrel-4", 2, 2, &[4, 0, 5, 9]), (4, 2));
    // 14 + 12 + 11 + 4 × 13 + 6 bytes: more than there is room for.
    assert_eq!(write(b"kestrel-4", 2, 2, &[4; 4]), (18, 0));
}

#[test]
fn writer_with_several_faults_at_once() {
    let mut random = Random::new(4321);
    let mut met = [0; 19];
    for _ in 0..10_000 {
        let (equations, unknowns) = (some_size(&mut random), some_size(&mut random));
        let codes = some_codes(equations, unknowns, &mut random);
        let mut name = common::name(&mut random).into_bytes();
        match random.below(12) {
            0 => name.clear(),
            1 => name.resize(25 + random.below(300), b'x'),
            2 => {
                let place = random.below(name.len());
                name[place] = random.number() as u8;
            }
            _ => {}
        }
        let room = random.pick(&[0, 100, 2_000, LONGEST_CARD]);
        let [number, ..] = compare_writing(&name, equations, unknowns, &codes, room, &mut random);
        met[number] += 1;
    }
    say(&format!(
        "writer with wrong names, sizes, codes and room: 10000 compared (refused 12: {}, 13: {}, 2: {}, 4: {}, 18: {}; written: {}), 0 differ",
        met[12], met[13], met[2], met[4], met[18], met[0]
    ));
    assert!([0, 2, 4, 12, 13, 18].into_iter().all(|number| met[number] >= 100), "{met:?}");
}

/// There is no way to a model but through the library's judgement.
#[test]
fn models_that_are_none() {
    let refused = |number, place| Err(Refusal { number, place });
    assert_eq!(Model::new("", 1, 1, &[1]), refused(12, 0));
    assert_eq!(Model::new("Kestrel", 1, 1, &[1]), refused(12, 0));
    assert_eq!(Model::new("kestrel-4", 1, 33, &[1; 33]), refused(13, 0));
    assert_eq!(Model::new("kestrel-4", 257, 1, &[1]), refused(13, 0));
    assert_eq!(Model::new("kestrel-4", 2, 2, &[1; 3]), refused(2, 0));
    assert_eq!(Model::new("kestrel-4", 2, 2, &[1, 4, 5, 9]), refused(4, 2));
    assert!(Model::new("kestrel-4", 2, 2, &[0; 4]).is_ok());
    let refusal = Model::read(b"rig=kestrel-4\nequations=0\n").expect_err("13");
    assert_eq!(
        refusal.to_string(),
        "refused 13 at byte 14: the number of equations or of unknowns is not within the limits"
    );
    assert_eq!(Verdict::from(refusal).to_string(), "refused=13\nplace=14\n");
}

/// 19 is judged before everything else, and one byte less is not refused for its length.
#[test]
fn input_limit_of_the_program() {
    let mut random = Random::new(19);
    for (length, expected) in [
        (INPUT_LIMIT, "refused=11\nplace=0\n"),
        (INPUT_LIMIT + 1, "refused=19\nplace=0\n"),
        (4 * INPUT_LIMIT, "refused=19\nplace=0\n"),
        (4 * INPUT_LIMIT + 7, "refused=19\nplace=0\n"),
    ] {
        assert_eq!(compare_report(&vec![b'x'; length], &mut random), expected, "{length} bytes");
    }
    let refused = Verdict::Refused { number: 19, place: 0 };
    assert_eq!(Verdict::of_card(&[b'x'; INPUT_LIMIT + 1]), refused);
}
