//! The library and the independent program side by side, in one run, on the same inputs.
//!
//! `cargo bench --offline` prints tables for `BENCHMARKS.md`. First every answer is compared; then the two take
//! turns, and of several rounds the quickest counts for each. Buffers are made once and not cleared between calls.

use independent::generate::{Random, Shape};
use independent::table::Table;
use independent::{analysis, blocks, card, counts, pairing, partners, printed};
use mudorder::{ANSWER, LIMIT, LONGEST_CARD, LONGEST_REPORT};
use std::hint::black_box;
use std::time::{Duration, Instant};

/// Models of each shape; all are of the largest size.
const EACH: usize = 250;

const ROUNDS: usize = 7;

fn main() {
    let mut random = Random::new(13);
    let models: Vec<(Shape, Vec<Table>)> = Shape::ALL
        .into_iter()
        .map(|shape| (shape, (0..EACH).map(|_| shape.model(LIMIT, &mut random)).collect()))
        .collect();
    compare_answers(&models);
    whole_analyses(&models);
    parts(&models);
    cards(&models);
}

/// No time counts for a wrong answer.
fn compare_answers(models: &[(Shape, Vec<Table>)]) {
    let mut compared = 0;
    for table in models.iter().flat_map(|(_, tables)| tables) {
        let (mut answer, mut expected) = ([0; ANSWER], [0; ANSWER]);
        let numbers = mudorder::analyse(LIMIT, LIMIT, table.codes(), &mut answer);
        let expected_numbers = analysis::analyse(LIMIT, LIMIT, table.codes(), &mut expected);
        let same = (usize::from(numbers.code), usize::from(numbers.rank), usize::from(numbers.blocks))
            == (usize::from(expected_numbers.code), expected_numbers.rank, expected_numbers.blocks);
        assert!(same && answer == expected, "the two differ on {:?}", table.codes());
        compared += 1;
    }
    println!("{compared} models of {LIMIT} x {LIMIT} compared, model by model: 0 differ.\n");
}

/// The quickest of several rounds for each of the two, which take turns.
fn take_turns(mut library: impl FnMut(), mut independent: impl FnMut()) -> (Duration, Duration) {
    let mut best = (Duration::MAX, Duration::MAX);
    for _ in 0..ROUNDS {
        best.0 = best.0.min(time(&mut library));
        best.1 = best.1.min(time(&mut independent));
    }
    best
}

fn quickest(mut work: impl FnMut()) -> Duration {
    (0..ROUNDS).map(|_| time(&mut work)).min().expect("there is a round")
}

fn time(work: &mut impl FnMut()) -> Duration {
    let start = Instant::now();
    work();
    start.elapsed()
}

fn micros(time: Duration, times: usize) -> f64 {
    time.as_secs_f64() * 1e6 / times as f64
}

fn ratio(library: Duration, independent: Duration) -> f64 {
    library.as_secs_f64() / independent.as_secs_f64()
}

fn whole_analyses(models: &[(Shape, Vec<Table>)]) {
    println!("| {LIMIT} x {LIMIT} models | number | library, µs a model | independent, µs a model | ratio |");
    println!("|---|---:|---:|---:|---:|");
    let mut sum = (Duration::ZERO, Duration::ZERO);
    let mut number = 0;
    for (shape, tables) in models {
        let (mut answer, mut other) = ([0; ANSWER], [0; ANSWER]);
        let (library, independent) = take_turns(
            || {
                for table in tables {
                    black_box(mudorder::analyse(LIMIT, LIMIT, black_box(table.codes()), &mut answer));
                }
            },
            || {
                for table in tables {
                    black_box(analysis::analyse(LIMIT, LIMIT, black_box(table.codes()), &mut other));
                }
            },
        );
        analysis_row(shape.name(), tables.len(), library, independent);
        sum = (sum.0 + library, sum.1 + independent);
        number += tables.len();
    }
    analysis_row("all", number, sum.0, sum.1);
    println!();
}

fn analysis_row(name: &str, number: usize, library: Duration, independent: Duration) {
    println!(
        "| {name} | {number} | {:.1} | {:.1} | {:.2} |",
        micros(library, number),
        micros(independent, number),
        ratio(library, independent)
    );
}

/// The independent program part by part. Of the library only the whole can be timed from here; on a singular
/// model that is judging, pairing and the two lists alone.
fn parts(models: &[(Shape, Vec<Table>)]) {
    println!("| independent program, µs a model | pairing | lists | counts | partners | blocks |");
    println!("|---|---:|---:|---:|---:|---:|");
    for (shape, tables) in models {
        let number = tables.len();
        let pairing = quickest(|| {
            for table in tables {
                black_box(pairing::largest(&|e, u| table.occurs(e, u), LIMIT, LIMIT));
            }
        });
        if matches!(shape, Shape::DenseSingular | Shape::SparseSingular) {
            let lists = time_lists(tables);
            println!(
                "| {} | {:.1} | {:.1} | | | |",
                shape.name(),
                micros(pairing, number),
                micros(lists, number)
            );
        } else {
            let [counts, partners, blocks] = time_solving(tables);
            println!(
                "| {} | {:.1} | | {:.1} | {:.1} | {:.1} |",
                shape.name(),
                micros(pairing, number),
                micros(counts, number),
                micros(partners, number),
                micros(blocks, number)
            );
        }
    }
    println!();
}

fn time_lists(tables: &[Table]) -> Duration {
    let paired: Vec<_> =
        tables.iter().map(|table| pairing::largest(&|e, u| table.occurs(e, u), LIMIT, LIMIT)).collect();
    quickest(|| {
        for (table, holder) in tables.iter().zip(&paired) {
            let occurs = |e, u| table.occurs(e, u);
            black_box(pairing::surplus(&occurs, LIMIT, holder));
            black_box(pairing::unfixed(&occurs, LIMIT, holder));
        }
    })
}

/// Counts, partners and blocks.
fn time_solving(tables: &[Table]) -> [Duration; 3] {
    let choices: Vec<_> = tables.iter().map(counts::least).collect();
    let chosen: Vec<_> = tables.iter().zip(&choices).collect();
    let first = |(table, choice): (&Table, &counts::Counts)| {
        partners::first(&|e, u| choice.leads(table, e, u), LIMIT)
    };
    let partners: Vec<_> = chosen.iter().copied().map(first).collect();
    [
        quickest(|| {
            for table in tables {
                black_box(counts::least(black_box(table)));
            }
        }),
        quickest(|| {
            for &model in &chosen {
                black_box(first(black_box(model)));
            }
        }),
        quickest(|| {
            for ((table, choice), partners) in chosen.iter().zip(&partners) {
                black_box(blocks::placed(&|e, u| choice.leads(table, e, u), black_box(partners)));
            }
        }),
    ]
}

fn cards(models: &[(Shape, Vec<Table>)]) {
    println!("| cards of the same models | bytes | library, MB/s | independent, MB/s | ratio of times |");
    println!("|---|---:|---:|---:|---:|");
    let tables: Vec<&Table> = models.iter().flat_map(|(_, tables)| tables).collect();
    let cards: Vec<Vec<u8>> = tables
        .iter()
        .map(|table| card::card_of(b"kestrel-4", LIMIT, LIMIT, table.codes()).expect("a good model"))
        .collect();
    let bytes = cards.iter().map(Vec::len).sum();

    let (mut table, mut other) = ([0; LIMIT * LIMIT], [0; LIMIT * LIMIT]);
    let (library, independent) = take_turns(
        || {
            for card in &cards {
                black_box(mudorder::read(black_box(card), &mut table));
            }
        },
        || {
            for card in &cards {
                black_box(card::read(black_box(card), &mut other));
            }
        },
    );
    card_row("read", bytes, library, independent);

    let (mut card, mut other) = ([0; LONGEST_CARD], [0; LONGEST_CARD]);
    let (library, independent) = take_turns(
        || {
            for table in &tables {
                black_box(mudorder::write(b"kestrel-4", LIMIT, LIMIT, black_box(table.codes()), &mut card));
            }
        },
        || {
            for table in &tables {
                black_box(card::write(b"kestrel-4", LIMIT, LIMIT, black_box(table.codes()), &mut other));
            }
        },
    );
    card_row("write", bytes, library, independent);

    let mut out = [0; LONGEST_REPORT];
    let (library, independent) = take_turns(
        || {
            for card in &cards {
                black_box(mudorder::report(black_box(card), &mut out));
            }
        },
        || {
            for card in &cards {
                black_box(printed::printed(black_box(card)));
            }
        },
    );
    card_row("card to printed result", bytes, library, independent);
}

fn card_row(name: &str, bytes: usize, library: Duration, independent: Duration) {
    let speed = |time: Duration| bytes as f64 / 1e6 / time.as_secs_f64();
    println!(
        "| {name} | {bytes} | {:.1} | {:.1} | {:.2} |",
        speed(library),
        speed(independent),
        ratio(library, independent)
    );
}
