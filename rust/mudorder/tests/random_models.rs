//! The library against the independent program on generated models of all sizes and kinds, and against facts that
//! follow from the definitions alone.

mod common;

use common::{card_of, compare_analysis, compare_report, name, say};
use independent::generate::{Kind, Random, model};
use independent::table::Table;
use mudorder::{ANSWER, Equation, LIMIT, Model, Unknown, Verdict};

/// For each kind so many models.
const EACH: usize = 2_500;

/// What was met, so that nobody takes a lopsided generator for a wide comparison.
#[derive(Default)]
struct Seen {
    solvable: usize,
    singular: usize,
    rectangular: usize,
    /// By size: solvable and singular ones.
    sizes: Vec<[usize; 2]>,
    highest_index: usize,
    highest_freedom: usize,
    most_blocks: usize,
    widest_block: usize,
    largest_deficit: usize,
}

#[test]
fn library_against_independent_program() {
    let mut random = Random::new(0x6d75_646f);
    let mut seen = Seen { sizes: vec![[0; 2]; LIMIT + 1], ..Seen::default() };
    for kind in Kind::ALL {
        for turn in 0..EACH {
            // Every size in turn: the largest as often as the smallest.
            let size = turn % LIMIT + 1;
            compare(&model(kind, size, LIMIT, &mut random), &mut seen, &mut random);
        }
    }
    let Seen { solvable, singular, rectangular, highest_index, highest_freedom, .. } = seen;
    say(&format!(
        "generated models: {} compared ({solvable} solvable, {singular} singular, {rectangular} with E and U different), \
         index up to {highest_index}, freedom up to {highest_freedom}, up to {} blocks, a block up to {}, \
         up to {} equations left over: 0 differ",
        solvable + singular,
        seen.most_blocks,
        seen.widest_block,
        seen.largest_deficit,
    ));
    assert!(solvable >= 8_000 && singular >= 8_000 && rectangular >= 2_000);
    assert!(seen.sizes[1..].iter().all(|[solvable, singular]| *solvable >= 100 && *singular >= 100));
    assert_eq!(highest_index, 3 * (LIMIT - 1));
    assert_eq!(seen.most_blocks, LIMIT);
    assert_eq!(seen.widest_block, LIMIT);
}

fn compare(table: &Table, seen: &mut Seen, random: &mut Random) {
    let (equations, unknowns) = (table.equations(), table.unknowns());
    let room = ANSWER + random.below(3) * random.below(60);
    compare_analysis(equations, unknowns, table.codes(), room, random);

    let rig = name(random);
    let card = card_of(&rig, table);
    let printed = compare_report(&card, random);
    let model = Model::new(&rig, equations, unknowns, table.codes()).expect("a good model");
    let verdict = model.verdict();
    assert_eq!(verdict.to_string(), printed);
    certify(&model, &verdict, seen);

    let solvable = matches!(verdict, Verdict::Solvable { .. });
    seen.solvable += usize::from(solvable);
    seen.singular += usize::from(!solvable);
    seen.rectangular += usize::from(equations != unknowns);
    seen.sizes[equations][usize::from(!solvable)] += 1;
}

/// Facts that follow from document 01 without any search: they hold the library to account even where the
/// independent program might share a mistake.
fn certify(model: &Model, verdict: &Verdict, seen: &mut Seen) {
    match verdict {
        Verdict::Solvable { counts, tops, partners, blocks, index, freedom, .. } => {
            certify_counts(model, counts, tops, partners);
            certify_blocks(model, counts, tops, partners, blocks);
            let sum = |values: &[u8]| values.iter().map(|&value| usize::from(value)).sum::<usize>();
            assert_eq!(*index, counts.iter().copied().max().unwrap_or(0));
            assert_eq!(usize::from(*freedom), sum(tops) - sum(counts));
            assert!(counts.contains(&0), "a least choice leaves some equation as it is");
            seen.highest_index = seen.highest_index.max(usize::from(*index));
            seen.highest_freedom = seen.highest_freedom.max(usize::from(*freedom));
            seen.most_blocks = seen.most_blocks.max(blocks.len());
            seen.widest_block = seen.widest_block.max(blocks.iter().map(Vec::len).max().unwrap_or(0));
        }
        Verdict::Singular { rank, surplus, unfixed, .. } => {
            certify_lists(model, usize::from(*rank), surplus, unfixed);
            let deficit = model.equations().len() - usize::from(*rank);
            seen.largest_deficit = seen.largest_deficit.max(deficit);
        }
        Verdict::Refused { .. } => panic!("a good model was refused"),
    }
}

fn at<T: Copy>(strip: &[T], number: u8) -> T {
    strip[usize::from(number - 1)]
}

fn certify_counts(model: &Model, counts: &[u8], tops: &[u8], partners: &[Unknown]) {
    for u in model.unknowns() {
        let reach =
            model.equations().filter_map(|e| model.order(e, u).map(|order| order + at(counts, e.0))).max();
        assert_eq!(Some(at(tops, u.0)), reach, "a top is the largest order + c");
    }
    let mut sorted = partners.to_vec();
    sorted.sort();
    assert!(sorted.into_iter().eq(model.unknowns()), "each unknown is some equation's partner");
    for e in model.equations() {
        assert!(is_leading(model, counts, tops, e, at(partners, e.0)), "a partner is a leading occurrence");
    }
}

fn is_leading(model: &Model, counts: &[u8], tops: &[u8], e: Equation, u: Unknown) -> bool {
    model.order(e, u).is_some_and(|order| order + at(counts, e.0) == at(tops, u.0))
}

/// What an equation needs stands in its own block or before; nothing that it needs stands behind.
fn certify_blocks(model: &Model, counts: &[u8], tops: &[u8], partners: &[Unknown], blocks: &[Vec<Equation>]) {
    let mut place = vec![0; model.equations().len()];
    for (number, block) in blocks.iter().enumerate() {
        assert!(block.is_sorted() && !block.is_empty());
        for e in block {
            place[usize::from(e.0 - 1)] = number;
        }
    }
    assert_eq!(blocks.iter().map(Vec::len).sum::<usize>(), place.len());
    for f in model.equations() {
        for g in model.equations() {
            if is_leading(model, counts, tops, f, at(partners, g.0)) {
                assert!(at(&place, g.0) <= at(&place, f.0), "users come after what they use");
            }
        }
    }
}

/// Demand 3: the surplus equations together contain fewer unknowns than their number by exactly what a largest
/// pairing leaves over of the equations; the unfixed unknowns likewise.
fn certify_lists(model: &Model, rank: usize, surplus: &[Equation], unfixed: &[Unknown]) {
    assert!(surplus.is_sorted_by(|a, b| a < b) && unfixed.is_sorted_by(|a, b| a < b));
    let occurs = |e: Equation, u: Unknown| model.order(e, u).is_some();
    let contained = model.unknowns().filter(|&u| surplus.iter().any(|&e| occurs(e, u))).count();
    assert_eq!(surplus.len() - contained, model.equations().len() - rank);
    let containing = model.equations().filter(|&e| unfixed.iter().any(|&u| occurs(e, u))).count();
    assert_eq!(unfixed.len() - containing, model.unknowns().len() - rank);
}

/// The library keeps nothing between calls: four threads at once get what one gets.
#[test]
fn several_screens_at_once() {
    let compared: usize = std::thread::scope(|scope| {
        let workers: Vec<_> = (0..4)
            .map(|worker| {
                scope.spawn(move || {
                    let mut random = Random::new(100 + worker);
                    for turn in 0..500 {
                        let size = random.between(1, LIMIT);
                        let table = model(Kind::ALL[turn % Kind::ALL.len()], size, LIMIT, &mut random);
                        let (equations, unknowns) = (table.equations(), table.unknowns());
                        compare_analysis(equations, unknowns, table.codes(), ANSWER, &mut random);
                    }
                    500
                })
            })
            .collect();
        workers.into_iter().map(|worker| worker.join().expect("no comparison failed")).sum()
    });
    say(&format!("generated models on four threads at once: {compared} compared, 0 differ"));
}
