//! The generator's reach over a fixed set of seeds.

use std::collections::{BTreeMap, BTreeSet};

use crate::common::unrounded;
use peer::finish::{size, Folds};
use peer::run::{apply, Accepted, Outcome, Refusal, Run, State, FIRST_MARK};
use peer::set::Set;
use peer::step::{dot, image};
use plan::number::Form;
use plan::show::show;
use run_file::{
    Field, RangedStep, Reduction, Tag, ENTRY_LIMIT, MAX_DIMENSION, MAX_EXPONENT, MAX_FACTORS, MAX_FIELDS,
    MAX_GENERATORS, MAX_TERMS, SPAN_LIMIT, SQUARE_UNIT, UNIT,
};
use trials::generate::{kinds, Kind, REFUSED, VALID};
use trials::random::Random;

const SEEDS: u64 = 40;

fn seeds(kind: &Kind) -> std::ops::Range<u64> {
    0..if kind.long { 2 } else { SEEDS }
}

fn run(bytes: &[u8]) -> (Vec<Accepted>, Option<Refusal>) {
    let mut accepted = Vec::new();
    for item in Run::new(bytes) {
        match item {
            Ok(field) => accepted.push(field),
            Err(refusal) => return (accepted, Some(refusal)),
        }
    }
    (accepted, None)
}

fn kind(name: &str) -> &'static Kind {
    kinds().find(|kind| kind.name == name).expect("a kind")
}

#[test]
fn random_numbers_are_those_of_splitmix64() {
    let mut random = Random::new(0);
    assert_eq!([random.word(), random.word()], [0xe220_a839_7b1d_cdaf, 0x6e78_9e6a_a1b9_65f4]);
}

#[test]
fn files_depend_on_kind_and_seed_alone() {
    for kind in kinds() {
        assert_eq!(kind.file(3), kind.file(3), "{}", kind.name);
        let different: BTreeSet<Vec<u8>> = (0..10).map(|seed| kind.file(seed)).collect();
        assert!(different.len() > 1, "{}", kind.name);
    }
}

#[test]
fn valid_kinds_run_to_the_end() {
    for kind in &VALID {
        for seed in seeds(kind) {
            let (accepted, refusal) = run(&kind.file(seed));
            assert_eq!(refusal, None, "{} {seed}", kind.name);
            assert!(accepted.len() > 3, "{} {seed}", kind.name);
        }
    }
    for kind in VALID.iter().filter(|kind| kind.long) {
        assert_eq!(run(&kind.file(0)).0.len(), 1 + MAX_FIELDS);
    }
}

#[test]
fn valid_kinds_reach_deep() {
    let mut tags = BTreeSet::new();
    let mut verdicts = BTreeSet::new();
    let mut dimensions = BTreeSet::new();
    let (mut by_exponent, mut by_size, mut generators) = (0, 0, 0);
    let (mut fullest, mut highest_exponent, mut widest, mut highest_mark) = ([0; 3], 0, 0, FIRST_MARK);
    for kind in &VALID {
        for seed in seeds(kind) {
            for field in run(&kind.file(seed)).0 {
                tags.insert(field.field.tag() as u8);
                dimensions.insert(field.set.dimension());
                if let Outcome::Verdict { safe } = field.outcome {
                    verdicts.insert(safe);
                }
                by_exponent += field.folds.by_exponent;
                by_size += field.folds.by_size;
                generators += field.folds.generators;
                let set = &field.set;
                let counts = [set.identifiers.len(), set.terms.len(), set.generators.len()];
                fullest = std::array::from_fn(|i| fullest[i].max(counts[i]));
                let exponents = set.terms.iter().flat_map(|t| &t.exponents).copied();
                highest_exponent = exponents.fold(highest_exponent, u32::max);
                widest = (0..set.dimension()).map(|i| set.span(i)).fold(widest, i128::max);
                highest_mark = highest_mark.max(field.mark);
            }
        }
    }
    assert_eq!(tags, (1..=9).collect());
    assert_eq!(verdicts, [false, true].into());
    assert_eq!(dimensions, (1..=6).collect());
    assert!(by_exponent > 100 && by_size > 1_000 && generators > 100, "{by_exponent} {by_size} {generators}");
    assert_eq!(fullest, [MAX_FACTORS, MAX_TERMS, MAX_GENERATORS]);
    assert_eq!((highest_exponent, widest), (MAX_EXPONENT, SPAN_LIMIT));
    assert!(highest_mark > FIRST_MARK + 500, "{highest_mark}");
}

/// What folding added to each coordinate's radius in these fields.
fn totals(fields: &[Accepted]) -> [i128; MAX_DIMENSION] {
    let mut totals = [0; MAX_DIMENSION];
    for field in fields {
        totals.iter_mut().zip(&field.folded).for_each(|(total, added)| *total += added);
    }
    totals
}

/// By tag and reason, each that there can be: the number of terms grows in sums, steps and hulls, their exponents in
/// steps, and the number of generators in sums.
#[test]
fn valid_kinds_fold_for_every_reason_before_steps_and_hulls() {
    let mut carried = BTreeMap::new();
    for kind in &VALID {
        for fields in seeds(kind).map(|seed| run(&kind.file(seed)).0) {
            let last = fields.iter().rposition(|field| [2, 8, 9].contains(&(field.field.tag() as u8))).unwrap_or(0);
            for field in fields[..last].iter().filter(|field| field.folded.iter().any(|added| *added > 0)) {
                let Folds { by_exponent, by_size, generators } = field.folds;
                for (reason, folds) in [("exponent", by_exponent), ("size", by_size), ("generators", generators)] {
                    *carried.entry((field.field.tag() as u8, reason)).or_insert(0) += usize::from(folds > 0);
                }
            }
        }
    }
    carried.retain(|_, fields| *fields > 0);
    let sums = [4, 5, 6].iter().flat_map(|tag| [(*tag, "size"), (*tag, "generators")]);
    let steps = [2, 9].iter().flat_map(|tag| [(*tag, "size"), (*tag, "exponent")]);
    assert_eq!(carried.keys().copied().collect::<BTreeSet<_>>(), sums.chain(steps).chain([(8, "size")]).collect());
    assert!(carried.values().all(|fields| *fields > 20), "{carried:?}");
}

/// So that a program that prints totals though it refuses would be noticed.
#[test]
fn refusals_come_after_folds() {
    let folds = |kind: &&Kind| (0..SEEDS).any(|seed| totals(&run(&kind.file(seed)).0) != [0; MAX_DIMENSION]);
    assert!(REFUSED.iter().filter(folds).count() > 7);
}

/// The total that 4,096 fields can reach at most, each within the span, and which takes more than 32 bits.
#[test]
fn most_folded_has_the_greatest_total() {
    let greatest = MAX_FIELDS as i128 * SPAN_LIMIT;
    assert!(greatest > i128::from(u32::MAX));
    for seed in 0..6 {
        let fields = run(&kind("most-folded").file(seed)).0;
        assert_eq!(totals(&fields).into_iter().max(), Some(greatest));
    }
}

/// A set's terms and generators before a reduction that folds some, as (size by weight, plain size).
fn reduced(name: &str) -> Vec<Vec<(i128, i128)>> {
    let mut lists = Vec::new();
    for seed in 0..SEEDS {
        for fields in run(&kind(name).file(seed)).0.windows(2) {
            if let ([before, after], Tag::Reduce) = (fields, fields[1].field.tag()) {
                let sizes = |numbers: &[i128]| (size(numbers), numbers.iter().map(|v| v.abs()).sum());
                if after.folds.by_size > 0 {
                    lists.push(before.set.terms.iter().map(|t| sizes(&t.coefficients)).collect());
                }
                if after.folds.generators > 0 {
                    lists.push(before.set.generators.iter().map(|g| sizes(g)).collect());
                }
            }
        }
    }
    lists
}

#[test]
fn ties_have_equal_sizes_of_unequal_numbers() {
    let lists = reduced("ties");
    let decided_by_weight = |list: &&Vec<(i128, i128)>| {
        list.iter().any(|(size, plain)| list.iter().any(|(other, other_plain)| size == other && plain != other_plain))
    };
    assert!(lists.len() > 20, "{}", lists.len());
    assert!(2 * lists.iter().filter(decided_by_weight).count() > lists.len());
}

/// How many files have an exact half below 0 and above 0, each with an even and with an odd neighbour below.
#[test]
fn halves_have_exact_halves_of_both_signs_with_an_even_or_an_odd_neighbour_below() {
    let mut files = [[0; 2]; 2];
    for seed in 0..SEEDS {
        let mut found = [[false; 2]; 2];
        for fields in run(&kind("halves").file(seed)).0.windows(2) {
            if let Field::Step(step) | Field::Ranged(RangedStep { step, .. }) = &fields[1].field {
                for v in unrounded(step, &fields[0].set).into_iter().flatten() {
                    let (below, rest) = (v.div_euclid(SQUARE_UNIT), v.rem_euclid(SQUARE_UNIT));
                    found[usize::from(v > 0)][usize::from(below % 2 != 0)] |= rest == SQUARE_UNIT / 2;
                }
            }
        }
        for (files, found) in files.iter_mut().flatten().zip(found.iter().flatten()) {
            *files += u64::from(*found);
        }
    }
    assert!(files.iter().flatten().all(|files| 4 * files > SEEDS), "{files:?}");
}

/// A fold leaves a span as it was or makes it smaller, so that no reduction of whatever set is too wide: not even where
/// odd even powers are folded in the widest sets, on the side of the centre.
#[test]
fn no_reduction_is_refused_with_10() {
    let (mut folding, mut widest) = (0, 0);
    for name in ["folds", "reductions", "ties"] {
        for field in (0..SEEDS).flat_map(|seed| run(&kind(name).file(seed)).0) {
            let spans = |set: &Set| (0..set.dimension()).map(|i| set.span(i)).collect::<Vec<_>>();
            let before = spans(&field.set);
            let state = State { set: Some(field.set), mark: field.mark };
            for terms in 0..6 {
                let reduced = apply(&Field::Reduce(Reduction { terms, generators: 2 }), &state).expect("accepted").0;
                let after = spans(&reduced.set);
                assert!(before.iter().zip(&after).all(|(before, after)| after <= before), "{before:?} {after:?}");
                folding += usize::from(reduced.folds.by_size > 0);
                widest += usize::from(reduced.folds.by_size > 0 && after.contains(&SPAN_LIMIT));
            }
        }
    }
    assert!(folding > 1_000 && widest > 15, "{folding} {widest}");
}

/// The fields of a kind's files whose body `body` picks: the set before, the body, and the field.
fn bodies<T>(name: &str, body: impl Fn(&Field) -> Option<T>) -> Vec<(Set, T, Accepted)> {
    let runs = (0..SEEDS).map(|seed| run(&kind(name).file(seed)).0);
    let picked = |fields: &[Accepted]| Some((fields[0].set.clone(), body(&fields[1].field)?, fields[1].clone()));
    runs.flat_map(|fields| fields.windows(2).filter_map(&picked).collect::<Vec<_>>()).collect()
}

fn hulls(name: &str) -> Vec<(Set, Set, Accepted)> {
    bodies(name, |field| if let Field::Hull(body) = field { Some(Set::from(body)) } else { None })
}

#[test]
fn odd_hulls_round_every_half_and_some_leave_the_new_factor_nothing() {
    let is_odd = |set: &Set| {
        let terms = set.terms.iter().flat_map(|term| &term.coefficients);
        !set.terms.is_empty() && terms.chain(&set.centre).all(|v| v % 2 != 0)
    };
    let hulls = hulls("odd-hulls");
    assert!(hulls.iter().filter(|(before, body, _)| is_odd(before) && is_odd(body)).count() > 10);
    let vanished = hulls.iter().filter(|(_, _, hull)| !hull.set.identifiers.contains(&(hull.mark - 1)));
    assert!(vanished.count() > 2);
}

#[test]
fn full_hulls_fold_all_but_40_of_161_terms() {
    let hulls = hulls("full-hulls");
    assert_eq!(hulls.len() as u64, 2 * SEEDS);
    for (before, body, hull) in hulls {
        assert_eq!([before.terms.len(), body.terms.len(), hull.set.terms.len()], [MAX_TERMS; 3]);
        assert!(hull.folds.by_size > 100, "{}", hull.folds.by_size);
    }
}

/// The number of factors of both sets, and of the refusal, if any.
#[test]
fn counts_have_hulls_on_both_sides_of_the_factors_limit() {
    let ends: BTreeSet<(usize, Option<u8>)> = (54..57)
        .map(|seed| {
            let bytes = kind("counts").file(seed);
            let (accepted, refusal) = run(&bytes);
            let fields = show(&bytes, Form::Grains);
            assert!(fields.contains("\nhull 1 "), "{fields}");
            let identifiers = fields.lines().filter_map(|line| line.trim().strip_prefix("identifiers "));
            let union: BTreeSet<&str> = identifiers.flat_map(str::split_whitespace).collect();
            assert_eq!(accepted.len(), if refusal.is_none() { 2 } else { 1 });
            (union.len(), refusal.map(|refusal| refusal.cause as u8))
        })
        .collect();
    assert_eq!(ends, [(10, None), (11, None), (12, Some(9))].into());
}

fn ranged_steps(name: &str) -> Vec<(Set, RangedStep, Accepted)> {
    bodies(name, |field| if let Field::Ranged(ranged) = field { Some(ranged.clone()) } else { None })
}

/// By how much the half-widths widen each coordinate.
fn widened(before: &Set, ranged: &RangedStep, after: &Set) -> Vec<i128> {
    let exact = image(&ranged.step, &ranged.step.exactly(), before).set;
    after.radii().iter().zip(exact.radii()).map(|(wide, narrow)| wide - narrow).collect()
}

/// A rounding of the gain by itself would be noticed: it often makes one more than what is added.
#[test]
fn ranges_widen_by_much_and_by_little_and_round_once() {
    let (mut by_much, mut by_little, mut rounded_once) = (0, 0, 0);
    for (before, ranged, field) in ranged_steps("ranges") {
        for (i, by) in widened(&before, &ranged, &field.set).into_iter().enumerate() {
            let spans: Vec<i128> = (0..before.dimension()).map(|j| before.span(j)).collect();
            let (row, form) = (&ranged.half_widths.matrix[i], &ranged.half_widths.forms[i]);
            let products: i128 = form.iter().zip(&spans).map(|(row, s)| s * dot(row, &spans)).sum();
            let gain = UNIT * dot(row, &spans) + products;
            assert!((by - 1) * SQUARE_UNIT < gain && gain < (by + 1) * SQUARE_UNIT);
            by_much += usize::from(by > 4 * UNIT);
            by_little += usize::from(by > 0 && by < UNIT);
            rounded_once += usize::from(by * SQUARE_UNIT < gain);
        }
    }
    assert!(by_much > 100 && by_little > 50 && rounded_once > 100, "{by_much} {by_little} {rounded_once}");
}

#[test]
fn full_ranges_have_every_entry_on_the_fullest_set() {
    let full = |(before, ranged, field): &(Set, RangedStep, Accepted)| {
        let RangedStep { step, half_widths } = ranged;
        let nonzero = |numbers: &Vec<i128>| numbers.len() == 6 && numbers.iter().all(|v| *v != 0);
        let entries = step.matrix.iter().chain(&half_widths.matrix);
        let forms = step.forms.iter().chain(&half_widths.forms).flatten();
        [before.identifiers.len(), before.terms.len(), before.generators.len()]
            == [MAX_FACTORS, MAX_TERMS, MAX_GENERATORS]
            && entries.chain(forms).filter(|row| nonzero(row)).count() == 2 * (6 + 36)
            && field.folds.by_exponent + field.folds.by_size > 700
    };
    assert_eq!(ranged_steps("full-ranges").iter().filter(|step| full(step)).count() as u64, SEEDS);
}

/// An accepted entry and its half-width that are 32,768 together, and half-widths that are all 0.
#[test]
fn odd_ranges_reach_the_limit_and_zero() {
    let steps: Vec<RangedStep> = ranged_steps("odd-ranges").into_iter().map(|(_, ranged, _)| ranged).collect();
    let at_limit = |RangedStep { step, half_widths }: &&RangedStep| {
        let matrix = step.matrix.iter().zip(&half_widths.matrix);
        let forms = step.forms.iter().flatten().zip(half_widths.forms.iter().flatten());
        let mut rows = matrix.chain(forms);
        rows.any(|(row, widths)| row.iter().zip(widths).any(|(a, width)| *width > 0 && a.abs() + width == ENTRY_LIMIT))
    };
    assert!(steps.iter().filter(at_limit).count() > 2);
    assert!(steps.iter().filter(|ranged| ranged.half_widths == ranged.step.exactly()).count() > 4);
}

/// What the gain, or a hull's rounding, leaves of the span: one unit, nothing, or one too little.
#[test]
fn limits_have_ranged_steps_and_hulls_on_both_sides_of_the_span() {
    for sign in [0, 78] {
        // The span of the last accepted set: where the field is refused, of the one before it.
        for (first, before) in [(72, UNIT), (54, SPAN_LIMIT)] {
            let ends = [first, first + 1, first + 2].map(|seed| {
                let (accepted, refusal) = run(&kind("limits").file(sign + seed));
                (accepted.last().map(|field| field.set.span(0)), refusal.map(|refusal| refusal.cause as u8))
            });
            assert_eq!(ends, [(Some(SPAN_LIMIT - 1), None), (Some(SPAN_LIMIT), None), (Some(before), Some(10)),]);
        }
    }
}

#[test]
fn each_refusal_is_hit_by_its_kind() {
    for kind in &REFUSED {
        let mut at_start = false;
        for seed in seeds(kind) {
            let (accepted, refusal) = run(&kind.file(seed));
            let number = refusal.expect("refused").cause as u8;
            assert_eq!(format!("refusal-{number}"), kind.name, "seed {seed}");
            at_start |= accepted.is_empty();
        }
        let never_first = ["refusal-5", "refusal-9", "refusal-10", "refusal-12", "refusal-14"].contains(&kind.name);
        assert_eq!(at_start, !never_first, "{}", kind.name);
    }
}

/// Tags of the fields that a kind has refused.
fn refused_tags(name: &str) -> BTreeSet<u8> {
    let file_and_place = |seed| {
        let bytes = kind(name).file(seed);
        let place = run(&bytes).1.map(|refusal| refusal.place);
        place.and_then(|place| bytes.get(place).copied())
    };
    (0..300).filter_map(file_and_place).collect()
}

#[test]
fn refusals_come_in_fields_of_every_kind_that_can_have_them() {
    assert_eq!(refused_tags("refusal-1"), (1..=9).collect());
    assert_eq!(refused_tags("refusal-3"), (1..=9).collect());
    assert_eq!(refused_tags("refusal-4"), (1..=9).collect());
    assert_eq!(refused_tags("refusal-5"), [2, 3, 4, 5, 7, 8, 9].into());
    assert_eq!(refused_tags("refusal-6"), [1, 2, 3, 4, 5, 7, 8, 9].into());
    assert_eq!(refused_tags("refusal-7"), [1, 4, 5, 8].into());
    assert_eq!(refused_tags("refusal-8"), [1, 4, 5, 8].into());
    assert_eq!(refused_tags("refusal-9"), [4, 5, 8].into());
    assert_eq!(refused_tags("refusal-10"), [2, 3, 4, 5, 8, 9].into());
    assert_eq!(refused_tags("refusal-14"), [3].into());
}

/// How files of a kind end: with 0 for the end of input between fields, else the refusal's number.
fn endings(name: &str, seeds: u64) -> BTreeSet<u8> {
    let ending = |seed| run(&kind(name).file(seed)).1.map_or(0, |refusal| refusal.cause as u8);
    (0..seeds).map(ending).collect()
}

#[test]
fn other_kinds_end_in_every_way_they_can() {
    assert!(endings("order", 400).is_superset(&[1, 2, 3, 4, 5, 6, 7, 8, 9, 12, 14].into()));
    assert_eq!(endings("zeros", 200), [0, 1, 2, 3, 4, 5, 6, 10, 12, 14].into());
    assert_eq!(endings("limits", 156), [0, 6, 8, 10, 14].into());
    assert_eq!(endings("counts", 66), [0, 4, 5, 7, 9, 12].into());
    assert_eq!(endings("odd-ranges", 200), [0, 3, 4, 5, 6, 10].into());
    assert!(endings("lengths", 200).is_superset(&[1, 2, 3, 4].into()));
    assert_eq!(endings("plain-4098", 2), [12].into());
    assert!(endings("cut", 200).is_superset(&[0, 1].into()));
    assert!(endings("damaged", 400).is_superset(&[0, 1, 2, 3, 6, 7, 8].into()));
    assert!(endings("bytes", 200).is_superset(&[1, 2, 3, 4, 6, 7].into()));
}
