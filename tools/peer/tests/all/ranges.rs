//! Ranged steps worked out by hand from document 02, A.2; what their refusals are about stands with the other refusals.

use crate::common::{accepted, encoded, radius_lines};
use peer::run::{Accepted, Run};
use peer::set::{RadiusParts, Set};
use peer::step::image;
use peer::text::sets;
use run_file::{Field, RangedStep, Tag};
use trials::generate::VALID;

/// The set after the second of two fields.
fn after(plan: &str) -> Set {
    accepted(plan).remove(1).set
}

/// The radius after a ranged step to one coordinate with zeros for entries, which leave nothing else of the set.
fn radius(start: &str, half_widths: &str) -> i128 {
    let set = after(&format!("start {start}\nranged 1 from {}\n{half_widths}", &start[..1]));
    assert_eq!((set.centre[0], set.terms.len(), set.generators.len()), (0, 0, 0));
    set.radii()[0]
}

/// The span is 10 + 20 + 5 + 3 = 38, of which a quarter is 9 1/2; the radius itself stays 3: 12 1/2 rounded up.
#[test]
fn every_part_of_the_span_counts() {
    let start = "start 1\nidentifiers 1\ncentre -10\nterm 1 : 20\ngenerator -5\nradii 3\n";
    let text = sets(&encoded(&format!("{start}ranged 1 from 1\nA 4096\nA+- 1024")));
    let parts = "identifiers 1\n  centre -10\n  term 1 : 20\n  generator -5\n";
    let rest = format!("{}  mark 65536\nfolded 0 0 0 0 0 0\nend 1\n", radius_lines(13, 0, 0, 0));
    assert!(text.ends_with(&format!("\n1 9 -48 28\n  {parts}{rest}")), "{text}");
}

#[test]
fn each_part_of_the_span_alone() {
    for part in ["centre -8", "identifiers 1\nterm 1 : -8", "identifiers 1\nterm 2 : 8", "generator -8", "radii 8"] {
        assert_eq!(radius(&format!("1\n{part}"), "A+- 2048"), 4, "{part}");
    }
}

/// 4/2 + 8/4 in the first coordinate, 8 in the second, none in the third.
#[test]
fn a_row_of_half_widths_takes_each_coordinates_span() {
    let set = after("start 2\ncentre 4 -8\nranged 3 from 2\nA+- 2048 1024 / 0 4096 / 0 0");
    assert_eq!((set.radii(), set.centre), (vec![2 + 2, 8, 0], vec![0, 0, 0]));
}

/// Spans of 1 and 2 units: 1·2/2 and 2·1/4, 1·1 or 2·2 units.
#[test]
fn a_form_of_half_widths_takes_the_product_of_two_spans() {
    let start = "2\ncentre 4096 0\nradii 0 8192";
    assert_eq!(radius(start, "Q+- 1 : 0 2048 / 1024 0"), 4096 + 2048);
    assert_eq!(radius(start, "Q+- 1 : 4096 0 / 0 0"), 4096);
    assert_eq!(radius(start, "Q+- 1 : 0 0 / 0 4096"), 4 * 4096);
    let set = after(&format!("start {start}\nranged 2 from 2\nQ+- 2 : 4096 0 / 0 0"));
    assert_eq!(set.radii(), [0, 4096]);
}

/// A radius of 1 becomes 1/4, to which a half-width adds another 1/4: a half, rounded up once.
#[test]
fn what_the_half_widths_add_is_not_rounded_by_itself() {
    assert_eq!(after("start 1\nradii 1\nranged 1 from 1\nA -1024\nA+- 1024").radii(), [1]);
    assert_eq!(after("start 1\nradii 1\nranged 1 from 1\nA -3072\nA+- 1024").radii(), [1]);
    assert_eq!(after("start 1\nradii 1\nranged 1 from 1\nA -3072\nA+- 1025").radii(), [2]);
    // 64·32/4096 is a half, and so is 64²·2048/16,777,216.
    assert_eq!(radius("1\ncentre 64", "A+- 32"), 1);
    assert_eq!(radius("1\ncentre 64", "Q+- 1 : 2048"), 1);
    assert_eq!(radius("1\ncentre 64", "A+- 32\nQ+- 1 : 2048"), 1);
    assert_eq!(radius("1\ncentre 64", "A+- 32\nQ+- 1 : 2049"), 2);
    assert_eq!(radius("1\ncentre 1", "Q+- 1 : 1"), 1, "as little as there can be");
}

/// a/4 rounds to 0: half the count of inexact roundings is rounded up by itself, and so is the quarter that is gained.
#[test]
fn inexact_roundings_are_counted_as_in_a_step() {
    let set = after("start 1\nidentifiers 1\nterm 1 : 1\nranged 1 from 1\nA 1024\nA+- 1024");
    assert_eq!((set.terms.len(), set.radii()[0]), (0, 1 + 1));
}

/// The spans before the step count, not those of its image.
#[test]
fn the_constant_and_the_entries_do_not_count() {
    let start = "start 1\nidentifiers 1\nterm 1 : 8\n";
    let gained = |step: &str| after(&format!("{start}ranged 1 from 1\n{step}A+- 2048")).radii()[0];
    assert_eq!([gained(""), gained("c 100\n"), gained("A 16384\n"), gained("A -16384\n")], [4; 4]);
}

/// What a run becomes when each of its steps is written as a ranged one with half-widths of 0.
fn with_ranged_steps(fields: &[Accepted]) -> Vec<u8> {
    let ranged = |field: &Field| match field {
        Field::Step(step) => Field::Ranged(RangedStep { half_widths: step.exactly(), step: step.clone() }),
        other => other.clone(),
    };
    fields.iter().flat_map(|accepted| ranged(&accepted.field).encode()).collect()
}

#[test]
fn half_widths_of_zero_give_the_steps_set() {
    let mut steps = 0;
    for kind in VALID.iter().filter(|kind| !kind.long) {
        for seed in 0..6 {
            let fields: Vec<Accepted> = Run::new(&kind.file(seed)).map(|item| item.expect("accepted")).collect();
            let bytes = with_ranged_steps(&fields);
            let ranged: Vec<Accepted> = Run::new(&bytes).map(|item| item.expect("accepted")).collect();
            assert_eq!(ranged.len(), fields.len());
            for (step, ranged) in fields.iter().zip(&ranged) {
                let answer = |field: &Accepted| (field.set.clone(), field.outcome.clone(), field.mark);
                assert_eq!(answer(step), answer(ranged), "{} {seed}", kind.name);
                steps += usize::from((step.field.tag(), ranged.field.tag()) == (Tag::Step, Tag::Ranged));
            }
        }
    }
    assert!(steps > 200, "{steps}");
}

/// Half-widths change nothing but what radii carry over, and that only where they are.
#[test]
fn half_widths_widen_what_is_carried_alone() {
    for seed in 0..12 {
        let bytes = VALID.iter().find(|kind| kind.name == "ranges").expect("a kind").file(seed);
        let fields: Vec<Accepted> = Run::new(&bytes).map(|item| item.expect("accepted")).collect();
        for pair in fields.windows(2) {
            if let Field::Ranged(RangedStep { step, half_widths }) = &pair[1].field {
                let (exact, set) = (image(step, &step.exactly(), &pair[0].set).set, &pair[1].set);
                let apart_from_radii = |set: &Set| Set { radius_parts: Vec::new(), ..set.clone() };
                assert_eq!(apart_from_radii(&exact), apart_from_radii(set));
                for i in 0..set.dimension() {
                    let mut widths = half_widths.matrix[i].iter().chain(half_widths.forms[i].iter().flatten());
                    let (parts, exact) = (set.radius_parts[i], exact.radius_parts[i]);
                    assert!(parts.carried >= exact.carried);
                    assert!(widths.any(|width| *width > 0) || parts.carried == exact.carried);
                    assert_eq!(RadiusParts { carried: exact.carried, ..parts }, exact);
                }
            }
        }
    }
}
