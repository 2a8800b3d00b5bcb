//! Where a radius comes from (document 02, A.4): its four parts, operation by operation, and the totals of folding.

use crate::common::{accepted, encoded, totals_line};
use peer::finish::finish;
use peer::run::{Outcome, FIRST_MARK};
use peer::set::{RadiusParts, Set};
use peer::sums::{independent_sum, tied_sum};
use peer::text::motion;
use run_file::{Reduction, Term};

/// Carried, rounded, folded and given, of each coordinate.
pub type Parts = Vec<[i128; 4]>;

pub fn parts(set: &Set) -> Parts {
    set.radius_parts.iter().map(|parts| [parts.carried, parts.rounded, parts.folded, parts.given]).collect()
}

/// The parts after each field of a plan in one coordinate.
fn each(plan: &str) -> Parts {
    accepted(plan).iter().flat_map(|field| parts(&field.set)).collect()
}

#[test]
fn a_start_set_and_a_disturbance_are_given() {
    let run = accepted("start 2\nradii 3 0\ndisturbance 2\nradii 5 7");
    assert_eq!(parts(&run[0].set), [[0, 0, 0, 3], [0, 0, 0, 0]]);
    assert_eq!(parts(&run[1].set), [[0, 0, 0, 8], [0, 0, 0, 7]]);
}

/// Halves of 1 + 3a + 5p ± 7: 7/2 is carried and rounded up, and three roundings are inexact. Then the whole radius is
/// carried, and what is given after that is by itself.
#[test]
fn a_step_carries_and_rounds() {
    let start = "start 1\nidentifiers 1\ncentre 1\nterm 1 : 3\ngenerator 5\nradii 7\n";
    let steps = "step 1 from 1\nA 2048\nstep 1 from 1\nA 4096\ndisturbance 1\nradii 9";
    assert_eq!(each(&format!("{start}{steps}")), [[0, 0, 0, 7], [4, 2, 0, 0], [6, 0, 0, 0], [6, 0, 0, 9]]);
}

/// 7/2 and a quarter of the span of 10 are 6; 3a/2 is inexact.
#[test]
fn half_widths_add_to_what_a_ranged_step_carries() {
    let start = "start 1\nidentifiers 1\nterm 1 : 3\nradii 7\n";
    assert_eq!(each(&format!("{start}ranged 1 from 1\nA 2048\nA+- 1024"))[1], [6, 1, 0, 0]);
}

/// 192a³² squared is 9a⁶⁴, which moves the centre by 4 and adds 5; the products with 3 are less than 1. A step after it
/// carries all of that.
#[test]
fn what_a_step_folds_is_folded_until_the_next_step() {
    for kind in ["step", "ranged"] {
        let start = "start 1\nidentifiers 1\nterm 32 : 192\nradii 3\n";
        let plan = format!("{start}{kind} 1 from 1\nQ 1 : 4096\n{kind} 1 from 1\nA 4096");
        assert_eq!(each(&plan), [[0, 0, 0, 3], [1, 0, 5, 0], [6, 0, 0, 0]]);
        let run = accepted(&plan);
        assert_eq!(run.iter().map(|field| field.set.centre[0]).collect::<Vec<_>>(), [0, 4, 4]);
        assert_eq!(run.iter().map(|field| field.folded[0]).collect::<Vec<_>>(), [0, 5, 0]);
    }
}

/// 3a/2 is rounded twice. The larger of 2 + 1 and 5 is carried, and then of 6 and 2 + 2.
#[test]
fn a_hull_carries_the_larger_independent_part() {
    let start = "start 1\nidentifiers 1\nterm 1 : 3\ngenerator 2\nradii 1\n";
    let run = each(&format!("{start}hull 1\nradii 5\nhull 1\ncentre 8\ngenerator 2\nradii 2"));
    assert_eq!(run, [[0, 0, 0, 1], [5, 1, 0, 0], [6, 0, 0, 0]]);
}

/// Of the 80 terms of 5 that 40 of 10 become, 40 are folded, ten of them even; a reduction folds the others, of which
/// again ten are even. A hull after it carries all of that.
#[test]
fn what_a_hull_folds_is_folded_until_the_next_hull() {
    let terms: String = (1..=40).map(|e| format!("term {e} : 10\n")).collect();
    let run = each(&format!("start 1\nidentifiers 1\n{terms}radii 6\nhull 1\nradii 2\nreduce 0 0\nhull 1"));
    let forty = 30 * 5 + 10 * 3;
    assert_eq!(run, [[0, 0, 0, 6], [6, 0, forty, 0], [6, 0, 2 * forty, 0], [6 + 2 * forty, 0, 0, 0]]);
}

fn set_with(parts: [i128; 4], generators: &[i128]) -> Set {
    let [carried, rounded, folded, given] = parts;
    Set {
        identifiers: vec![1],
        centre: vec![0],
        terms: vec![Term { exponents: vec![1], coefficients: vec![7] }],
        generators: generators.iter().map(|g| vec![*g]).collect(),
        radius_parts: vec![RadiusParts { carried, rounded, folded, given }],
    }
}

#[test]
fn sums_add_like_parts() {
    let (first, second) = (set_with([1, 2, 3, 4], &[]), set_with([10, 20, 30, 40], &[]));
    for sum in [tied_sum(&first, &second), independent_sum(&first, &second, FIRST_MARK)] {
        let sum = sum.expect("few factors");
        assert_eq!((parts(&sum.set), sum.folded), (vec![[11, 22, 33, 44]], vec![0]));
    }
}

/// Of 25 generators the smallest is folded.
#[test]
fn what_a_sum_folds_joins_what_is_folded() {
    let (first, second) = (set_with([1, 2, 3, 4], &[6; 24]), set_with([10, 20, 30, 40], &[-5]));
    for sum in [tied_sum(&first, &second), independent_sum(&first, &second, FIRST_MARK)] {
        let sum = sum.expect("few factors");
        assert_eq!((parts(&sum.set), sum.folded), (vec![[11, 22, 33 + 5, 44]], vec![5]));
    }
}

#[test]
fn a_reduction_keeps_the_parts_and_folds() {
    let set = set_with([1, 2, 3, 4], &[6, -5]);
    let reduced = |terms, generators| {
        let finished = finish(set.clone(), Reduction { terms, generators });
        (parts(&finished.set)[0], finished.folded[0])
    };
    assert_eq!(reduced(1, 2), ([1, 2, 3, 4], 0));
    assert_eq!(reduced(1, 1), ([1, 2, 3 + 5, 4], 5));
    assert_eq!(reduced(0, 0), ([1, 2, 3 + 7 + 6 + 5, 4], 18));
}

/// 3 + 1 + 2 + 4 is what a box, a span and a step take, and what a check looks at, which changes nothing.
#[test]
fn all_parts_count() {
    let start = "start 1\nidentifiers 1\nterm 1 : 1\nradii 6\nstep 1 from 1\nA 2048\ntied 1\ngenerator 2\nreduce 0 0\n";
    let checks = "check 1\nhalfspace 4096 : -40961\ncheck 1\nhalfspace 4096 : -40960\n";
    let run = accepted(&format!("{start}disturbance 1\nradii 4\n{checks}step 1 from 1\nA 4096"));
    assert_eq!(run[4].outcome, Outcome::Box(vec![(-10, 10)]));
    assert_eq!(
        (&run[5].outcome, &run[6].outcome),
        (&Outcome::Verdict { safe: true }, &Outcome::Verdict { safe: false })
    );
    for field in &run[4..7] {
        assert_eq!((parts(&field.set), field.set.span(0)), (vec![[3, 1, 2, 4]], 10));
    }
    assert_eq!(parts(&run[7].set), [[10, 0, 0, 0]]);
}

/// 3a and the generator fold first: 3 + 2 and 0 + 4. The step exchanges the coordinates and with them -5 and 9 of a²,
/// which fold then and add 5 and 3.
const FOLDS: &str = "start 2\nidentifiers 1\nterm 1 : 3 0\nterm 2 : -5 9\ngenerator 2 -4\nreduce 1 0\n\
                     step 2 from 2\nA 0 4096 / 4096 0\nreduce 0 0\n";
const FOLDS_BOXES: &str = "0 1 -10 5 -4 13\n1 6 -10 5 -4 13\n2 2 -4 13 -10 5\n3 6 -5 13 -10 6\n";

#[test]
fn the_totals_are_over_all_fields_whatever_a_step_carries() {
    assert_eq!(motion(&encoded(FOLDS)), format!("{FOLDS_BOXES}folded 10 7 0 0 0 0\nend 3\n"));
    let run = accepted(FOLDS);
    assert_eq!(parts(&run[3].set), [[4, 0, 5, 0], [5, 0, 3, 0]]);
    assert_eq!(run.iter().map(|field| field.folded.clone()).collect::<Vec<_>>(), [[0, 0], [5, 4], [0, 0], [5, 3]]);
}

/// The last sum would fold one of 25 generators and is too wide.
#[test]
fn no_totals_after_a_refusal() {
    let refused = |field: &str| motion(&encoded(&format!("{FOLDS}{field}")));
    let place = encoded(FOLDS).len();
    assert_eq!(refused("reduce 41 0"), format!("{FOLDS_BOXES}4 refused 4 {place}\n"));
    let full = format!("tied 2\n{}", "generator 1 0\n".repeat(24));
    let place = place + encoded(&full).len();
    let last = format!("4 5 -29 37 -10 6\n5 refused 10 {place}\n");
    assert_eq!(refused(&format!("{full}tied 2\ngenerator 1 0\nradii 1048575 0")), format!("{FOLDS_BOXES}{last}"));
    assert_eq!(motion(&[]), "0 refused 1 0\n");
    assert_eq!(motion(&encoded("start 1\nradii -1")), "0 refused 6 0\n");
}

#[test]
fn a_run_that_folds_nothing_has_zeros() {
    assert_eq!(motion(&encoded("start 1\nradii 5")), "0 1 -5 5\nfolded 0 0 0 0 0 0\nend 0\n");
    let given = "start 6\nradii 1 2 3 4 5 6\ndisturbance 6\nradii 1 1 1 1 1 1";
    let carried_and_rounded = "start 1\nidentifiers 1\nterm 1 : 1\nstep 1 from 1\nA 2048\nhull 1\nradii 5";
    for plan in [given, carried_and_rounded] {
        assert_eq!(totals_line(&encoded(plan)), "folded 0 0 0 0 0 0");
    }
}

/// A total belongs to the coordinate's number, whatever a step makes of the coordinates.
#[test]
fn totals_of_up_to_six_coordinates() {
    let start = "start 6\ngenerator 1 2 3 4 5 6\nreduce 0 0\n";
    let totals = |plan: &str| totals_line(&encoded(&format!("{start}{plan}")));
    assert_eq!(totals(""), "folded 1 2 3 4 5 6");
    let one = "step 1 from 6\nA 0 0 0 0 0 4096\n";
    assert_eq!(totals(one), "folded 1 2 3 4 5 6");
    assert_eq!(totals(&format!("{one}tied 1\ngenerator 100\nreduce 0 0")), "folded 101 2 3 4 5 6");
}
