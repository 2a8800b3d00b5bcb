//! Document 01's listing, its variants, its table as document 02's A.3 has it, and the cases marked 'run only'.

use crate::common::{encoded, factors, last_line, radius_lines};
use peer::bounds::bounding_box;
use peer::finish::{finish, fold_term, FULL};
use peer::run::Run;
use peer::set::{all_given, Set};
use peer::step::round;
use peer::text::{motion, sets};
use run_file::{Reduction, Term};

/// The listing byte by byte, with the check's b and the last field's tag to vary.
fn listing(b: i64, sum: u8) -> Vec<u8> {
    let body = [1, 1, 1, 0, 1, 0, 0, 0, 0, 0, 0, 0, 1, 0, 16, 0, 0, 0, 0, 0, 0];
    let mut bytes = vec![1, 21, 0];
    bytes.extend(body);
    bytes.extend([2, 14, 0, 1, 1, 0, 0, 0, 0, 0, 240, 255, 255, 0, 16, 0, 0]);
    bytes.extend([7, 14, 0, 1, 1, 0, 16, 0, 0]);
    bytes.extend(b.to_le_bytes());
    bytes.extend([sum, 21, 0]);
    bytes.extend(body);
    bytes
}

#[test]
fn listing_prints_the_documents_lines() {
    let lines = "0 1 -4096 4096\n1 2 -4096 8192\n2 7 safe\n3 5 0 4096\nfolded 0 0 0 0 0 0\nend 3\n";
    assert_eq!(motion(&listing(-16_777_217, 5)), lines);
}

#[test]
fn lower_end_equal_to_b_is_unknown() {
    let lines = "0 1 -4096 4096\n1 2 -4096 8192\n2 7 unknown\n3 5 0 4096\nfolded 0 0 0 0 0 0\nend 3\n";
    assert_eq!(motion(&listing(-16_777_216, 5)), lines);
}

#[test]
fn independent_sum_cancels_nothing() {
    let lines = "0 1 -4096 4096\n1 2 -4096 8192\n2 7 safe\n3 4 -8192 12288\nfolded 0 0 0 0 0 0\nend 3\n";
    assert_eq!(motion(&listing(-16_777_217, 4)), lines);
    let set = "  identifiers 1 65536\n  centre 0\n  term 0 1 : 4096\n  term 1 0 : -4096\n  term 2 0 : 4096\n";
    let rest = format!("{}  mark 65537\nfolded 0 0 0 0 0 0\nend 3\n", radius_lines(0, 0, 0, 0));
    assert!(sets(&listing(-16_777_217, 4)).ends_with(&format!("3 4 -8192 12288\n{set}{rest}")));
}

#[test]
fn unindented_lines_of_sets_are_those_of_motion() {
    let bytes = listing(-16_777_217, 4);
    let lines: String =
        sets(&bytes).lines().filter(|line| !line.starts_with(' ')).map(|line| format!("{line}\n")).collect();
    assert_eq!(lines, motion(&bytes));
}

#[test]
fn rounding() {
    assert_eq!([8_388_608, 8_388_607, -8_388_608, -8_388_609].map(round), [0, 0, 0, -1]);
    assert_eq!([25_165_824, -25_165_824].map(round), [2, -2]);
}

fn term(exponents: &[u32], coefficients: &[i128]) -> Term {
    Term { exponents: exponents.to_vec(), coefficients: coefficients.to_vec() }
}

#[test]
fn folds() {
    let folded = |g| {
        let (mut centre, mut radii) = ([0], [0]);
        fold_term(&term(&[2], &[g]), &mut centre, &mut radii);
        (centre[0], radii[0])
    };
    assert_eq!(folded(3), (1, 2));
    assert_eq!(folded(-3), (-1, 2));
    let (mut centre, mut radii) = ([0], [0]);
    fold_term(&term(&[1, 1], &[-3]), &mut centre, &mut radii);
    assert_eq!((centre, radii), ([0], [3]), "a product of two odd powers is not even");
}

#[test]
fn half_a_unit_times_one_grain_leaves_radius_one_alone() {
    let bytes = encoded("start 1\nidentifiers 1\nterm 1 : 1\nstep 1 from 1\nA 2048");
    let rest = format!("{}  mark 65536\nfolded 0 0 0 0 0 0\nend 1\n", radius_lines(0, 1, 0, 0));
    let after = format!("1 2 -1 1\n  identifiers\n  centre 0\n{rest}");
    assert!(sets(&bytes).ends_with(&after), "{}", sets(&bytes));
}

#[test]
fn span_of_a_given_set() {
    let start = |centre: i32| encoded(&format!("start 1\nidentifiers 1\ncentre {centre}\nterm 1 : 1"));
    assert_eq!(last_line(&start(1_048_575)), "end 0");
    assert_eq!(last_line(&start(1_048_576)), "0 refused 8 0");
    assert_eq!(last_line(&start(-1_048_575)), "end 0");
    assert_eq!(last_line(&start(i32::MIN)), "0 refused 8 0");
}

#[test]
fn exponents_that_add_to_64_fold_as_even() {
    let bytes = encoded("start 1\nidentifiers 1\nterm 32 : 4096\nstep 1 from 1\nQ 1 : 4096");
    let rest = format!("{}  mark 65536\nfolded 2048 0 0 0 0 0\nend 1\n", radius_lines(0, 0, 2048, 0));
    let after = format!("1 2 0 4096\n  identifiers\n  centre 2048\n{rest}");
    assert!(sets(&bytes).ends_with(&after), "{}", sets(&bytes));
}

#[test]
fn exponent_limit() {
    let start = |e: u32| last_line(&encoded(&format!("start 1\nidentifiers 1\nterm {e} : 1")));
    assert_eq!(start(63), "end 0");
    assert_eq!(start(64), "0 refused 6 0");
}

#[test]
fn factors_of_a_sum() {
    let sum = |kind: &str, first: usize, count: usize| {
        last_line(&encoded(&(factors("start", 1, 8) + &factors(kind, first, count))))
    };
    assert_eq!(sum("independent", 1, 4), "end 1");
    assert_eq!(sum("independent", 1, 5), "1 refused 9 143");
    assert_eq!(sum("tied", 9, 4), "end 1");
    assert_eq!(sum("tied", 9, 5), "1 refused 9 143");
    assert_eq!(sum("tied", 8, 5), "end 1", "a shared identifier counts once");
}

#[test]
fn product_of_two_factors_reaches_both_ends() {
    let bytes = encoded("start 1\nidentifiers 1 2\nterm 1 1 : 5\n");
    assert_eq!(motion(&bytes), "0 1 -5 5\nfolded 0 0 0 0 0 0\nend 0\n");
}

#[test]
fn finishing_drops_the_smallest_of_equals_the_later() {
    let set = Set {
        identifiers: vec![1, 2, 3],
        centre: vec![0, 0],
        terms: vec![term(&[0, 0, 1], &[1, 0]), term(&[0, 1, 0], &[0, 4]), term(&[1, 0, 0], &[1, 1])],
        generators: vec![vec![0, 3], vec![-1, 0], vec![0, 4], vec![2, 0]],
        radius_parts: all_given([0, 0]),
    };
    let finished = finish(set.clone(), Reduction { terms: 2, generators: 2 });
    assert_eq!(finished.set.terms, [term(&[0, 1], &[1, 0]), term(&[1, 0], &[1, 1])]);
    assert_eq!(finished.set.identifiers, [1, 3], "the folded term's factor occurs nowhere else");
    assert_eq!(finished.set.generators, [vec![-1, 0], vec![2, 0]]);
    assert_eq!(finished.kept, [1, 3]);
    assert_eq!((finished.set.radii(), finished.folded), (vec![0, 4 + 3 + 4], vec![0, 4 + 3 + 4]));
    assert_eq!(finish(set.clone(), FULL).set, set, "a valid set is its own finished form");
}

/// -3a² moves the centre by -1 and adds 2 to the radius: 1048574 and 2 are as wide as 1048573 and 3 were.
#[test]
fn a_fold_leaves_the_widest_set_as_wide_as_it_was() {
    let reduced = |centre: &str, g: &str| {
        let plan = format!("start 1\nidentifiers 1\ncentre {centre}\nterm 2 : {g}\nreduce 0 0");
        motion(&encoded(&plan))
    };
    assert_eq!(reduced("-1048573", "-3"), "0 1 -1048576 -1048573\n1 6 -1048576 -1048572\nfolded 2 0 0 0 0 0\nend 1\n");
    assert_eq!(reduced("1048573", "3"), "0 1 1048573 1048576\n1 6 1048572 1048576\nfolded 2 0 0 0 0 0\nend 1\n");
}

#[test]
fn the_inexact_count_takes_in_what_rounds_to_zero_and_what_is_folded() {
    // Centre, both terms, the generator and the three pairs: 0, 1, 1, 1 and 1, 1, 1 are inexact.
    let bytes =
        encoded("start 1\nidentifiers 1 2\nterm 0 1 : 1\nterm 1 0 : 1\ngenerator 1\nstep 1 from 1\nA 1\nQ 1 : 1");
    let accepted: Vec<_> = Run::new(&bytes).map(|item| item.expect("accepted")).collect();
    let set = &accepted[1].set;
    // S = 1·(2·1 + 1·2 + 1·1) = 5, which is less than a grain; half of 6 counted is 3.
    assert_eq!((&set.terms, &set.generators, set.radii()), (&vec![], &vec![], vec![1 + 3]));
}

#[test]
fn a_pair_of_terms_takes_the_form_both_ways() {
    let step = "step 1 from 2\nQ 1 : 0 12288 / 4096 0";
    let bytes = encoded(&format!("start 2\nidentifiers 1 2\nterm 0 1 : 0 4096\nterm 1 0 : 4096 0\n{step}"));
    let rest = format!("{}  mark 65536\nfolded 0 0 0 0 0 0\nend 1\n", radius_lines(0, 0, 0, 0));
    let after = format!("1 2 -16384 16384\n  identifiers 1 2\n  centre 0\n  term 1 1 : 16384\n{rest}");
    assert!(sets(&bytes).ends_with(&after), "{}", sets(&bytes));
}

#[test]
fn mark_never_falls() {
    let one = "identifiers 7\nterm 1 : 5\n";
    let bytes = encoded(&format!("start 1\n{one}independent 1\n{one}reduce 0 0\nindependent 1\n{one}"));
    let accepted: Vec<_> = Run::new(&bytes).map(|item| item.expect("accepted")).collect();
    assert_eq!(accepted.iter().map(|a| a.mark).collect::<Vec<_>>(), [65_536, 65_537, 65_537, 65_538]);
    assert_eq!(accepted[3].set.identifiers, [65_537]);
    assert_eq!(bounding_box(&accepted[3].set), [(-15, 15)]);
}
