//! Hulls worked out by hand from document 02, A.1; what their refusals are about stands with the other refusals.

use crate::common::{accepted, encoded, factors, last_line, radius_lines};
use peer::set::{RadiusParts, Set};
use peer::text::sets;
use run_file::Term;

/// What `sets` prints for the second of two fields.
fn after(plan: &str) -> String {
    let text = sets(&encoded(plan));
    let begin = text.find("\n1 8 ").expect("a hull") + 1;
    text[begin..].trim_end_matches("folded 0 0 0 0 0 0\nend 1\n").to_string()
}

/// 4096·a and the point 4096: (4096a + 4096)/2 and, with the new factor, (4096a - 4096)/2.
#[test]
fn a_line_and_a_point() {
    let set = after("start 1\nidentifiers 1\nterm 1 : 4096\nhull 1\ncentre 4096");
    let parts = "identifiers 1 65536\n  centre 2048\n  term 0 1 : -2048\n  term 1 0 : 2048\n  term 1 1 : 2048\n";
    assert_eq!(set, format!("1 8 -4096 8192\n  {parts}{}  mark 65537\n", radius_lines(0, 0, 0, 0)));
}

/// The same with the point first: the centre stays, and what the new factor stands with changes its sign.
#[test]
fn a_point_and_a_line() {
    let set = after("start 1\ncentre 4096\nhull 1\nidentifiers 1\nterm 1 : 4096");
    let parts = "identifiers 1 65536\n  centre 2048\n  term 0 1 : 2048\n  term 1 0 : 2048\n  term 1 1 : -2048\n";
    assert_eq!(set, format!("1 8 -4096 8192\n  {parts}{}  mark 65537\n", radius_lines(0, 0, 0, 0)));
}

/// 1 + 3a and 2 - 5a. The centre 3/2 goes to 2, the difference -1/2 to 0; a has 3/2 and -5/2, which go to 2 and -2 and
/// cancel; with the new factor it has 3/2 and 5/2, which both go to 2. All six are inexact.
#[test]
fn each_half_rounds_alone_and_counts_even_where_nothing_is_left_of_it() {
    let set = after("start 1\nidentifiers 1\ncentre 1\nterm 1 : 3\nhull 1\nidentifiers 1\ncentre 2\nterm 1 : -5");
    let parts = "identifiers 1 65536\n  centre 2\n  term 1 1 : 4\n";
    assert_eq!(set, format!("1 8 -5 9\n  {parts}{}  mark 65537\n", radius_lines(0, 3, 0, 0)));
}

/// Odd in the first coordinate only: 3·a there rounds twice, the centres' 5 and -3 in the second not at all.
#[test]
fn roundings_count_by_coordinate() {
    let run = accepted("start 2\nidentifiers 1\ncentre 0 5\nterm 1 : 3 2\nhull 2\ncentre 0 -3");
    let term = |exponents: &[u32], coefficients: [i128; 2]| Term {
        exponents: exponents.to_vec(),
        coefficients: coefficients.to_vec(),
    };
    assert_eq!(run[1].set.centre, [0, 1]);
    assert_eq!(run[1].set.terms, [term(&[0, 1], [0, 4]), term(&[1, 0], [2, 1]), term(&[1, 1], [2, 1])]);
    assert_eq!(run[1].set.radii(), [1, 0]);
}

/// Parts of 3 + 2 + 1 and 1 + 1 + 0 in the one set, of 1 + 0 and 4 + 3 in the other. They are not halved.
#[test]
fn the_larger_independent_part_of_each_coordinate_is_the_radius() {
    let first = "start 2\ngenerator 3 -1\ngenerator 2 1\nradii 1 0\n";
    let run = accepted(&format!("{first}hull 2\ngenerator -1 4\nradii 0 3"));
    assert_eq!((run[1].set.radii(), run[1].set.generators.len()), (vec![6, 7], 0));
    assert_eq!((run[1].set.identifiers.len(), run[1].mark), (0, 65_537));
}

#[test]
fn equal_identifiers_stay_one_factor() {
    let terms = |identifier: usize| {
        let plan = format!("start 1\nidentifiers 1\nterm 1 : 8\nhull 1\nidentifiers {identifier}\nterm 1 : 4");
        let set = accepted(&plan).remove(1).set;
        let term = |term: &Term| (term.exponents.clone(), term.coefficients[0]);
        (set.identifiers.clone(), set.terms.iter().map(term).collect::<Vec<_>>())
    };
    assert_eq!(terms(1), (vec![1, 65_536], vec![(vec![1, 0], 4 + 2), (vec![1, 1], 4 - 2)]));
    let apart = [(vec![0, 1, 0], 2), (vec![0, 1, 1], -2), (vec![1, 0, 0], 4), (vec![1, 0, 1], 4)];
    assert_eq!(terms(2), (vec![1, 2, 65_536], apart.to_vec()));
}

/// The set stays as it is, its radius now carried over; the new factor's number is used all the same, and a sum after
/// it takes the next one.
#[test]
fn the_new_factor_vanishes_where_both_sets_are_equal() {
    let body = "1\nidentifiers 1\ncentre 7\nterm 1 : 6\nradii 2\n";
    let run = accepted(&format!("start {body}hull {body}independent {body}hull {body}"));
    let carried = vec![RadiusParts { carried: 2, ..RadiusParts::default() }];
    assert_eq!(run[1].set, Set { radius_parts: carried, ..run[0].set.clone() });
    assert_eq!(run.iter().map(|field| field.mark).collect::<Vec<_>>(), [65_536, 65_537, 65_538, 65_539]);
    assert_eq!(run[2].set.identifiers, [1, 65_537]);
    assert_eq!(run[3].set.identifiers, [1, 65_537, 65_538]);
}

/// Every coefficient is 5 after the halving. Of the 80 terms those of a to a^20 stay; of a^21 to a^40 the ten even
/// powers move the centre by 2 and add 3 each, the other thirty add 5.
#[test]
fn the_later_of_equal_terms_fold() {
    let terms: String = (1..=40).map(|e| format!("term {e} : 10\n")).collect();
    let run = accepted(&format!("start 1\nidentifiers 1\n{terms}hull 1"));
    let set = &run[1].set;
    assert_eq!((set.centre[0], set.radii()[0]), (10 * 2, 10 * 3 + 30 * 5));
    let kept: Vec<Vec<u32>> = (1..=20).flat_map(|e| [vec![e, 0], vec![e, 1]]).collect();
    assert_eq!(set.terms.iter().map(|term| term.exponents.clone()).collect::<Vec<_>>(), kept);
}

#[test]
fn the_union_and_the_new_factor_are_at_most_12() {
    let hull = |first: usize, from: usize, count: usize| {
        let start = factors("start", 1, first);
        let place = encoded(&start).len();
        let body = if count == 0 { "hull 1\ncentre 4".to_string() } else { factors("hull", from, count) };
        last_line(&encoded(&(start + &body))).replace(&place.to_string(), "here")
    };
    assert_eq!(hull(8, 9, 3), "end 1");
    assert_eq!(hull(8, 9, 4), "1 refused 9 here");
    assert_eq!(hull(8, 8, 4), "end 1", "a shared identifier counts once");
    assert_eq!(hull(8, 8, 5), "1 refused 9 here");
    assert_eq!(hull(11, 1, 11), "end 1");
    assert_eq!(hull(11, 0, 0), "end 1");
    assert_eq!(hull(12, 0, 0), "1 refused 9 here", "the new factor alone is too many");
}

/// Halves of even numbers leave the span as it was; of an odd one they widen it. 1048575·a has 524287 1/2, which goes
/// to 524288, four times: 1048576·a, nothing with the new factor, and radius 2.
#[test]
fn rounding_alone_can_make_the_result_too_wide() {
    let with_itself = |centre: i128, g: i128| {
        let body = format!("1\nidentifiers 1\ncentre {centre}\nterm 1 : {g}\n");
        last_line(&encoded(&format!("start {body}hull {body}")))
    };
    assert_eq!(with_itself(0, 1_048_576), "end 1");
    for sign in [1, -1] {
        assert_eq!(with_itself(0, sign * 1_048_575), "1 refused 10 24");
        assert_eq!(with_itself(0, sign * 1_048_573), "end 1", "halves go to 524286: 1048572 and 2 are 1048574");
        assert_eq!(with_itself(sign * 2, 1_048_571), "end 1", "2, 1048572 and 2 are 1048576");
        assert_eq!(with_itself(sign * 3, 1_048_571), "1 refused 10 24", "3, 1048572 and 2 are 1048577");
    }
}
