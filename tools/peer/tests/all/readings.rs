//! Agreed readings of open points that no other test shows; numbers as in READINGS.

use crate::common::{accepted, encoded, last_line};
use peer::text::motion;

/// 6: ranges are looked at over the whole body before rules and span.
#[test]
fn range_before_rules_and_span() {
    let plan = "start 1\nidentifiers 2 1\ncentre 2000000\nterm 0 0 : 0\nradii -1";
    assert_eq!(last_line(&encoded(plan)), "0 refused 6 0");
    assert_eq!(last_line(&encoded(&plan.replace("-1", "1"))), "0 refused 7 0");
}

/// 10: a disturbance changes nothing but the radii.
#[test]
fn disturbance_only_adds_radii() {
    let run = accepted("start 1\nidentifiers 1\nterm 2 : 3\ngenerator 2\nradii 1\ndisturbance 1\nradii 5");
    let mut widened = run[0].set.clone();
    widened.radius_parts[0].given = 6;
    assert_eq!(run[1].set, widened);
}

/// 11: of equal generators the later goes first, and a sum's body stands after the set.
#[test]
fn the_bodys_generators_are_the_later_ones() {
    let of = |numbers: &str, count: usize| format!("generator {numbers}\n").repeat(count);
    let run = accepted(&format!("start 2\n{}tied 2\n{}", of("1 0", 12), of("0 4", 13)));
    assert_eq!(run[1].set.generators, [vec![vec![1, 0]; 12], vec![vec![0, 4]; 12]].concat());
    assert_eq!(run[1].set.radii(), [0, 4]);
    let run = accepted(&format!("start 2\n{}tied 2\n{}", of("0 4", 12), of("1 0", 13)));
    assert_eq!(run[1].set.radii(), [1, 0]);
    let run = accepted(&format!("start 2\n{}tied 2\n{}", of("0 3", 12), of("1 0", 13)));
    assert_eq!(run[1].set.radii(), [0, 3], "the smaller goes first, wherever it stands");
}

/// 12: above 63 it is the parity that counts, of the whole term.
#[test]
fn parity_of_exponents_above_63() {
    // The squares are 4 each and the pair is 8.
    let fold = |first: &str, second: &str| {
        let terms = format!("start 1\nidentifiers 1 2\nterm {first} : 128\nterm {second} : 128\n");
        let set = accepted(&format!("{terms}step 1 from 1\nQ 1 : 4096")).remove(1).set;
        (set.centre[0], set.radii()[0], set.terms.len())
    };
    assert_eq!(fold("0 63", "63 0"), (2 + 2, 2 + 2, 1), "126 twice, and 63 63 stays");
    assert_eq!(fold("32 2", "33 2"), (2 + 2, 2 + 2 + 8, 0), "64 4 and 66 4 are even, 65 4 is not");
    assert_eq!(fold("32 1", "33 1"), (2 + 2, 2 + 2 + 8, 0), "64 2 and 66 2 are even, 65 2 is not");
}

/// 14: |Q| entry by entry, though the two entries cancel in Q(x,x); the slope takes the old centre.
#[test]
fn entries_count_by_themselves() {
    let run = accepted("start 2\ncentre 100 50\nradii 4096 4096\nstep 1 from 2\nQ 1 : 0 4096 / -4096 0");
    assert_eq!((run[1].set.centre[0], run[1].set.radii()[0]), (0, 4096 + 4096));
    let run = accepted("start 1\ncentre 4096\nradii 10\nstep 1 from 1\nA 4096\nQ 1 : 4096");
    // The slope is 1 + 2·1, so 30, and 10·10/4096 of a grain: 31 rounded up once.
    assert_eq!((run[1].set.centre[0], run[1].set.radii()[0]), (8192, 31));
}

/// 16: all factors of the body are counted and numbered, also one that finishing drops at once.
#[test]
fn a_factor_that_finishing_drops_takes_a_number() {
    let terms: String = (1..=40).map(|e| format!("term {e} : 5\n")).collect();
    let run = accepted(&format!("start 1\nidentifiers 1\n{terms}independent 1\nidentifiers 9\nterm 1 : 1"));
    assert_eq!((run[1].set.identifiers.as_slice(), run[1].mark), (&[1][..], 65_537));
    assert_eq!(run[1].set.radii(), [1]);
}

/// 19: the field that is refused has the number it would have had.
#[test]
fn lines_before_a_refusal_stay() {
    let bytes = encoded("start 1\nradii 3\nreduce 1 1\nreduce 41 1\nreduce 1 1");
    assert_eq!(motion(&bytes), "0 1 -3 3\n1 6 -3 3\n2 refused 4 20\n");
}
