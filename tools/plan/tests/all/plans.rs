//! Plans: encoding and showing.

use crate::encoded;
use plan::encode::encode;
use plan::number::Form::{Grains, Units};
use plan::show::show;
use trials::generate::kinds;

#[test]
fn any_bytes_come_back_from_their_plan_in_either_form() {
    for kind in kinds() {
        for seed in 0..if kind.long { 1 } else { 25 } {
            let bytes = kind.file(seed);
            for form in [Units, Grains] {
                let plan = show(&bytes, form);
                assert!(encoded(&plan) == bytes, "{} {seed}\n{plan}", kind.name);
            }
        }
    }
}

#[test]
fn a_fields_block() {
    let fields = "check 2\nhalfspace 1 -1 : -7\nstep 1 from 2\nQ 1: 1 2 / 3 4 # tight\nreduce 41 0\nhull 1\ncentre -3";
    let plan = |number: fn(i64) -> String, bound: &str| {
        let [n3, n1, one, two, three, four] = [-3, -1, 1, 2, 3, 4].map(number);
        format!(
            "check 2  # field 0, byte 0\n  halfspace {one} {n1} : {bound}\nstep 1 from 2  # field 1, byte 21\n  c 0\n  \
             A 0 0\n  Q 1 : {one} {two} / {three} {four}\nreduce 41 0  # field 2, byte 54\nhull 1  # field 3, byte 59\n  \
             identifiers\n  centre {n3}\n  radii 0\n"
        )
    };
    let in_grains = encoded(&format!("grains\n{fields}"));
    assert_eq!(show(&in_grains, Grains), format!("grains\n{}", plan(|v| v.to_string(), "-7")));
    assert_eq!(show(&in_grains, Units), plan(|v| format!("{v}/4096"), "-7/16777216"));
    assert_eq!(show(&encoded(fields), Units), plan(|v| v.to_string(), "-7"));
}

/// Also with half-widths of 0 it is no plain step.
#[test]
fn a_ranged_steps_block() {
    let bytes =
        encoded("ranged 1 from 2\nQ 1 : 1 2 / 3 4\nA 5 -6\nQ+- 1 : 0 0.5 / 0 0\nA+- 1 -1/4096\nranged 1 from 1");
    let plan = "ranged 1 from 2  # field 0, byte 0\n  c 0\n  A 5 -6\n  Q 1 : 1 2 / 3 4\n  A+- 1 -1/4096\n  \
                Q+- 1 : 0 0.5 / 0 0\nranged 1 from 1  # field 1, byte 57\n  c 0\n  A 0\n  A+- 0\n";
    assert_eq!(show(&bytes, Units), plan);
    assert_eq!(encoded(plan), bytes);
}

/// c, A, Q, then the half-widths of A and of Q; forms by rows.
#[test]
fn a_ranged_steps_bytes() {
    let words = |numbers: &[i32]| numbers.iter().flat_map(|v| v.to_le_bytes()).collect::<Vec<u8>>();
    let half_widths = "A+- 9 10 / 11 12\nQ+- 1 : 13 14 / 15 16\nQ+- 2 : 17 18 / 19 20";
    let plan = format!("grains\nranged 2 from 2\nc -1 -2\nA 1 2 / 3 4\nQ 2 : 5 6 / 7 8\n{half_widths}");
    let entries = [[-1, -2].to_vec(), (1..=4).collect(), vec![0; 4], (5..=20).collect()].concat();
    assert_eq!(encoded(&plan), [vec![9, 106, 0, 2, 2], words(&entries)].concat());
}

#[test]
fn what_is_no_field_is_shown_raw() {
    let bytes = [encoded("reduce 1 2"), vec![10, 0, 255]].concat();
    let plan = "reduce 1 2  # field 0, byte 0\n# field 1, byte 5: not a well-formed field\nraw 0a 00 ff\n";
    assert_eq!(show(&bytes, Units), plan);
    assert_eq!(show(&bytes, Grains), format!("grains\n{plan}"));
    assert_eq!((show(&[], Units), show(&[], Grains)), (String::new(), "grains\n".to_string()));
}

#[test]
fn repeats() {
    let repeated = encoded("repeat 2 {\nreduce 1 1\nrepeat 3 {\nreduce 2 2\n}\n}\nrepeat 0 {\nraw ff\n}");
    assert_eq!(repeated, encoded(&"reduce 1 1\nreduce 2 2\nreduce 2 2\nreduce 2 2\n".repeat(2)));
}

#[test]
fn blocks_know_their_lines_and_rounds() {
    let encoded =
        encode("# a comment\nrepeat 2 {\nreduce 1 1\n\nrepeat 2 {\nreduce 2 2\n}\n}\nreduce 3 3").expect("a plan");
    let at = |byte: usize| encoded.at(byte).map(|placed| placed.to_string());
    let places = ["line 3, round 1", "line 6, rounds 1, 1", "line 6, rounds 1, 2", "line 3, round 2"];
    for (i, place) in places.into_iter().enumerate() {
        assert_eq!([at(5 * i), at(5 * i + 4)], [Some(place.to_string()), Some(place.to_string())]);
    }
    assert_eq!([at(30), at(1_000)], [Some("line 9".to_string()), Some("line 9".to_string())]);
    assert!(encode("").expect("a plan").at(0).is_none());
}

/// As editors and other systems write them.
#[test]
fn texts_from_elsewhere() {
    let plan = "start 2\n  centre 1 -1\nreduce 0 0\n";
    for other in [
        format!("\u{feff}{plan}"),
        plan.replace('\n', "\r\n"),
        plan.replace("  ", "\t"),
        plan.replace("1 -1", "1\u{a0}-1"),
        plan.trim_end().to_string(),
        format!("\u{feff}# a comment\n{plan}"),
    ] {
        assert_eq!(encoded(&other), encoded(plan), "{other:?}");
    }
    assert_eq!(encoded(&format!("\u{feff}grains\n{plan}")), encoded(&format!("grains\n{plan}")));
}
