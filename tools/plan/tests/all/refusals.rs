//! Plans whose runs are refused: each cause with the plan's line that breaks the rule.

use plan::encode::encode;
use plan::refusal::refusal;
use run_file::{Field, SetBody, MAX_FIELDS};

/// What is told of the plan's refusal, the first line alone.
fn told(plan: &str) -> String {
    let encoded = encode(plan).expect(plan);
    let told = refusal(&encoded.bytes, Some(&encoded)).expect("a refusal");
    told.lines.lines().next().expect("a line").to_string()
}

const SET: &str = "start 1\nidentifiers 1 2\nterm 0 1 : 1\nterm 1 0 : 1\n";

#[test]
fn each_cause_names_the_line() {
    let many: String = format!("start 1\nrepeat {} {{\nreduce 0 0\n}}\n", MAX_FIELDS) + "disturbance 1\nradii 1";
    let twelve = |word: &str, first: usize, count: usize| {
        let identifiers: Vec<String> = (first..first + count).map(|id| id.to_string()).collect();
        format!("{word} 1\nidentifiers {}\nterm {} : 1\n", identifiers.join(" "), vec!["1"; count].join(" "))
    };
    for (plan, message) in [
        (many.as_str(), "line 5: this is field 4097, and at most 4096 follow the start set (12)"),
        ("", "field 0: there is no field (1)"),
        ("reduce 0 0", "line 1: a run begins with a start set and not with a reduction (2)"),
        ("start 1\n\nstart 1", "line 3: a start set stands at the beginning and nowhere else (2)"),
        ("start 1\nraw ff 00 00", "line 2: no field has the tag 255 (2)"),
        ("start 1\nraw 06 02 00 01", "line 2: the file ends inside this field (1)"),
        ("start 1\nraw 06 03 00 01 01 01", "line 2: its body has 3 bytes, and its counts give 2 (3)"),
        ("start 1\nraw 06 01 00 01", "line 2: its body has 1 bytes, too few for its counts (3)"),
        ("start 1\nreduce 41 0", "line 2: 41 terms, and there may be 0 to 40 (4)"),
        ("start 1\nreduce 0 25", "line 2: 25 generators, and there may be 0 to 24 (4)"),
        ("start 1\nraw 03 05 00 00 00 00 00 00", "line 2: 0 coordinates, and there may be 1 to 6 (4)"),
        (
            "start 2\nrepeat 2 {\nreduce 0 0\n}\nstep 3 from 2\nA 0 0 / 0 0 / 0 0\ndisturbance 2\nradii 1 1",
            "line 7: this disturbance is for 2 coordinates, and the set has 3 since field 3 (line 5) (5)",
        ),
        ("start 1\nidentifiers 65536\nterm 1 : 1", "line 2: identifier 65536 is not from 1 to 65535 (6)"),
        ("start 1\nidentifiers 1 2\nterm 0 1 : 1\nterm 64 0 : 1", "line 4: the exponent 64 is above 63 (6)"),
        ("start 2\nradii 0 -1", "line 2: the radius of coordinate 2 is below 0 (6)"),
        ("start 1\nstep 1 from 1\nc -257\nA 1", "line 3: the number of coordinate 1 is beyond 256 (6)"),
        ("start 2\nstep 1 from 2\nA 1 -8.5", "line 3: the entry in row 1, column 2 is beyond 8 (6)"),
        (
            "start 2\nstep 2 from 2\nA 1 0 / 0 1\nQ 2 : 1 0 / 9 0\nQ 1 : 1 0 / 0 1",
            "line 4: the entry in row 2, column 1 is beyond 8 (6)",
        ),
        ("start 1\nranged 1 from 1\nA 1\nA+- -1", "line 4: the half-width in row 1, column 1 is below 0 (6)"),
        (
            "start 1\nranged 1 from 1\nA -7.5\nA+- 1",
            "line 4: the entry and its half-width in row 1, column 1 come to more than 8 (6)",
        ),
        (
            "start 1\nranged 1 from 1\nQ+- 1 : 8.5\nA 1",
            "line 3: the entry and its half-width in row 1, column 1 come to more than 8 (6)",
        ),
        ("start 1\ndisturbance 1\nradii 257", "line 3: the radius of coordinate 1 is not from 0 to 256 (6)"),
        ("start 1\ncheck 1\nhalfspace 1 : 1\nhalfspace -9 : 1", "line 4: the number of coordinate 1 is beyond 8 (6)"),
        ("start 1\ncheck 1\nhalfspace 1 : 65537", "line 3: the bound is beyond 65536 (6)"),
        ("start 1\nidentifiers 2 1\nterm 0 1 : 1\nterm 1 0 : 1", "line 2: identifier 1 must come before 2 (7)"),
        ("start 1\nidentifiers 1 1\nterm 1 1 : 1", "line 2: identifier 1 stands there twice (7)"),
        (
            "start 1\nidentifiers 1 2\nterm 1 0 : 1\nterm 0 1 : 1",
            "line 4: this term's exponents must come after those of line 3 (7)",
        ),
        (
            "start 1\nidentifiers 1\nterm 1 : 1\nterm 1 : 1",
            "line 4: this term's exponents are those of line 3: write one term with both coefficients added (7)",
        ),
        (
            "start 1\nidentifiers 1\nterm 0 : 1\nterm 1 : 1",
            "line 3: this term's exponents are all 0: what no factor moves belongs in the centre (7)",
        ),
        ("start 1\nidentifiers 1\nterm 1 : 0", "line 3: this term's coefficients are all 0: leave it out (7)"),
        ("start 1\ngenerator 1\ngenerator 0", "line 3: this generator's numbers are all 0: leave it out (7)"),
        ("start 1\nidentifiers 1 2\nterm 0 1 : 1", "line 2: identifier 1 is in no term: leave it out (7)"),
        (
            "start 1\ncentre 200\nradii 100.5",
            "line 1: coordinate 1 may reach 300.5 from 0, more than 256: centre, terms, generators and radius together (8)",
        ),
        (
            &(twelve("start", 1, 8) + &twelve("independent", 1, 5)),
            "line 4: the set has 8 factors and this body 5 others: at most 12 together (9)",
        ),
        (
            &(twelve("start", 1, 8) + &twelve("tied", 8, 6)),
            "line 4: the set has 8 factors and this body 5 others: at most 12 together (9)",
        ),
        (
            &(twelve("start", 1, 8) + &twelve("hull", 9, 4)),
            "line 4: the set has 8 factors and this body 4 others, and the hull adds one: at most 12 together (9)",
        ),
        (
            "start 1\nradii 200\nrepeat 3 {\ndisturbance 1\nradii 20.0625\n}",
            "line 4: after this field coordinate 1 may reach 260.1875 from 0, more than 256 (10)",
        ),
        ("start 1\ndisturbance 1", "line 2: all radii are 0: state the noise, or leave the field out (14)"),
        ("start 1\ndisturbance 1\nradii 0", "line 3: all radii are 0: state the noise, or leave the field out (14)"),
    ] {
        assert_eq!(told(plan), message, "{plan}");
    }
}

/// The second line has the field, its line and round, the byte, the number and the cause in general.
#[test]
fn the_second_line_is_motions() {
    let encoded = encode("start 1\nradii 200\nrepeat 3 {\ndisturbance 1\nradii 20\n}").expect("a plan");
    let told = refusal(&encoded.bytes, Some(&encoded)).expect("a refusal");
    let last = "refused: field 3 (line 4, round 3), at byte 31 of the run file, with 10: a result that is wider than 256 units\n";
    assert_eq!(told.lines.split_once('\n').expect("two lines").1, last);
    assert!(peer::text::motion(&encoded.bytes).ends_with("3 refused 10 31\n"));
}

/// Without a plan parts are called by their places.
#[test]
fn without_a_plan() {
    let bytes = encode("start 1\nidentifiers 1 2\nterm 1 0 : 1\nterm 0 1 : 1").expect("a plan").bytes;
    let told = refusal(&bytes, None).expect("a refusal").lines;
    assert!(
        told.starts_with(
            "field 0, term 2: this term's exponents must come after those of term 1 (7)\nrefused: field 0, at byte 0"
        ),
        "{told}"
    );
}

#[test]
fn what_is_accepted_is_not_told() {
    let encoded = encode(SET).expect("a plan");
    assert!(refusal(&encoded.bytes, Some(&encoded)).is_none());
}

/// Every refused file of the generator gets a first line of its own, and the refusal that the run gives.
#[test]
fn every_refusal_has_a_reason() {
    for kind in trials::generate::kinds() {
        for seed in 0..if kind.long { 1 } else { 20 } {
            let bytes = kind.file(seed);
            let last = peer::text::motion(&bytes).lines().last().unwrap_or_default().to_string();
            match refusal(&bytes, None) {
                None => assert!(last.starts_with("end "), "{} {seed}", kind.name),
                Some(told) => {
                    let (field, cause, place) = (told.refusal.field, told.refusal.cause as u8, told.refusal.place);
                    assert_eq!(last, format!("{field} refused {cause} {place}"), "{} {seed}", kind.name);
                    assert_eq!(told.lines.lines().count(), 2, "{} {seed}: {}", kind.name, told.lines);
                }
            }
        }
    }
}

/// A body at its limits is told by the rule it breaks and by no other.
#[test]
fn a_body_that_breaks_nothing_is_blamed_for_nothing() {
    let body = SetBody { centre: vec![1_048_576], radii: vec![0], ..SetBody::default() };
    assert!(refusal(&Field::Start(body).encode(), None).is_none());
}
