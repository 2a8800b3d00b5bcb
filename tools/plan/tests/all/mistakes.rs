//! Mistakes that people make in plans, and what is said of each: the line and a message.

use plan::encode::encode;

const MISTAKES: &[(&str, usize, &str)] = &[
    // Words.
    ("reduce 1 1\nstrat 1", 2, "'strat' is not a word that a plan's line begins with; 'start' is"),
    ("Start 1", 1, "'Start' is not a word that a plan's line begins with; 'start' is"),
    ("start 1\ncenter 1", 2, "'center' is not a word that a plan's line begins with; 'centre' is"),
    ("start 1\nradius 1", 2, "'radius' is not a word that a plan's line begins with; 'radii' is"),
    ("start 1\ngenerators 1", 2, "'generators' is not a word that a plan's line begins with; 'generator' is"),
    ("check 1\nhalfspaces 1 : 1", 2, "'halfspaces' is not a word that a plan's line begins with; 'halfspace' is"),
    ("// a comment", 1, "'//' is not a word that a plan's line begins with"),
    ("a 1 0 / 0 1", 1, "'a' is not a word that a plan's line begins with; 'A' is"),
    ("a comment", 1, "'a' is not a word that a plan's line begins with; 'A' is"),
    ("comment", 1, "'comment' is not a word that a plan's line begins with"),
    ("end", 1, "'end' is not a word that a plan's line begins with"),
    ("centre 1", 1, "'centre' stands under no field that has it"),
    ("repeat 2 {\nradii 1\n}", 2, "'radii' stands under no field that has it"),
    ("start 1\nc 1", 2, "'c' does not belong under 'start'"),
    ("hull 1\nA 1", 2, "'A' does not belong under 'hull'"),
    ("step 1 from 1\nA+- 1", 2, "'A+-' does not belong under 'step'"),
    ("ranged 1 from 1\nhalfspace 1 : 1", 2, "'halfspace' does not belong under 'ranged'"),
    ("reduce 1 2\nradii 1", 2, "'radii' does not belong under 'reduce'"),
    ("start 1\ncentre 1\n\ncentre 1", 4, "a second 'centre' in one field"),
    ("ranged 1 from 1\nA+- 1\nA+- 1", 3, "a second 'A+-' in one field"),
    ("step 1 from 1\nQ 1 : 1\nQ 1 : 2", 3, "a second 'Q' of coordinate 1"),
    ("ranged 1 from 1\nQ+- 1 : 1\nQ+- 1 : 2", 3, "a second 'Q+-' of coordinate 1"),
    // Numbers.
    ("start 1\ncentre one", 2, "'one' is not a number"),
    ("start 1\ncentre 0.1", 2, "0.1 is not a whole number of 1/4096: 409/4096 (about 0.09985) and 410/4096 (about 0.10010) are nearest"),
    ("start 1\ncentre -0.1", 2, "-0.1 is not a whole number of 1/4096: -410/4096 (about -0.10010) and -409/4096 (about -0.09985) are nearest"),
    ("start 1\ncentre 1/3", 2, "1/3 is not a whole number of 1/4096: 1365/4096 (about 0.33325) and 1366/4096 (about 0.33350) are nearest"),
    (
        "check 1\nhalfspace 1 : 0.1",
        2,
        "0.1 is not a whole number of 1/16777216: 1677721/16777216 (about 0.099999964) and 1677722/16777216 (about 0.100000024) are nearest",
    ),
    ("start 1\ncentre 1,5", 2, "'1,5' is not a number: the decimal mark is '.', and nothing stands between digits or after a number"),
    ("start 2\ncentre 1, 2", 2, "'1,' is not a number: the decimal mark is '.', and nothing stands between digits or after a number"),
    ("start 1\ncentre 20mm", 2, "'20mm' is not a number: no unit stands after a number"),
    ("start 1\ncentre 20 mm", 2, "'centre' needs 1 number here, not 2"),
    ("start 1\ncentre 1e-3", 2, "'1e-3' is not a number: it is written out, as 0.001"),
    ("start 1\ncentre 2E5", 2, "'2E5' is not a number: it is written out, as 0.001"),
    ("ranged 1 from 1\nA+- 5%", 2, "'5%' is not a number: 5% is written 0.05"),
    ("start 1\ncentre \u{2212}5", 2, "'\u{2212}5' is not a number: its minus sign is not '-'"),
    ("start 1\ncentre 1..0", 2, "'1..0' is not a number"),
    ("start 1\ncentre .", 2, "'.' is not a number"),
    ("start 1\ncentre --1", 2, "'--1' is not a number"),
    ("start 1\ncentre 1.5/2", 2, "'1.5/2' is not a number"),
    ("start 1\ncentre nan", 2, "'nan' is not a number"),
    ("start 1\ncentre 0x10", 2, "'0x10' is not a number"),
    ("start 1\ncentre 524288", 2, "524288 is not from -524288 to below 524288"),
    ("start 1\ncentre 1/0", 2, "'1/0' divides by 0; between the rows of a matrix '/' has a space on both sides"),
    ("start 1\ncentre 0.00000000000000000000000000000000000000001", 2, "'0.00000000000000000000000000000000000000001' has too many digits"),
    ("start 1\nidentifiers 1.0", 2, "'1.0' has to be a whole number"),
    ("start 1\nidentifiers 1\nterm 1/1 : 1", 3, "'1/1' has to be a whole number"),
    ("grains\nstart 1\ncentre 20.0", 3, "'20.0' has to be a whole number, as this plan counts in grains"),
    ("grains\nstart 1\ncentre 1/2", 3, "'1/2' has to be a whole number, as this plan counts in grains"),
    ("grains\nstart 1\ncentre 2147483648", 3, "2147483648 is not from -2147483648 to 2147483647"),
    ("start 1\ngrains", 2, "'grains' stands once, before the first field"),
    ("grains\ngrains", 2, "'grains' stands once, before the first field"),
    ("grains 4096", 1, "'grains' stands alone in its line"),
    // How many.
    ("start", 1, "this is written 'start N', where N is how many coordinates it has"),
    ("start 2 {", 1, "this is written 'start N', where N is how many coordinates it has"),
    ("start 7", 1, "7 is not from 1 to 6"),
    ("start 2\ncentre 1", 2, "'centre' needs 2 numbers here, not 1"),
    ("start 1\nidentifiers 1\nterm 1 1", 3, "'term' needs one ':'"),
    ("start 1\nidentifiers 1\nterm : 1", 3, "a term has an exponent for each identifier, here 1, not 0"),
    ("start 1\nterm 1 : 1", 2, "a term has an exponent for each identifier, here 0, not 1"),
    ("start 1\nidentifiers 1\nterm 256 : 1", 3, "256 is not from 0 to 255"),
    ("start 1\nidentifiers 1 2 3 4 5 6 7 8 9 10 11 12 13", 2, "a set has at most 12 identifiers"),
    ("step 2", 1, "this step is written 'step M from N'"),
    ("ranged 2 of 1", 1, "this step is written 'ranged M from N'"),
    ("step 2 from 1\nA 1", 2, "'A' needs 2 rows, not 1"),
    ("step 2 from 2\nA 1 0/0 1", 2, "'A' needs 2 rows, not 1; between rows '/' has a space on both sides"),
    ("step 1 from 1\nA 1 / 2", 2, "'A' needs 1 row, not 2; in a fraction '/' has no spaces"),
    (
        "step 2 from 2\nA 1 0 /\n0 1",
        3,
        "'0' is not a word that a plan's line begins with; a list of numbers, a matrix too, stands in one line",
    ),
    ("step 2 from 2\nA 1 0 / 0", 2, "'A' needs 2 numbers here, not 1"),
    ("ranged 2 from 1\nA+- 1", 2, "'A+-' needs 2 rows, not 1"),
    ("ranged 1 from 2\nQ+- 1 : 1 2 / 3", 2, "'Q+-' needs 2 numbers here, not 1"),
    ("ranged 1 from 1\nQ+- 1", 2, "'Q+-' needs one ':'"),
    ("step 1 from 1\nQ 2 : 1", 2, "2 is not from 1 to 1"),
    ("check 1", 1, "a check needs a halfspace"),
    ("check 1\nhalfspace 1 <= 18", 2, "'halfspace' needs one ':'"),
    ("check 2\nhalfspace 1 : 18", 2, "'halfspace' needs 2 numbers here, not 1"),
    ("reduce 1", 1, "this is written 'reduce TERMS GENERATORS', how many may stay"),
    ("reduce 256 0", 1, "256 is not from 0 to 255"),
    // Repeats and raw bytes.
    ("repeat {", 1, "a repeat is written 'repeat COUNT {'"),
    ("repeat 2\nreduce 1 1\n}", 1, "a repeat is written 'repeat COUNT {'"),
    ("repeat -1 {\n}", 1, "-1 is not from 0 to 65536"),
    ("repeat 2 {\nreduce 1 1", 1, "this repeat has no '}'"),
    ("repeat 2 {\nreduce 1 1 }", 2, "this is written 'reduce TERMS GENERATORS', how many may stay"),
    ("reduce 1 1\n}", 2, "'}' stands alone and closes a repeat"),
    ("raw 0", 1, "'0' is not a byte of two hexadecimal digits"),
    ("raw +1", 1, "'+1' is not a byte of two hexadecimal digits"),
];

fn mistake(plan: &str) -> (usize, String) {
    let mistake = encode(plan).expect_err(plan);
    (mistake.line, mistake.message)
}

#[test]
fn each_mistake_gets_its_line_and_a_message() {
    for (plan, line, message) in MISTAKES {
        assert_eq!(mistake(plan), (*line, message.to_string()), "{plan}");
    }
}

#[test]
fn plans_that_are_too_much() {
    let halfspaces = "halfspace 1 : 1\n".repeat(9);
    assert_eq!(mistake(&format!("check 1\n{halfspaces}")), (10, "a field has at most 8 of 'halfspace'".to_string()));
    assert_eq!(mistake(&"repeat 2 {\n".repeat(100_000)), (17, "repeats stand at most 16 deep".to_string()));
    let nested = |inner: &str| format!("{}{inner}\n{}", "repeat 65536 {\n".repeat(8), "}\n".repeat(8));
    assert_eq!(mistake(&nested("raw 00")), (7, "the plan is too long".to_string()));
    assert_eq!(crate::encoded(&nested("raw")), []);
}

/// What encodes, but is seldom meant, is told.
#[test]
fn notes() {
    let notes = |plan: &str| {
        encode(plan).expect(plan).notes.into_iter().map(|note| (note.line, note.message)).collect::<Vec<_>>()
    };
    let nowhere = "a halfspace of this check has no point, so that it says safe of every set".to_string();
    assert_eq!(notes("start 1\ncheck 1\nhalfspace 0 : -1"), [(2, nowhere)]);
    let no_matrix = "this step has no 'A', which counts as zeros".to_string();
    assert_eq!(notes("repeat 3 {\nstep 1 from 1\nQ 1 : 1\n}"), [(2, no_matrix.clone())], "once, and not in each round");
    assert_eq!(notes("ranged 1 from 1\nA+- 1"), [(1, no_matrix)]);
    assert_eq!(notes("check 1\nhalfspace 0 : 0\ncheck 2\nhalfspace 0 1 : -1\nstep 1 from 1\nA 0"), []);
}
