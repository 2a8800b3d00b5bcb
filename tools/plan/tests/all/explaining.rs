//! Outputs of `motion` in words.

use std::io::BufReader;

use peer::text::motion;
use plan::encode::{encode, Encoded};
use plan::explain::{explain, End};
use trials::generate::kinds;

fn explained(run: &[u8], plan: Option<&Encoded>, output: &str) -> (End, String) {
    let (mut text, mut no_progress) = (Vec::new(), None::<Vec<u8>>);
    let end = explain(run, plan, output.as_bytes(), &mut text, &mut no_progress).expect("it is read and written");
    (end, String::from_utf8(text).expect("a text"))
}

const PLAN: &str =
    "start 1\nradii 1/3072\nrepeat 2 {\nstep 1 from 1\nA 2\n}\ncheck 1\nhalfspace -1 : -18\nreduce 0 0\n";

#[test]
fn a_run_from_start_to_end() {
    let plan = "start 2\nidentifiers 1\nterm 2 : 1 -1/4096\nrepeat 2 {\ndisturbance 2\nradii 1/4096 20\n}\ncheck 2\nhalfspace 0 -1 : -18\n\
                check 2\nhalfspace -1 0 : -18\nreduce 0 0";
    let encoded = encode(plan).expect("a plan");
    let (end, text) = explained(&encoded.bytes, Some(&encoded), &motion(&encoded.bytes));
    let expected = "\
field 0 (line 1), start set: coordinate 1 from 0 to 1, coordinate 2 from -0.0003 to 0
field 1 (line 5, round 1), disturbance: coordinate 1 from -0.0003 to 1.0003, coordinate 2 from -20.0003 to 20
field 2 (line 5, round 2), disturbance: coordinate 1 from -0.0005 to 1.0005, coordinate 2 from -40.0003 to 40
field 3 (line 8), check: unknown, a motion may be in the unsafe region
field 4 (line 10), check: safe, no motion is in the unsafe region
field 5 (line 12), reduction: coordinate 1 from -0.0005 to 1.0005, coordinate 2 from -40.0003 to 40.0003

6 fields accepted, which is the whole run
checks: 1 safe, 1 UNKNOWN, the first of them field 3 (line 8)
coordinate 1 is widest at field 2 (line 5, round 2): from -0.0005 to 1.0005
coordinate 2 is widest at field 5 (line 12): from -40.0003 to 40.0003
folding added 0.5 to coordinate 1, 0.0003 to coordinate 2
";
    assert_eq!((end, text.as_str()), (End::Whole, expected));
    let (_, text) = explained(&encoded.bytes, None, &motion(&encoded.bytes));
    assert!(text.starts_with("field 0, start set: coordinate 1 from 0 to 1,") && !text.contains("line"), "{text}");
}

#[test]
fn a_refused_run() {
    let encoded = encode("start 1\ncheck 1\nhalfspace 1 : -1\ndisturbance 1").expect("a plan");
    let (end, text) = explained(&encoded.bytes, Some(&encoded), &motion(&encoded.bytes));
    let expected = "\
field 0 (line 1), start set: coordinate 1 from 0 to 0
field 1 (line 2), check: safe, no motion is in the unsafe region

2 fields accepted, then a refusal
checks: 1 safe, none unknown
coordinate 1 is widest at field 0 (line 1): from 0 to 0
line 4: all radii are 0: state the noise, or leave the field out (14)
refused: field 2 (line 4), at byte 32 of the run file, with 14: a disturbance whose radii are all 0
";
    assert_eq!((end, text.as_str()), (End::Refused, expected));
}

/// The answers are `motion`'s: where its refusal isn't the one that is worked out here, no reason is given.
#[test]
fn a_refusal_that_is_not_expected() {
    let encoded = encode("start 1\ndisturbance 1").expect("a plan");
    let (end, text) = explained(&encoded.bytes, Some(&encoded), "0 1 0 0\n1 refused 6 15\n");
    assert_eq!(end, End::Refused);
    assert!(
        text.ends_with(
            "from 0 to 0\nrefused: field 1 (line 2), at byte 15 of the run file, with 6: a number outside its range\n"
        ),
        "{text}"
    );
}

/// Every generated file's output is whole or refused, has a line for each field, and without its last line is cut.
#[test]
fn outputs_of_every_kind() {
    for kind in kinds() {
        for seed in 0..if kind.long { 1 } else { 12 } {
            let run = kind.file(seed);
            let output = motion(&run);
            let refused = output.contains("refused");
            let (end, text) = explained(&run, None, &output);
            assert_eq!(end, if refused { End::Refused } else { End::Whole }, "{} {seed}", kind.name);
            let fields = output.lines().count() - if refused { 1 } else { 2 };
            assert_eq!(text.lines().take_while(|line| line.starts_with("field ")).count(), fields);
            let (rest, _) = output.trim_end().rsplit_once('\n').unwrap_or_default();
            let (end, text) = explained(&run, None, rest);
            assert_eq!(end, End::Cut, "{} {seed}", kind.name);
            assert!(!text.contains("accepted"), "no summary of what is not whole");
        }
    }
}

/// An output that is another run's, or was changed, is not explained as this one's.
#[test]
fn outputs_of_other_runs() {
    let encoded = encode(&PLAN.replace("1/3072", "1")).expect("a plan");
    let output = motion(&encoded.bytes);
    assert_eq!(
        output,
        "0 1 -4096 4096\n1 2 -8192 8192\n2 2 -16384 16384\n3 7 safe\n4 6 -16384 16384\nfolded 0 0 0 0 0 0\nend 4\n"
    );
    for (wrong, line, what) in [
        (output.replace("1 2 ", "2 2 "), 2, "it should be the line of field 1, whose tag is 2"),
        (output.replace("3 7 safe", "3 2 0 0"), 4, "it should be the line of field 3, whose tag is 7"),
        (output.replace("safe", "sure"), 4, "it is no line of a check"),
        (output.replace("safe", "0 0"), 4, "it is no line of a check"),
        (output.replace("1 2 -8192 8192", "1 2 safe"), 2, "'safe' is not a number"),
        (output.replace("1 2 -8192 8192", "1 2 -8192"), 2, "it has no low and high end for each coordinate"),
        (output.replace("1 2 -8192 8192", "1 2"), 2, "it has no low and high end for each coordinate"),
        (output.replace("4 6 -16384 16384\n", ""), 5, "field 4 has no line yet"),
        (output.replace("folded 0 0 0 0 0 0\n", ""), 6, "the run does not end there"),
        (output.replace("end 4", "end 3"), 7, "the run does not end there"),
        (output.replace("end 4", "5 6 0 0"), 7, "the run file has no such field"),
        (format!("{output}end 4\n"), 8, "the output has ended before it"),
        ("0 refused 7 1\n".to_string(), 1, "the next field is 0, which begins at byte 0"),
        ("0 refused 13 0\n".to_string(), 1, "it refuses with a number that is not a run's"),
        ("motion: not found\n".to_string(), 1, "it should be the line of field 0, whose tag is 1"),
        ("\n".to_string(), 1, "it is no line of 'motion'"),
    ] {
        assert_eq!(explained(&encoded.bytes, None, &wrong).0, End::Foreign(line, what.to_string()), "{wrong}");
    }
    assert_eq!(explained(&encoded.bytes, None, "").0, End::Cut);
}

/// How far a long run is gets told where somebody looks, and is wiped out at the end; of a short one nothing.
#[test]
fn progress() {
    let told = |fields: usize| {
        let run = encode(&format!("start 1\nrepeat {fields} {{\nreduce 0 0\n}}")).expect("a plan").bytes;
        let mut progress = Some(Vec::new());
        let output = motion(&run);
        explain(&run, None, BufReader::new(output.as_bytes()), &mut Vec::new(), &mut progress).expect("it is read");
        String::from_utf8(progress.expect("a text")).expect("a text")
    };
    assert_eq!(told(100), "");
    let long = told(1_000);
    assert!(long.starts_with("\rfield 0 of 1001\rfield 64 of 1001\r") && long.ends_with("\r\x1b[K"), "{long:?}");
}
