//! The commands as a program: words, messages and exit status. What the comparisons notice is tested with `peer`, whose
//! program they need.

use crate::common::{answer, encoded, Answer};
use peer::text::motion;
use trials::generate::{kinds, VALID};
use trials::workload::WORKLOADS;

fn trials(words: &[&str], input: &[u8]) -> Answer {
    answer(env!("CARGO_BIN_EXE_trials"), words, input)
}

/// Exit status, standard output and standard error where nothing is read.
fn told(words: &[&str]) -> (i32, String, String) {
    let (status, output, message) = trials(words, &[]);
    (status, String::from_utf8_lossy(&output).into_owned(), message)
}

#[test]
fn follow() {
    let run = encoded("start 1\ncentre 4096\nradii 2");
    let (status, report, message) = trials(&["follow", "3", "9"], &run);
    assert!(status == 0 && String::from_utf8_lossy(&report).contains("no escape among 3 motions"));
    assert_eq!(message, "");
    let (status, report, _) = trials(&["follow"], &run);
    assert!(status == 0 && String::from_utf8_lossy(&report).contains("no escape among 16 motions"));
    for words in [&["follow", "three"][..], &["follow", "3", "nine"], &["follow", "3", "9", "1"], &["follow", "65537"]]
    {
        let (status, output, message) = told(words);
        assert!((status, output.as_str()) == (1, "") && !message.is_empty(), "{words:?}");
    }
}

#[test]
fn generate() {
    let (status, list, _) = told(&["generate"]);
    assert!(status == 0 && list.contains("\nrefusal-12  ") && list.lines().count() == kinds().count());
    assert_eq!(trials(&["generate", "mixed", "5"], &[]), (0, VALID[0].file(5), String::new()));
    assert_eq!(told(&["generate", "mixed", "five"]).0, 1);
    assert_eq!(told(&["generate", "mixed"]).0, 1);
    let (status, output, message) = told(&["generate", "nothing", "5"]);
    assert_eq!((status, output.as_str(), message), (1, "", format!("no kind 'nothing'; the kinds are\n{list}")));
}

#[test]
fn workload() {
    let (status, list, _) = told(&["workload"]);
    assert!(status == 0 && list.lines().count() == WORKLOADS.len());
    assert_eq!(trials(&["workload", "oscillator"], &[]), (0, WORKLOADS[0].file(), String::new()));
    let (status, output, message) = told(&["workload", "nothing"]);
    assert_eq!((status, output.as_str(), message), (1, "", format!("no workload 'nothing'; they are\n{list}")));
    assert_eq!(told(&["workload", "oscillator", "more"]).0, 1);
}

/// `cat` prints the right lines from a file, and copies what nothing goes from.
#[test]
fn a_program_that_agrees_leaves_status_0() {
    let path = std::env::temp_dir().join(format!("trials-agrees-{}", std::process::id()));
    std::fs::write(&path, motion(&VALID[0].file(7200))).expect("a file");
    let name = path.to_str().expect("a name");
    let (status, output, message) = told(&["compare", "cat", name, "--files", "1", "--seed", "7200"]);
    std::fs::remove_file(&path).expect("the file goes");
    assert_eq!((status, message.as_str()), (0, ""), "{output}");
    let whole = "compared: 1 files of 1 kinds, seeds up to 7200, 1 of them also in pieces; ";
    assert!(output.starts_with(whole) && output.ends_with("; no difference\n"), "{output}");
    let (status, output, message) = told(&["compare-rewrite", "cat", "--seed", "7210", "--files", "31"]);
    assert_eq!((status, message.as_str()), (0, ""), "{output}");
    assert!(output.starts_with("compared: 31 files of 31 kinds, seeds up to 7210, ") && output.lines().count() == 1);
}

#[test]
fn a_program_that_differs_gives_status_2() {
    for (command, program, difference) in [
        ("compare", "cat", "line 1 should be \"0 1 "),
        ("compare", "true", "line 1 should be \"0 1 "),
        ("compare-rewrite", "true", "byte 0 of the output should be 1, and there is nothing"),
        ("compare-laser", "true", "line 1 should be "),
    ] {
        let (status, output, message) = told(&[command, program, "--files", "3", "--seed", "7220"]);
        assert_eq!((status, output.as_str()), (2, ""), "{message}");
        let begin = format!("difference: kind mixed, seed 7220, from a file: {difference}");
        assert!(message.starts_with(&begin), "{message}");
        let file = message.trim_end().split("\nthe file: ").nth(1).expect("a file");
        assert_eq!(std::fs::read(file).expect("the file"), VALID[0].file(7220));
        std::fs::remove_file(file).expect("the file goes");
        if command == "compare-laser" {
            std::fs::remove_file(std::path::Path::new(file).with_extension("log")).expect("a log, which goes");
        }
    }
}

#[test]
fn what_is_no_program_or_no_option_gives_status_1() {
    for command in ["compare", "compare-rewrite", "compare-laser"] {
        let status = |words: &[&str]| told(&[&[command], words].concat()).0;
        assert_eq!(status(&["/nowhere/motion"]), 1);
        assert_eq!(status(&[]), 1);
        assert_eq!(status(&["true", "--files"]), 1);
        assert_eq!(status(&["true", "--files", "many"]), 1);
        assert_eq!(status(&["true", "--fields", "5"]), 1);
    }
}

#[test]
fn failing() {
    let usage = ["sh", "-c", "echo usage: it takes none >&2"];
    let (status, output, _) = told(&[&["failing", "motion"], &usage[..], &["--files", "0"]].concat());
    assert!(status == 0 && output.starts_with("failing: 0 inputs whose reads fail, "), "{output}");
    let (status, output, message) = told(&["failing", "rewrite", "true"]);
    assert_eq!((status, output.as_str()), (2, ""));
    assert!(message.starts_with("difference: with the words [\"my.run\"]: no usage is told"), "{message}");
    let (status, output, message) = told(&["failing", "laser", "true"]);
    assert_eq!((status, output.as_str()), (2, ""));
    assert!(message.starts_with("difference: with a folder for a log, "), "{message}");
}

#[test]
fn a_program_is_named_as_it_is_known() {
    for words in [&["failing"][..], &["failing", "draft", "true"], &["failing", "motion"]] {
        assert_eq!(told(words).0, 1, "{words:?}");
    }
}

#[test]
fn the_program_and_each_command_say_how_they_are_used() {
    let (status, help, message) = told(&["--help"]);
    assert_eq!((status, message.as_str()), (0, ""));
    for command in ["follow", "generate", "workload", "compare", "compare-rewrite", "compare-laser", "failing"] {
        assert!(help.contains(&format!("\n  trials {command} ")), "{help}");
        let (status, help_of, message) = told(&[command, "--help"]);
        assert!((status, message.as_str()) == (0, ""), "{command}");
        assert!(help_of.starts_with(&format!("usage: trials {command} ")), "{help_of}");
        assert_eq!(told(&["help", command]), (0, help_of.clone(), String::new()));
    }
    let (_, help_of, _) = told(&["compare", "--help"]);
    assert_eq!(told(&["compare"]), (1, String::new(), help_of));
    assert_eq!(told(&["help"]).1, help);
    assert_eq!(told(&[]), (1, String::new(), help.clone()));
    assert_eq!(told(&["wrong"]), (1, String::new(), format!("trials: no command 'wrong'\n\n{help}")));
}
