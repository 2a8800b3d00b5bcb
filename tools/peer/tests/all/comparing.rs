//! The comparison of a program with the second implementation: that it passes what agrees and notices what doesn't.

use std::path::Path;

use peer::laser::ends;
use trials::compare::{compare, Failure, Task, LASER, MOTION, REWRITE};
use trials::generate::{kinds, logs, Kind};

/// A program in the shell's words; `"$0"` is the second implementation, and `"$1"` names a log, where there is one.
pub fn in_shell(script: &str) -> Vec<String> {
    ["sh", "-c", script, env!("CARGO_BIN_EXE_peer")].map(str::to_string).to_vec()
}

/// The difference that a comparison of `motion` has to notice: its message, and the kind and seed of the file that it left.
fn difference(script: &str, first_seed: u64) -> (String, &'static Kind, u64) {
    difference_of(&MOTION, script, first_seed)
}

fn difference_of(task: &Task, script: &str, first_seed: u64) -> (String, &'static Kind, u64) {
    let text = match compare(task, in_shell(script), 60, first_seed) {
        Err(Failure::Difference(text)) => text,
        other => panic!("{other:?}"),
    };
    let words: Vec<&str> = text.split([' ', ',', ':', '\n']).filter(|word| !word.is_empty()).collect();
    let after = |label: &str| words[1 + words.iter().position(|word| *word == label).expect(label)];
    let kind = kinds().find(|kind| kind.name == after("kind")).expect("a kind");
    let seed: u64 = after("seed").parse().expect("a seed");
    let path = Path::new(words[words.len() - 1]);
    assert_eq!(std::fs::read(path).expect("the file"), kind.file(seed));
    std::fs::remove_file(path).expect("the file goes");
    if words.contains(&"log") && words.contains(&"sort") {
        let path = path.with_extension("log");
        let (sort, log) = logs::log(kind, seed, &ends(&kind.file(seed)));
        assert_eq!((after("sort"), std::fs::read(&path).expect("the log")), (sort.name, log));
        std::fs::remove_file(path).expect("the log goes");
    }
    (text, kind, seed)
}

#[test]
fn the_second_implementation_agrees_with_itself() {
    for (task, script) in [(&MOTION, "exec \"$0\" motion"), (&REWRITE, "exec \"$0\" rewrite")] {
        let text = compare(task, in_shell(script), 54, 500).expect("no difference").to_string();
        let whole = "compared: 54 files of 50 kinds, seeds up to 501, 6 of them also in pieces; ";
        assert!(text.starts_with(whole) && text.ends_with("no difference"), "{text}");
        assert!(text.contains("4 ways of not reading it") && text.lines().count() == 1, "{text}");
    }
}

#[test]
fn the_second_implementation_agrees_with_itself_on_logs() {
    let text = compare(&LASER, in_shell("exec \"$0\" laser \"$@\""), 104, 500).expect("no difference").to_string();
    let whole =
        "compared: 104 files of 50 kinds, seeds up to 502, 11 of them also in pieces; logs of 11 sorts, 21 of the \
                 files also without; ";
    assert!(text.starts_with(whole) && text.ends_with("no difference"), "{text}");
    assert!(text.contains("4 ways of not reading it") && text.lines().count() == 1, "{text}");
}

#[test]
fn a_program_that_takes_logs_wrong_is_noticed() {
    let (text, ..) = difference_of(&LASER, "\"$0\" laser \"$@\" | sed 's/^outside/inside/'", 7110);
    assert!(
        text.contains(": line ") && text.contains("should be \"outside\\n\", and there is \"inside\\n\""),
        "{text}"
    );
    assert!(text.contains("\nthe log, of the sort ") && text.contains("\nthe file: "), "{text}");
    let (text, ..) = difference_of(&LASER, "\"$0\" laser \"$@\" | sed 's/^refused 15 0$/refused 15 5/'", 7120);
    assert!(text.contains("should be \"refused 15 0\\n\""), "{text}");
    let (text, ..) = difference_of(&LASER, "\"$0\" laser", 7130);
    assert!(text.contains(", from a file: line 1 should be "), "{text}");
}

#[test]
fn a_program_that_needs_a_log_is_noticed() {
    let (text, ..) = difference_of(&LASER, "[ -n \"$1\" ] && \"$0\" laser \"$1\"", 7140);
    assert!(text.contains(", with no log named: line 1 should be ") && !text.contains("the log,"), "{text}");
    let (text, ..) = difference_of(&LASER, "[ -z \"$1\" ] || [ -f \"$1\" ] && \"$0\" laser \"$@\"", 7150);
    assert!(text.contains(", with a log that can't be opened: line 1 should be "), "{text}");
}

#[test]
fn a_program_that_takes_what_a_pipe_begins_with_for_the_whole_is_noticed_with_a_log() {
    let script = "[ -f /dev/stdin ] && exec \"$0\" laser \"$@\"; head -c 3 | \"$0\" laser \"$@\"";
    let (text, ..) = difference_of(&LASER, script, 7160);
    assert!(text.contains("in pieces"), "{text}");
}

#[test]
fn a_changed_byte_is_noticed() {
    let (text, kind, seed) = difference("\"$0\" motion | sed '1s/1/2/'", 7000);
    assert_eq!((kind.name, seed), ("mixed", 7000), "the first file");
    assert!(text.contains("from a file: line 1 should be \"0 1 ") && text.contains("there is \"0 2 "), "{text}");
    let (text, kind, _) = difference("\"$0\" motion | sed 's/refused 7/refused 6/'", 7010);
    assert!(kind.name == "refusal-7" && text.contains("refused 7 0"), "{text}");
}

#[test]
fn a_wrong_total_is_noticed() {
    let (text, ..) = difference("\"$0\" motion | sed 's/^folded \\(.*\\) 0$/folded \\1 1/'", 7015);
    assert!(text.contains(" 0\\n\", and there is \"folded ") && text.contains(" 1\\n\""), "{text}");
}

#[test]
fn a_program_that_rewrites_nothing_or_loses_the_last_byte_is_noticed() {
    let (text, kind, _) = difference_of(&REWRITE, "exec cat", 7070);
    assert!(kind.name == "refusal-14" && text.contains("from a file: byte "), "{text}");
    let (text, ..) = difference_of(&REWRITE, "\"$0\" rewrite | head -c -1", 7080);
    assert!(text.contains(", and there is nothing\n"), "{text}");
    let (text, ..) = difference_of(&REWRITE, "\"$0\" rewrite; echo", 7090);
    assert!(text.contains(" should be nothing, and there is 10\n"), "{text}");
}

#[test]
fn a_program_that_rewrites_each_piece_alone_is_noticed() {
    let script = "(dd bs=64k count=1 | \"$0\" rewrite; \"$0\" rewrite) 2>/dev/null";
    let (text, ..) = difference_of(&REWRITE, script, 7100);
    assert!(text.contains(" of the output should be "), "{text}");
}

#[test]
fn a_missing_line_and_a_missing_line_end_are_noticed() {
    let (text, ..) = difference("\"$0\" motion | sed '$d'", 7020);
    assert!(text.contains("there is nothing\n"), "{text}");
    let (text, ..) = difference("printf %s \"$(\"$0\" motion)\"", 7030);
    assert!(text.contains("\\n\", and there is \"end "), "{text}");
}

#[test]
fn a_program_that_takes_the_first_piece_for_the_whole_is_noticed() {
    let (text, ..) = difference("dd bs=1M count=1 2>/dev/null | \"$0\" motion", 7040);
    assert!(text.contains("in pieces: "), "{text}");
}

#[test]
fn a_program_that_does_not_end_when_nobody_reads_is_noticed() {
    let (text, kind, _) = difference("\"$0\" motion || exec sleep 60", 7050);
    assert!(kind.long && text.contains("the program does not end"), "{text}");
}

#[test]
fn an_exit_status_other_than_0_is_noticed() {
    let (text, ..) = difference("\"$0\" motion; exit 3", 7060);
    assert!(text.contains("ends with exit status: 3"), "{text}");
}
