//! Reads and writes that fail: that what a program prints and tells then is noticed where it is wrong.

use trials::compare::Failure;
use trials::failing::{failing, Subject, LASER, MOTION, REWRITE};

use crate::comparing::in_shell;

/// What a right `laser` does with a folder for a log, and where standard input isn't open.
const FOLDER: &str = "[ ! -d \"$1\" ] || { echo 'laser: the log could not be read' >&2; exit; }";
const NOT_OPEN: &str = "[ -e /dev/fd/0 ] || { echo 'laser: standard input could not be read' >&2; exit; }";

/// What the looks at a `laser` say that they found.
const PRINTED: &str = "something is printed";
const TOLD: &str = "what is told is not what happened";
const STATUS: &str = "the exit status is not 0";

/// What is found of a program in the shell's words; `"$0"` is the second implementation, and `"$1"` names a log, where there
/// is one.
fn found(subject: &Subject, script: &str) -> String {
    match failing(subject, in_shell(script), 200, 1) {
        Err(Failure::Difference(text)) => text,
        other => panic!("{other:?}"),
    }
}

/// The same for one that tells its usage where it is given words.
fn found_with_usage(subject: &Subject, script: &str) -> String {
    found(subject, &format!("[ $# = 0 ] || {{ echo 'usage: it takes none' >&2; exit; }}; {script}"))
}

#[test]
fn words_that_are_ignored_are_noticed() {
    for subject in [&MOTION, &REWRITE] {
        let text = found(subject, &format!("exec \"$0\" {}", subject.name));
        assert!(text.contains("with the words [\"my.run\"]: no usage"), "{text}");
    }
}

#[test]
fn a_failed_read_that_is_taken_for_the_end_is_noticed() {
    let text = found_with_usage(&MOTION, "cat 2> /dev/null | \"$0\" motion");
    assert!(text.contains("where reads fail after") && text.contains("what is printed"), "{text}");
}

#[test]
fn a_failed_read_that_is_not_told_is_noticed() {
    let text = found_with_usage(&REWRITE, "cat 2> /dev/null | \"$0\" rewrite");
    assert!(text.contains("where reads fail after") && text.contains("what is told"), "{text}");
}

#[test]
fn a_failed_write_that_is_not_told_is_noticed() {
    let told = "echo 'rewrite: standard input could not be read' >&2";
    let text = found_with_usage(
        &REWRITE,
        &format!(
            "f=$(mktemp); cat > $f 2> $f.e; \"$0\" rewrite < $f 2> /dev/null; [ ! -s $f.e ] || {told}; rm -f $f $f.e"
        ),
    );
    assert!(text.contains("output Full: the failed write is not told"), "{text}");
}

#[test]
fn a_log_that_is_not_read_and_an_input_that_is_not_open_are_looked_at() {
    let right = in_shell(&format!("{FOLDER}; {NOT_OPEN}"));
    let text = failing(&LASER, right, 0, 1).expect("nothing is found").to_string();
    assert!(text.contains("; 2 logs that can't be read; 2 inputs that are not open; each told"), "{text}");
    let text = found(&LASER, &format!("{FOLDER}; {NOT_OPEN}; \"$0\" laser \"$1\""));
    assert!(text.starts_with("kind "), "the other looks come after: {text}");
}

/// That this is found of a program which does so with a folder for a log, where so many bytes of a run file can be read.
fn noticed_with_a_folder(bytes: usize, does: &str, what: &str, printed: &str, told: &str) {
    let text = found(&LASER, &format!("if [ -d \"$1\" ]; then {does}; exit; fi; {NOT_OPEN}"));
    let begin = format!("with a folder for a log, where reads fail after {bytes} bytes: {what}; ");
    let end = format!("it ends, prints at last {printed:?} and tells {told:?}");
    assert!(text.starts_with(&begin) && text.ends_with(&end), "{text}");
}

#[test]
fn a_folder_that_is_taken_for_an_empty_log_is_noticed() {
    noticed_with_a_folder(15, "cat 2> /dev/null | \"$0\" laser", PRINTED, "refused 15 0\n", "");
}

#[test]
fn a_log_that_is_not_read_and_refused_is_noticed() {
    let does = "echo refused 15 0; echo 'laser: the log could not be read' >&2";
    noticed_with_a_folder(15, does, PRINTED, "refused 15 0\n", "laser: the log could not be read\n");
}

#[test]
fn a_log_that_is_not_read_and_not_told_is_noticed() {
    noticed_with_a_folder(15, ":", TOLD, "", "");
}

/// To its end, or its first byte.
#[test]
fn a_run_file_that_is_read_where_the_log_is_not_is_noticed() {
    let told = "laser: standard input could not be read\nlaser: the log could not be read\n";
    for (bytes, read) in [(15, "cat > /dev/null 2>&1"), (0, "[ -n \"$(head -c 1 2> /dev/null)\" ]")] {
        let does = format!("{read} || echo 'laser: standard input could not be read' >&2; {FOLDER}");
        noticed_with_a_folder(bytes, &does, TOLD, "", told);
    }
}

#[test]
fn another_status_than_0_where_the_log_is_not_read_is_noticed() {
    let does = "echo 'laser: the log could not be read' >&2; exit 1";
    noticed_with_a_folder(15, does, STATUS, "", "laser: the log could not be read\n");
}

/// That this is found of a program which does so with a log of so many bytes, where standard input isn't open.
fn noticed_without_input(bytes: usize, does: &str, what: &str, printed: &str, told: &str) {
    let is_it = if bytes > 0 { "-s" } else { "! -s" };
    let text = found(&LASER, &format!("{FOLDER}; if [ {is_it} \"$1\" ]; then {does}; exit; fi; {NOT_OPEN}"));
    let begin = format!("with a log of {bytes} bytes and standard input not open: {what}; ");
    let end = format!("it ends, prints at last {printed:?} and tells {told:?}");
    assert!(text.starts_with(&begin) && text.ends_with(&end), "{text}");
}

#[test]
fn a_log_that_is_read_as_the_run_file_is_noticed() {
    let does = "\"$0\" laser \"$1\" < \"$1\"";
    noticed_without_input(0, does, PRINTED, "0 0 0\n", "");
    noticed_without_input(200, does, PRINTED, "refused 15 0\n", "");
}

#[test]
fn an_input_that_is_not_open_and_taken_for_an_empty_one_is_noticed() {
    let does = "\"$0\" laser \"$1\" < /dev/null";
    noticed_without_input(0, does, PRINTED, "0 0 0\n", "");
    noticed_without_input(200, does, PRINTED, "refused 15 0\n", "");
}

#[test]
fn an_input_that_is_not_open_and_not_told_is_noticed() {
    let log = "echo 'laser: the log could not be read' >&2";
    for bytes in [0, 200] {
        noticed_without_input(bytes, ":", TOLD, "", "");
        noticed_without_input(bytes, log, TOLD, "", "laser: the log could not be read\n");
    }
}

#[test]
fn another_status_than_0_where_the_input_is_not_open_is_noticed() {
    let does = "echo 'laser: standard input could not be read' >&2; exit 1";
    for bytes in [0, 200] {
        noticed_without_input(bytes, does, STATUS, "", "laser: standard input could not be read\n");
    }
}
