//! `plan` as a program: files, standard input and output, messages and exit status.

use std::fs;
use std::io::Write;
use std::path::PathBuf;
use std::process::{Command, Stdio};

/// Exit status, standard output and standard error.
type Answer = (i32, Vec<u8>, String);

fn plan(words: &[&str], input: &[u8]) -> Answer {
    let mut command = Command::new(env!("CARGO_BIN_EXE_plan"));
    command.args(words).stdin(Stdio::piped()).stdout(Stdio::piped()).stderr(Stdio::piped());
    let mut child = command.spawn().expect("it starts");
    // A program that needs no input may have ended.
    let _ = child.stdin.take().expect("an input").write_all(input);
    let output = child.wait_with_output().expect("it ends");
    (output.status.code().expect("a status"), output.stdout, String::from_utf8_lossy(&output.stderr).into_owned())
}

/// A file with these bytes, for one test.
fn file(name: &str, bytes: &[u8]) -> String {
    let path: PathBuf = std::env::temp_dir().join(format!("plan-{}-{name}", std::process::id()));
    fs::write(&path, bytes).expect("it is written");
    path.display().to_string()
}

const PLAN: &[u8] = b"start 1\ncentre 1\nradii 2/4096\n";

#[test]
fn a_plan_and_back() {
    let (status, run, message) = plan(&["encode"], PLAN);
    assert_eq!((status, message.as_str()), (0, ""));
    let path = file("back.run", &run);
    for words in [
        &["show"][..],
        &["show", "--grains"],
        &["show", &path],
        &["show", "--grains", &path],
        &["show", &path, "--grains"],
    ] {
        let (status, text, _) = plan(words, &run);
        assert_eq!((status, text.starts_with(b"grains\n")), (0, words.contains(&"--grains")));
        assert_eq!(plan(&["encode"], &text).1, run);
    }
}

#[test]
fn a_plan_from_a_file() {
    let path = file("a.plan", PLAN);
    assert_eq!(plan(&["encode", &path], b""), plan(&["encode"], PLAN));
}

/// 2 and no file for a mistake, 3 and the file for a refusal.
#[test]
fn mistakes_and_refusals_by_their_status() {
    assert_eq!(plan(&["encode"], b"start 1\ncentre 0.1"), {
        let nearest = "409/4096 (about 0.09985) and 410/4096 (about 0.10010) are nearest";
        (2, Vec::new(), format!("line 2: 0.1 is not a whole number of 1/4096: {nearest}\n"))
    });
    let (status, run, message) = plan(&["encode"], b"start 1\n\ndisturbance 1\n");
    let told = "line 3: all radii are 0: state the noise, or leave the field out (14)\n\
                refused: field 1 (line 3), at byte 15 of the run file, with 14: a disturbance whose radii are all 0\n";
    assert_eq!((status, run.len(), message.as_str()), (3, 15 + 8, told));
    assert_eq!(
        plan(&["encode"], b"start 1\ncentre \xff\n"),
        (2, Vec::new(), "line 2: the plan is not UTF-8 text\n".to_string())
    );
}

#[test]
fn notes_leave_the_status() {
    let (status, run, message) = plan(&["encode"], b"start 1\nstep 1 from 1\nc 1\n");
    assert_eq!((status, message.as_str()), (0, "note: line 2: this step has no 'A', which counts as zeros\n"));
    assert!(!run.is_empty());
}

#[test]
fn an_output_explained() {
    let (_, run, _) = plan(&["encode"], PLAN);
    let (run_path, plan_path) = (file("explained.run", &run), file("explained.plan", PLAN));
    let output = peer::text::motion(&run);
    let (status, text, message) = plan(&["explain", &run_path, &plan_path], output.as_bytes());
    let expected = "field 0 (line 1), start set: coordinate 1 from 0.9995 to 1.0005\n\n1 field accepted, which is the whole run\n\
                    no checks\ncoordinate 1 is widest at field 0 (line 1): from 0.9995 to 1.0005\nfolding added nothing\n";
    assert_eq!((status, String::from_utf8_lossy(&text).as_ref(), message.as_str()), (0, expected, ""));
    assert_eq!(
        plan(&["explain", &run_path], b"0 1 4094 4098\n").2,
        "the output of 'motion' is cut: it has neither 'end' nor a refusal\n"
    );
    let (status, _, message) = plan(&["explain", &run_path], b"0 2 4094 4098\n");
    assert_eq!(
        (status, message.as_str()),
        (2, "line 1 of the output is not of this run file: it should be the line of field 0, whose tag is 1\n")
    );
    let other = file("other.plan", b"start 1\ncentre 2\n");
    let (status, _, message) = plan(&["explain", &run_path, &other], output.as_bytes());
    assert_eq!((status, message.as_str()), (2, "the run file is not what the plan encodes to\n"));
}

#[test]
fn a_log_and_back() {
    let text = b"0.5 missing # the first sample\nraw:0201\n";
    let log = [1, 0, 0, 0, 0x3f, 0, 0, 0, 0, 0, 2, 1];
    assert_eq!(plan(&["log"], text), (0, log.to_vec(), String::new()));
    assert_eq!(plan(&["log", &file("a.readings", text)], b"").1, log);
    let shown = b"0.5  # byte 0\nmissing  # byte 5\nraw:0201  # byte 10: not an entry\n";
    assert_eq!(plan(&["show-log"], &log), (0, shown.to_vec(), String::new()));
    assert_eq!(plan(&["show-log", &file("a.log", &log)], b"").1, shown);
    assert_eq!(plan(&["log"], shown).1, log);
    assert_eq!((plan(&["log"], b"").1, plan(&["show-log"], b"").1), (Vec::new(), Vec::new()));
}

/// 2, and nothing is written.
#[test]
fn mistakes_in_a_logs_text() {
    let mistake = |line: usize, message: &str| (2, Vec::new(), format!("line {line}: {message}\n"));
    assert_eq!(plan(&["log"], b"1\n2mm"), mistake(2, "'2mm' is not a number: no unit stands after a number"));
    assert_eq!(plan(&["log"], b"1\n\n\xff"), mistake(3, "the log's text is not UTF-8 text"));
    assert_eq!(plan(&["log", "/no/such/file"], b"").0, 1);
    assert_eq!(plan(&["show-log", "/no/such/file"], b"").0, 1);
}

#[test]
fn bad_command_lines() {
    for words in [
        &[][..],
        &["decode"],
        &["encode", "a", "b"],
        &["encode", "--grains"],
        &["show", "--units"],
        &["explain"],
        &["explain", "a", "b", "c"],
        &["log", "a", "b"],
        &["log", "--grains"],
        &["show-log", "a", "b"],
    ] {
        let (status, output, message) = plan(words, b"");
        assert_eq!((status, output.len()), (1, 0), "{words:?}");
        assert!(message.contains("plan"), "{message}");
    }
    let (status, _, message) = plan(&["encode", "/no/such/file"], b"");
    assert_eq!((status, message.starts_with("cannot read /no/such/file: ")), (1, true));
}

/// What each command does, from `--help` wherever it stands.
#[test]
fn help() {
    let (status, overview, _) = plan(&["--help"], b"");
    let overview = String::from_utf8(overview).expect("a text");
    assert!(
        status == 0
            && ["encode", "show", "explain", "log", "show-log", "Exit status"]
                .iter()
                .all(|word| overview.contains(word))
    );
    for command in ["encode", "show", "explain", "log", "show-log"] {
        let (status, text, _) = plan(&[command, "--help"], b"");
        assert!(status == 0 && text.starts_with(format!("usage: plan {command} ").as_bytes()));
        assert!(text.split(|byte| *byte == b'\n').count() > 4, "it says what it does");
        assert_eq!(plan(&["help", command], b"").1, text);
        assert_eq!(plan(&[command, "-h"], b"").1, text);
    }
}
