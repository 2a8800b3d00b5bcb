//! The commands as a program: files, standard input and output, messages and exit status.

use crate::common::{answer, encoded, radius_lines, Answer};

fn peer(words: &[&str], input: &[u8]) -> Answer {
    answer(env!("CARGO_BIN_EXE_peer"), words, input)
}

#[test]
fn a_run_through_all_commands() {
    let run = encoded("start 1\ncentre 4096\nradii 2");
    assert_eq!(peer(&["motion"], &run), (0, b"0 1 4094 4098\nfolded 0 0 0 0 0 0\nend 0\n".to_vec(), String::new()));
    let rest = format!("{}  mark 65536\nfolded 0 0 0 0 0 0\nend 0\n", radius_lines(0, 0, 0, 2));
    let sets = format!("0 1 4094 4098\n  identifiers\n  centre 4096\n{rest}");
    assert_eq!(peer(&["sets"], &run), (0, sets.into_bytes(), String::new()));
    assert_eq!(peer(&["rewrite"], &run), (0, run, String::new()));
}

#[test]
fn a_run_file_by_its_name() {
    let run = encoded("start 1\ncentre 4096\ndisturbance 1\ndisturbance 1\nradii 2");
    let path = std::env::temp_dir().join(format!("peer-by-its-name-{}.run", std::process::id()));
    std::fs::write(&path, &run).expect("a file");
    let name = path.to_str().expect("a name");
    for command in ["motion", "sets", "rewrite"] {
        let (status, output, message) = peer(&[command, name], &[]);
        assert_eq!((status, &output, message.as_str()), (0, &peer(&[command], &run).1, ""), "{command}");
        assert!(!output.is_empty());
    }
    std::fs::remove_file(&path).expect("the file goes");
    for command in ["motion", "sets", "rewrite"] {
        let (status, output, message) = peer(&[command, name], &run[..0]);
        assert_eq!((status, output.len()), (1, 0), "{command}");
        assert!(message.starts_with(&format!("cannot read {name}: ")), "{message}");
    }
}

#[test]
fn a_refusal_leaves_status_0() {
    assert_eq!(peer(&["motion"], &[]), (0, b"0 refused 1 0\n".to_vec(), String::new()));
}

#[test]
fn rewrite() {
    let run = encoded("start 1\ndisturbance 1\nreduce 1 1\nraw ff 05 00 01");
    let (start, rest) = (&run[..15], &run[23..]);
    assert_eq!(peer(&["rewrite"], &run), (0, [start, rest].concat(), String::new()));
    assert_eq!(peer(&["rewrite"], &[]), (0, Vec::new(), String::new()));
    assert_eq!(peer(&["rewrite", "one", "more"], &[]).0, 1);
}

/// A log that isn't named or can't be opened counts as empty, and is no error; one that can't be read is.
#[test]
fn laser() {
    let run = encoded("start 1\ncentre 4096\nradii 2");
    let path = std::env::temp_dir().join(format!("peer-laser-{}.log", std::process::id()));
    std::fs::write(&path, [1, 0, 0, 0x80, 0x3f]).expect("a file");
    let name = path.to_str().expect("a name");
    assert_eq!(peer(&["laser", name], &run), (0, b"inside\n1 0 0\n".to_vec(), String::new()));
    std::fs::write(&path, []).expect("a file");
    let without = (0, b"refused 15 0\n".to_vec(), String::new());
    assert_eq!(peer(&["laser", name], &run), without);
    std::fs::remove_file(&path).expect("the file goes");
    for words in [&["laser"][..], &["laser", name], &["laser", ""]] {
        assert_eq!(peer(words, &run), without, "{words:?}");
        assert_eq!(peer(words, &[]), (0, b"0 0 0\n".to_vec(), String::new()), "{words:?}");
    }
    let folder = std::env::temp_dir();
    let name = folder.to_str().expect("a name");
    let (status, output, message) = peer(&["laser", name], &[]);
    assert_eq!((status, output.len()), (1, 0));
    assert!(message.starts_with(&format!("cannot read {name}: ")), "{message}");
}

#[test]
fn the_program_and_each_command_say_how_they_are_used() {
    let (status, help, _) = peer(&["--help"], &[]);
    let text = String::from_utf8_lossy(&help).into_owned();
    assert_eq!(status, 0);
    let takes_file = |command| (command, "[RUN]");
    for (command, words) in ["motion", "sets", "rewrite"].map(takes_file).into_iter().chain([("laser", "[LOG] < RUN")])
    {
        let usage = format!("peer {command} {words}");
        assert!(text.contains(&usage), "{text}");
        let (status, help_of, message) = peer(&[command, "--help"], &[]);
        let told = String::from_utf8_lossy(&help_of).into_owned();
        assert!((status, message.as_str()) == (0, "") && told.starts_with(&format!("usage: {usage}\n")), "{told}");
        assert_eq!(peer(&["help", command], &[]).1, help_of);
        for words in [&[command, "one", "more"][..], &[command, "--wrong"]] {
            assert_eq!(peer(words, &[]), (1, Vec::new(), told.clone()), "{words:?}");
        }
    }
    assert_eq!(peer(&["-h"], &[]).1, help);
    assert_eq!(peer(&["help"], &[]).1, help);
    assert_eq!(peer(&[], &[]), (1, Vec::new(), text.clone()));
    assert_eq!(peer(&["wrong"], &[]), (1, Vec::new(), format!("peer: no command 'wrong'\n\n{text}")));
    assert_eq!(peer(&["encode"], &[]).0, 1, "plans have a program of their own");
    assert_eq!(peer(&["compare"], &[]).0, 1, "and so have comparisons");
}
