//! docs/USING.md: what it shows as printed is printed, and its causes of refusal are the program's.

use std::fs;
use std::os::unix::fs::symlink;
use std::path::{Path, PathBuf};
use std::process::Command;

use peer::run::Cause;
use peer::text::motion;
use plan::words;

fn repository() -> PathBuf {
    Path::new(env!("CARGO_MANIFEST_DIR")).join("../..").canonicalize().expect("a folder")
}

fn document() -> String {
    fs::read_to_string(repository().join("docs/USING.md")).expect("the document")
}

/// The commands of the blocks that show a console, each with what it prints.
fn shown(document: &str) -> Vec<(String, String)> {
    let mut commands: Vec<(String, String)> = Vec::new();
    let mut console = false;
    for line in document.lines() {
        match (line, line.strip_prefix("$ ")) {
            ("```console", _) => console = true,
            ("```", _) => console = false,
            (_, Some(command)) if console => commands.push((command.to_string(), String::new())),
            _ if console => {
                let (_, printed) = commands.last_mut().expect("a command before what it prints");
                *printed += &format!("{line}\n");
            }
            _ => {}
        }
    }
    commands
}

/// `motion < FILE` is taken from the second implementation, so that no proved program has to be there: the gate holds the
/// two against each other.
#[test]
fn what_is_shown_is_printed() {
    let folder = std::env::temp_dir().join(format!("using-{}", std::process::id()));
    fs::create_dir_all(&folder).expect("a folder");
    symlink(repository().join("examples"), folder.join("examples")).expect("a link");
    let programs = Path::new(env!("CARGO_BIN_EXE_plan")).parent().expect("a folder").display().to_string();
    let path = format!("{programs}:{}", std::env::var("PATH").unwrap_or_default());
    let commands = shown(&document());
    assert!(commands.len() > 8 && commands.iter().any(|(command, _)| command.contains("plan explain")));
    for (command, printed) in commands {
        let run = command.strip_prefix("motion < ").and_then(|rest| rest.split(' ').next());
        let spoken = match run {
            Some(run) => {
                let output = motion(&fs::read(folder.join(run)).expect("the run file"));
                fs::write(folder.join("printed"), output).expect("it is written");
                command.replacen(&format!("motion < {run}"), "cat printed", 1)
            }
            None => command.clone(),
        };
        let script = format!("{{ {spoken}; }} 2>&1");
        let answer = Command::new("sh").args(["-c", &script]).current_dir(&folder).env("PATH", &path).output();
        let answer = String::from_utf8(answer.expect("it runs").stdout).expect("a text");
        assert_eq!(answer, printed, "{command}");
    }
    fs::remove_dir_all(&folder).expect("it goes");
}

#[test]
fn the_example_is_the_examples_plan() {
    let plan = fs::read_to_string(repository().join("examples/first.plan")).expect("the plan");
    let blocks = &plan[plan.find("start 2").expect("a start set")..];
    assert!(document().contains(&format!("```\n{blocks}```\n")));
}

#[test]
fn the_readings_are_the_examples() {
    let text = fs::read_to_string(repository().join("examples/first.readings")).expect("the readings");
    let entries = &text[text.find("\n0.02 ").expect("the first entry") + 1..];
    assert!(document().contains(&format!("```\n{entries}```\n")));
}

#[test]
fn each_cause_has_a_row() {
    for cause in Cause::ALL {
        assert!(document().contains(&format!("\n| {} | {} | ", cause as u8, words(cause))), "{cause:?}");
    }
}
