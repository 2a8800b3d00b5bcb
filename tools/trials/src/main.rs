//! The commands of `trials`.

use std::fmt::Display;
use std::process::ExitCode;

use command::{ended, input, output, Command, Done, Ended, Program, NOT_DONE};
use trials::compare::{compare, Failure, LASER, MOTION, REWRITE};
use trials::workload::WORKLOADS;
use trials::{failing, follow, generate};

const MAX_MOTIONS: u64 = 65_536;
const FILES: u64 = 4_000;
const FILES_TO_REWRITE: u64 = 1_200;
const FILES_WITH_LOGS: u64 = 1_200;
const FILES_TO_FAIL: u64 = 200;

/// The exit status where something was found.
const FOUND: u8 = 2;

const TRIALS: Program = Program {
    name: "trials",
    about: "Programs tried on run files that were made for it.
Exit status 0; 1 for a bad command line or a read or write that failed; 2 where a motion escapes or a program differs.",
    commands: &[
        Command {
            name: "follow",
            words: "[MOTIONS [SEED]] < RUN",
            about: "motions of a run, sampled and followed with exact fractions",
            more: "None may leave a box or a set, or be in a region that a check calls safe. A test and not a proof. 16 motions and
the seed 1 where nothing else is said.",
            run: follow,
        },
        Command {
            name: "generate",
            words: "[KIND SEED]",
            about: "a run file to try programs with, or the list of the kinds",
            more: "The same file for a kind and seed on every machine.",
            run: generate,
        },
        Command {
            name: "workload",
            words: "[NAME]",
            about: "a run file to measure programs with, or the list of the names",
            more: "",
            run: workload,
        },
        Command {
            name: "compare",
            words: "PROGRAM [WORD..] [--files N] [--seed S]",
            about: "a program held against what 'peer motion' prints",
            more: "On N generated run files of every kind (4,000 where nothing else is said), with seeds from S on (1). At the first
difference it is told, and where the file was put.",
            run: |words| held(FILES, words, |program, files, seed| compare(&MOTION, program, files, seed)),
        },
        Command {
            name: "compare-rewrite",
            words: "PROGRAM [WORD..] [--files N] [--seed S]",
            about: "the same for a program that rewrites stored files",
            more: "On 1,200 files where nothing else is said.",
            run: |words| held(FILES_TO_REWRITE, words, |program, files, seed| compare(&REWRITE, program, files, seed)),
        },
        Command {
            name: "compare-laser",
            words: "PROGRAM [WORD..] [--files N] [--seed S]",
            about: "the same for a program that holds laser logs against boxes",
            more: "On 1,200 files where nothing else is said, each with a log, whose name is the program's last word. Now and then no log
is named, or one that can't be opened.",
            run: |words| held(FILES_WITH_LOGS, words, |program, files, seed| compare(&LASER, program, files, seed)),
        },
        Command {
            name: "failing",
            words: "motion|rewrite|laser PROGRAM [WORD..] [--files N] [--seed S]",
            about: "a program whose reads and writes fail",
            more: "On 200 generated run files where nothing else is said. 'laser' also with a log that can't be read, and where standard
input is not open.",
            run: failing,
        },
    ],
};

fn main() -> ExitCode {
    TRIALS.main()
}

fn follow(words: &[&str]) -> Done {
    if words.len() > 2 {
        return Err(Ended::Words);
    }
    let motions = number(words.first().unwrap_or(&"16"))?;
    if motions > MAX_MOTIONS {
        return Err(ended(NOT_DONE, &format!("at most {MAX_MOTIONS} motions are followed at once\n")));
    }
    let seed = number(words.get(1).unwrap_or(&"1"))?;
    let report = follow::follow(&input(&[])?, motions as usize, seed);
    output(report.text.as_bytes())?;
    if report.escaped {
        return Err(Ended::Status(FOUND));
    }
    Ok(())
}

fn generate(words: &[&str]) -> Done {
    let kinds: String = generate::kinds().map(|kind| format!("{:<13} {}\n", kind.name, kind.about)).collect();
    let (name, seed) = match words {
        [] => return output(kinds.as_bytes()),
        [name, seed] => (*name, number(seed)?),
        _ => return Err(Ended::Words),
    };
    match generate::kinds().find(|kind| kind.name == name) {
        Some(kind) => output(&kind.file(seed)),
        None => Err(ended(NOT_DONE, &format!("no kind '{name}'; the kinds are\n{kinds}"))),
    }
}

fn workload(words: &[&str]) -> Done {
    let names: String =
        WORKLOADS.iter().map(|workload| format!("{:<11} {}\n", workload.name, workload.about)).collect();
    let name = match words {
        [] => return output(names.as_bytes()),
        [name] => *name,
        _ => return Err(Ended::Words),
    };
    match WORKLOADS.iter().find(|workload| workload.name == name) {
        Some(workload) => output(&workload.file()),
        None => Err(ended(NOT_DONE, &format!("no workload '{name}'; they are\n{names}"))),
    }
}

fn failing(words: &[&str]) -> Done {
    let [name, words @ ..] = words else { return Err(Ended::Words) };
    let subjects = [&failing::MOTION, &failing::REWRITE, &failing::LASER];
    let subject = subjects.into_iter().find(|subject| subject.name == *name).ok_or(Ended::Words)?;
    held(FILES_TO_FAIL, words, |program, files, seed| failing::failing(subject, program, files, seed))
}

/// A program by its words, held against generated files by their number and first seed.
fn held<T: Display>(files: u64, words: &[&str], hold: impl Fn(Vec<String>, usize, u64) -> Result<T, Failure>) -> Done {
    let (program, mut options) =
        words.split_at(words.iter().position(|word| word.starts_with("--")).unwrap_or(words.len()));
    let (mut files, mut seed) = (files, 1);
    while let [name, value, rest @ ..] = options {
        match *name {
            "--files" => files = number(value)?,
            "--seed" => seed = number(value)?,
            _ => break,
        }
        options = rest;
    }
    if program.is_empty() || !options.is_empty() {
        return Err(Ended::Words);
    }
    let program = program.iter().map(|word| word.to_string()).collect();
    match hold(program, files as usize, seed) {
        Ok(tally) => output(format!("{tally}\n").as_bytes()),
        Err(Failure::Difference(what)) => Err(ended(FOUND, &format!("difference: {what}\n"))),
        Err(Failure::Run(error)) => Err(ended(NOT_DONE, &format!("cannot run the program: {error}\n"))),
    }
}

fn number(word: &str) -> Result<u64, Ended> {
    word.parse().map_err(|_| ended(NOT_DONE, &format!("'{word}' is not a whole number\n")))
}
