//! The second implementation as a program.

use std::process::ExitCode;

use command::{file_or_empty, input, output, standard_input, Command, Done, Ended, Program};
use peer::{laser, rewrite, text};

const PEER: Program = Program {
    name: "peer",
    about: "A second implementation of documents 01 and 02, which the proved programs are held against.
Exit status 0, also after a run's refusal; 1 for a bad command line or a read or write that failed.",
    commands: &[
        Command {
            name: "motion",
            words: "[RUN]",
            about: "what the program 'motion' prints for a run file",
            more: "",
            run: |words| output(text::motion(&input(words)?).as_bytes()),
        },
        Command {
            name: "sets",
            words: "[RUN]",
            about: "the same, with the whole set after each field",
            more:
                "Under the line of each accepted field, indented: identifiers, centre, terms (exponents : coefficients),
generators, the four parts of the radii and the next new identifier (mark), in grains.",
            run: |words| output(text::sets(&input(words)?).as_bytes()),
        },
        Command {
            name: "rewrite",
            words: "[RUN]",
            about: "a stored run file without disturbances whose radii are all 0",
            more: "",
            run: |words| output(&rewrite::rewrite(&input(words)?)),
        },
        Command {
            name: "laser",
            words: "[LOG] < RUN",
            about: "what the program 'laser' prints for a run file and a log",
            more: "A log that isn't named or can't be opened counts as empty. Of one that can be opened and not read, as a folder,
that is told, and nothing is printed.",
            run: laser,
        },
    ],
};

fn main() -> ExitCode {
    PEER.main()
}

fn laser(words: &[&str]) -> Done {
    let log = match words {
        [] => Vec::new(),
        [path] if !path.starts_with('-') => file_or_empty(path)?,
        _ => return Err(Ended::Words),
    };
    output(laser::laser(&standard_input()?, &log).as_bytes())
}
