//! The commands of `plan`.

use std::io::{stderr, stdin, stdout, BufWriter, IsTerminal, Write};
use std::process::ExitCode;

use command::{ended, file, input, not_written, output, Command, Done, Ended, Program, NOT_DONE};
use plan::encode::{encode, Encoded};
use plan::explain::{explain, End, Failure};
use plan::log::{log, show_log};
use plan::number::Form;
use plan::refusal::refusal;
use plan::show::show;
use plan::Mistake;

/// The exit status where what was given has a mistake, and where a run is refused.
const MISTAKE: u8 = 2;
const REFUSED: u8 = 3;

const PLAN: Program = Program {
    name: "plan",
    about: "Run files and laser logs written as text, and what 'motion' says in words. docs/USING.md has the grammar and an example.
Exit status 0; 1 for a bad command line or a read or write that failed; 2 for a mistake in what was given; 3 where the run
is refused.",
    commands: &[
        Command {
            name: "encode",
            words: "[PLAN]",
            about: "the run file of a plan",
            more: "PLAN is the plan's file, or standard input. A mistake is told with its line, and nothing is written. A plan whose run
would be refused is written; what is refused and why is told, and the exit status is 3.",
            run: encode_plan,
        },
        Command {
            name: "show",
            words: "[--grains] [RUN]",
            about: "a run file as a plan",
            more: "The plan encodes to the same bytes, whatever they are. Numbers are in the user's unit; with --grains they are the
file's own whole numbers.",
            run: show_run,
        },
        Command {
            name: "explain",
            words: "RUN [PLAN]",
            about: "what 'motion' printed, from standard input, in words",
            more: "As in 'motion < my.run | plan explain my.run my.plan'. Each line in words and in the user's unit, with the plan's line
where PLAN is given; then what all of them come to. Ends of boxes are rounded outwards to four decimals. Of a long run
standard error tells how far it is, where that is a terminal and standard output is none.",
            run: explain_output,
        },
        Command {
            name: "log",
            words: "[TEXT]",
            about: "the laser log that a text states",
            more: "TEXT is the text's file, or standard input. A word for each entry, by the run file's order: a decimal number in the
user's unit, which is rounded to the nearest 32-bit float, or 'missing'; 'raw:' and two hexadecimal digits a byte state
bytes as they are. '#' starts a comment. A mistake is told with its line, and nothing is written.",
            run: write_log,
        },
        Command {
            name: "show-log",
            words: "[LOG]",
            about: "a laser log as a text",
            more: "'plan log' makes the same bytes of the text, whatever they are. A word a line, with the place of its first byte.",
            run: |words| output(show_log(&input(words)?).as_bytes()),
        },
    ],
};

fn main() -> ExitCode {
    PLAN.main()
}

fn encode_plan(words: &[&str]) -> Done {
    let encoded = encoded("the plan", &input(words)?)?;
    for Mistake { line, message } in &encoded.notes {
        eprintln!("note: line {line}: {message}");
    }
    output_bytes(&encoded.bytes, "a run file", "my.run")?;
    match refusal(&encoded.bytes, Some(&encoded)) {
        Some(told) => Err(ended(REFUSED, &told.lines)),
        None => Ok(()),
    }
}

fn show_run(words: &[&str]) -> Done {
    let (form, words) = match words {
        ["--grains", words @ ..] => (Form::Grains, words),
        [words @ .., "--grains"] => (Form::Grains, words),
        words => (Form::Units, words),
    };
    output(show(&input(words)?, form).as_bytes())
}

fn explain_output(words: &[&str]) -> Done {
    let (run, plan) = match words {
        [run] => (file(run)?, None),
        [run, plan] => (file(run)?, Some(encoded(plan, &file(plan)?)?)),
        _ => return Err(Ended::Words),
    };
    if plan.as_ref().is_some_and(|plan| plan.bytes != run) {
        return Err(ended(MISTAKE, "the run file is not what the plan encodes to\n"));
    }
    let mut text = BufWriter::new(stdout().lock());
    let mut progress = (stderr().is_terminal() && !stdout().is_terminal()).then(stderr);
    let end =
        explain(&run, plan.as_ref(), stdin().lock(), &mut text, &mut progress).map_err(|failure| match failure {
            Failure::Read(error) => ended(NOT_DONE, &format!("cannot read: {error}\n")),
            Failure::Write(error) => not_written(error),
        })?;
    text.flush().map_err(not_written)?;
    match end {
        End::Whole => Ok(()),
        End::Refused => Err(Ended::Status(REFUSED)),
        End::Cut => Err(ended(MISTAKE, "the output of 'motion' is cut: it has neither 'end' nor a refusal\n")),
        End::Foreign(line, what) => {
            Err(ended(MISTAKE, &format!("line {line} of the output is not of this run file: {what}\n")))
        }
    }
}

fn write_log(words: &[&str]) -> Done {
    let bytes = input(words)?;
    output_bytes(&log(text("the log's text", &bytes)?).map_err(told)?, "a log", "my.log")
}

/// Writes bytes, but not onto a terminal.
fn output_bytes(bytes: &[u8], what: &str, name: &str) -> Done {
    if stdout().is_terminal() {
        return Err(ended(NOT_DONE, &format!("{what} is bytes and no text: send it to a file, as with '> {name}'\n")));
    }
    output(bytes)
}

fn encoded(name: &str, bytes: &[u8]) -> Result<Encoded, Ended> {
    encode(text(name, bytes)?).map_err(told)
}

fn text<'a>(name: &str, bytes: &'a [u8]) -> Result<&'a str, Ended> {
    std::str::from_utf8(bytes).map_err(|error| {
        let line = 1 + bytes[..error.valid_up_to()].iter().filter(|byte| **byte == b'\n').count();
        told(Mistake { line, message: format!("{name} is not UTF-8 text") })
    })
}

fn told(Mistake { line, message }: Mistake) -> Ended {
    ended(MISTAKE, &format!("line {line}: {message}\n"))
}
