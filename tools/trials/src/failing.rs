//! Programs whose reads or writes fail, or that are given words: what they print then, and what they say on standard error.

use std::fmt;

use peer::laser::laser;
use peer::rewrite::rewrite;
use peer::text::motion;
use run_file::whole;

use crate::compare::Failure;
use crate::generate::{kinds, Kind};
use crate::program::{Ended, Named, Program, Unread};
use crate::random::Random;

/// A socket takes so many bytes before they are read.
const MOST_BYTES: usize = 60_000;
/// `rewrite` may hold the bytes of the longest empty disturbance back, but the last of them.
const MOST_HELD: usize = 27;
/// So many of the last bytes that a program printed or told are shown.
const MOST_TOLD: usize = 200;

/// The log that `laser` is given: so many missing readings that some runs ask for more, and some for fewer.
const LOG: [u8; 200] = [0; 200];
/// A run file that asks for one entry: a start set of one coordinate, which is 0.
const ONE_ENTRY: [u8; 15] = [1, 12, 0, 1, 0, 0, 0, 0, 0, 0, 0, 0, 0, 0, 0];

/// A program by its name, and what it may have printed where every read after these bytes failed; the log that its word
/// names, where it takes a word.
pub struct Subject {
    pub name: &'static str,
    output: fn(&[u8]) -> Vec<u8>,
    stopped: fn(&[u8]) -> Stopped,
    log: Option<&'static [u8]>,
}

pub static MOTION: Subject =
    Subject { name: "motion", output: |bytes| motion(bytes).into_bytes(), stopped: motion_stopped, log: None };
pub static REWRITE: Subject = Subject { name: "rewrite", output: rewrite, stopped: rewrite_stopped, log: None };
pub static LASER: Subject =
    Subject { name: "laser", output: |bytes| laser(bytes, &LOG).into_bytes(), stopped: laser_stopped, log: Some(&LOG) };

/// How a program stops: it has printed the longer text or a beginning of it with at least so many bytes, and has met the
/// failing read or has ended before it.
struct Stopped {
    output: Vec<u8>,
    least: usize,
    met: bool,
}

/// What was tried without finding anything.
#[derive(Debug, Default)]
pub struct Tally {
    reads: usize,
    met: usize,
    interrupted: usize,
    writes: usize,
    command_lines: usize,
    logs: usize,
    not_open: usize,
}

impl fmt::Display for Tally {
    fn fmt(&self, out: &mut fmt::Formatter) -> fmt::Result {
        let Tally { reads, met, interrupted, writes, command_lines, logs, not_open } = self;
        write!(
            out,
            "failing: {reads} inputs whose reads fail, {met} of them before the output is whole; {interrupted} interrupted reads; \
             {writes} writes that fail; {command_lines} command lines that are not taken; {logs} logs that can't be read; \
             {not_open} inputs that are not open; each told and none printed as whole"
        )
    }
}

/// Tries so many generated files.
pub fn failing(subject: &Subject, words: Vec<String>, files: usize, seed: u64) -> Result<Tally, Failure> {
    let mut program = Program::new(words)?;
    let mut tally = Tally::default();
    match subject.log {
        Some(log) => {
            log_unread(subject, &mut program, &mut tally)?;
            // The last of them stays named.
            for log in [&[], log] {
                program.name(Named::File(log))?;
                input_not_open(subject, &program, log, &mut tally)?;
            }
        }
        None => words_not_taken(&program, &mut tally)?,
    }
    let each = |round: u64| kinds().filter(|kind| !kind.long).map(move |kind| (kind, seed.wrapping_add(round)));
    for (kind, seed) in (0..).flat_map(each).take(files) {
        let file = kind.file(seed);
        let mut random = Random::new(seed);
        let bytes = &file[..random.below(file.len().min(MOST_BYTES) + 1)];
        reads_fail(subject, &program, kind, bytes, &mut tally)?;
        if tally.reads % 20 == 1 {
            let ended = program.interrupted([bytes, &file[bytes.len()..]])?;
            if ended.output != (subject.output)(&file) || !ended.said.is_empty() {
                return found(&label(kind, seed, "with an interrupted read"), "the output is not the file's", &ended);
            }
            tally.interrupted += 1;
            writes_fail(subject, &program, kind, &file, &mut tally)?;
        }
    }
    Ok(tally)
}

fn words_not_taken(program: &Program, tally: &mut Tally) -> Result<(), Failure> {
    for words in [&["my.run"][..], &["--help"], &["-", ""]] {
        let ended = program.with_words(words)?;
        if !ended.output.is_empty() || !ended.said.starts_with(b"usage: ") {
            return found(&format!("with the words {words:?}"), "no usage is told, or something is printed", &ended);
        }
        tally.command_lines += 1;
    }
    Ok(())
}

/// A log that is opened and can't be read is not an empty one. The run file is not read then: where no read of it succeeds,
/// that is not told.
fn log_unread(subject: &Subject, program: &mut Program, tally: &mut Tally) -> Result<(), Failure> {
    program.name(Named::Folder)?;
    let message = format!("{}: the log could not be read\n", subject.name);
    for run in [&ONE_ENTRY[..], &[]] {
        let manner = format!("with a folder for a log, where reads fail after {} bytes", run.len());
        told_alone(&manner, &message, &program.until_reads_fail(run)?)?;
        tally.logs += 1;
    }
    Ok(())
}

/// The file of the log must not be read in the place of standard input, and what isn't open is not an empty run file.
fn input_not_open(subject: &Subject, program: &Program, log: &[u8], tally: &mut Tally) -> Result<(), Failure> {
    let manner = format!("with a log of {} bytes and standard input not open", log.len());
    told_alone(&manner, &unread_input(subject), &program.without_input()?)?;
    tally.not_open += 1;
    Ok(())
}

/// The program has printed nothing, has told this and nothing else, and has ended well.
fn told_alone(manner: &str, message: &str, ended: &Ended) -> Result<(), Failure> {
    if !ended.output.is_empty() {
        return found(manner, "something is printed", ended);
    }
    if ended.said != message.as_bytes() {
        return found(manner, "what is told is not what happened", ended);
    }
    if !ended.status.is_some_and(|status| status.success()) {
        return found(manner, "the exit status is not 0", ended);
    }
    Ok(())
}

fn unread_input(subject: &Subject) -> String {
    format!("{}: standard input could not be read\n", subject.name)
}

fn reads_fail(
    subject: &Subject,
    program: &Program,
    kind: &Kind,
    bytes: &[u8],
    tally: &mut Tally,
) -> Result<(), Failure> {
    let stopped = (subject.stopped)(bytes);
    let ended = program.until_reads_fail(bytes)?;
    let manner = format!("kind {}, where reads fail after {} bytes", kind.name, bytes.len());
    if !stopped.output.starts_with(&ended.output) || ended.output.len() < stopped.least {
        return found(&manner, "what is printed is not what was read comes to", &ended);
    }
    if ended.said != if stopped.met { unread_input(subject).into_bytes() } else { Vec::new() } {
        return found(&manner, "what is told is not what happened", &ended);
    }
    tally.reads += 1;
    tally.met += usize::from(stopped.met);
    Ok(())
}

fn writes_fail(
    subject: &Subject,
    program: &Program,
    kind: &Kind,
    file: &[u8],
    tally: &mut Tally,
) -> Result<(), Failure> {
    let message = format!("{}: standard output could not be written\n", subject.name);
    for unread in [Unread::Full, Unread::Closed] {
        let ended = program.unwritten(file, unread)?;
        let expected = if (subject.output)(file).is_empty() { "" } else { &message };
        if ended.said != expected.as_bytes() {
            return found(&format!("kind {}, output {unread:?}", kind.name), "the failed write is not told", &ended);
        }
        tally.writes += 1;
    }
    Ok(())
}

fn label(kind: &Kind, seed: u64, manner: &str) -> String {
    format!("kind {}, seed {seed}, {manner}", kind.name)
}

fn found<T>(manner: &str, what: &str, ended: &Ended) -> Result<T, Failure> {
    let end = if ended.status.is_some() { "ends" } else { "does not end" };
    let [output, said] = [&ended.output, &ended.said]
        .map(|text| String::from_utf8_lossy(&text[text.len().saturating_sub(MOST_TOLD)..]).into_owned());
    Err(Failure::Difference(format!("{manner}: {what}; it {end}, prints at last {output:?} and tells {said:?}")))
}

/// The lines of the whole fields: where no whole field was refused, without the lines that close the output.
fn motion_stopped(bytes: &[u8]) -> Stopped {
    let text = motion(bytes);
    stopped_before(&text, closing_lines(bytes, &text))
}

/// The same of the lines of a log: where it is refused before the run comes to its end, that is printed.
fn laser_stopped(bytes: &[u8]) -> Stopped {
    let text = laser(bytes, &LOG);
    let too_short = text.ends_with(&format!("refused 15 {}\n", LOG.len()));
    let closing = if too_short { 0 } else { closing_lines(bytes, &motion(bytes)).min(1) };
    stopped_before(&text, closing)
}

/// How many lines close what `motion` prints, and are not printed where a read fails.
fn closing_lines(bytes: &[u8], text: &str) -> usize {
    match text.lines().last().expect("a line").split_whitespace().collect::<Vec<_>>()[..] {
        ["end", _] => 2,
        [_, "refused", _, place] if whole(&bytes[place.parse::<usize>().expect("a place")..]).is_some() => 0,
        _ => 1,
    }
}

fn stopped_before(text: &str, closing: usize) -> Stopped {
    let lines: Vec<&str> = text.split_inclusive('\n').collect();
    let output = lines[..lines.len() - closing].concat().into_bytes();
    Stopped { least: output.len(), output, met: closing > 0 }
}

fn rewrite_stopped(bytes: &[u8]) -> Stopped {
    let output = rewrite(bytes);
    Stopped { least: output.len().saturating_sub(MOST_HELD), output, met: true }
}
