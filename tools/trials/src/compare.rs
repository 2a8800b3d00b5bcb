//! Programs held against the second implementation, byte for byte, on generated files of every kind.

use std::collections::BTreeSet;
use std::fmt;
use std::io;

use peer::laser::{ends, laser};
use peer::rewrite::rewrite;
use peer::text::motion;

use crate::generate::logs::{log, Sort};
use crate::generate::{kinds, Kind, STORED};
use crate::program::{Ended, Named, Program, UNREAD};
use crate::random::Random;

/// One round in so many has the kinds with thousands of fields as well.
const LONG_EVERY: u64 = 20;
/// One round of files to rewrite in so many has all other kinds as well.
const OTHERS_EVERY: u64 = 10;
/// One file in so many is fed in pieces too.
const PIECES_EVERY: usize = 10;
const MAX_CUTS: usize = 40;
/// Files up to this length are fed in pieces of a few bytes as well.
const SHORT_FILE: usize = 400;
const FEW_BYTES: usize = 7;
/// One file in so many is also run without its log.
const WITHOUT_LOG_EVERY: usize = 5;
/// The first file with a longer output, which fills a pipe, is also run with nobody to read it.
const LONG_OUTPUT: usize = 65_536;

/// What a program is for: the output that belongs to a file and its log, the kinds of files in a round, and how two
/// outputs that aren't the same come apart.
pub struct Task {
    output: fn(&[u8], &[u8]) -> Vec<u8>,
    /// Whether the program's last word names a log; the output of one that takes none has nothing to do with it.
    takes_log: bool,
    round: fn(u64) -> Vec<&'static Kind>,
    first_difference: fn(&[u8], &[u8]) -> String,
}

pub static MOTION: Task = Task {
    output: |bytes, _| motion(bytes).into_bytes(),
    takes_log: false,
    round: all_kinds,
    first_difference: first_line,
};
pub static REWRITE: Task =
    Task { output: |bytes, _| rewrite(bytes), takes_log: false, round: stored_first, first_difference: first_byte };
pub static LASER: Task = Task {
    output: |bytes, log| laser(bytes, log).into_bytes(),
    takes_log: true,
    round: all_kinds,
    first_difference: first_line,
};

/// What was compared without a difference.
#[derive(Debug, Default)]
pub struct Tally {
    files: usize,
    bytes: usize,
    kinds: BTreeSet<&'static str>,
    sorts: BTreeSet<&'static str>,
    without_log: usize,
    in_pieces: usize,
    unread: usize,
    last_seed: u64,
}

#[derive(Debug)]
pub enum Failure {
    /// The program could not be run.
    Run(io::Error),
    Difference(String),
}

impl From<io::Error> for Failure {
    fn from(error: io::Error) -> Failure {
        Failure::Run(error)
    }
}

impl fmt::Display for Tally {
    fn fmt(&self, out: &mut fmt::Formatter) -> fmt::Result {
        let Tally { files, bytes, kinds, sorts, without_log, in_pieces, unread, last_seed } = self;
        let logs = match sorts.len() {
            0 => String::new(),
            sorts => format!("logs of {sorts} sorts, {without_log} of the files also without; "),
        };
        write!(
            out,
            "compared: {files} files of {} kinds, seeds up to {last_seed}, {in_pieces} of them also in pieces; {logs}{bytes} \
             bytes of output; {unread} ways of not reading it; no difference",
            kinds.len()
        )
    }
}

/// Holds the program against so many files, in rounds: a file of each kind with one seed, then with the next.
pub fn compare(task: &Task, words: Vec<String>, files: usize, seed: u64) -> Result<Tally, Failure> {
    let mut program = Program::new(words)?;
    let mut tally = Tally::default();
    let in_round = |round| (task.round)(round).into_iter().map(move |kind| (kind, seed.wrapping_add(round)));
    for (kind, seed) in (0..).flat_map(in_round).take(files) {
        let case = Case::new(task, kind, seed);
        program.name(case.named())?;
        case.agrees("from a file", program.on_file(&case.bytes)?)?;
        if tally.files.is_multiple_of(PIECES_EVERY) {
            case.agrees("in pieces", program.in_pieces(&case.pieces())?)?;
            if case.bytes.len() <= SHORT_FILE {
                case.agrees("in pieces of a few bytes", program.in_pieces(&case.few_bytes_each())?)?;
            }
            tally.in_pieces += 1;
        }
        if tally.unread == 0 && case.expected.len() > LONG_OUTPUT {
            tally.unread = case.ends_unread(&program)?;
        }
        if let Some((sort, _)) = &case.log {
            tally.sorts.insert(sort.name);
            if tally.files.is_multiple_of(WITHOUT_LOG_EVERY) {
                case.agrees_without_log(&mut program)?;
                tally.without_log += 1;
            }
        }
        tally.files += 1;
        tally.bytes += case.expected.len();
        tally.kinds.insert(kind.name);
        tally.last_seed = seed;
    }
    Ok(tally)
}

fn all_kinds(round: u64) -> Vec<&'static Kind> {
    kinds().filter(|kind| !kind.long || round.is_multiple_of(LONG_EVERY)).collect()
}

/// Most rounds have the kinds alone of whose files something may go.
fn stored_first(round: u64) -> Vec<&'static Kind> {
    if round.is_multiple_of(OTHERS_EVERY) {
        all_kinds(round)
    } else {
        STORED.iter().filter(|kind| !kind.long).collect()
    }
}

/// A generated file, the log made for it where the program takes one, and what the second implementation makes of them.
struct Case<'a> {
    task: &'a Task,
    kind: &'static Kind,
    seed: u64,
    bytes: Vec<u8>,
    log: Option<(&'static Sort, Vec<u8>)>,
    expected: Vec<u8>,
}

impl Case<'_> {
    fn new<'a>(task: &'a Task, kind: &'static Kind, seed: u64) -> Case<'a> {
        let bytes = kind.file(seed);
        let log = task.takes_log.then(|| log(kind, seed, &ends(&bytes)));
        let expected = (task.output)(&bytes, log.as_ref().map_or(&[], |(_, log)| log));
        Case { task, kind, seed, bytes, log, expected }
    }

    fn named(&self) -> Named<'_> {
        self.log.as_ref().map_or(Named::Nothing, |(_, log)| Named::File(log))
    }

    /// The same file with a log that isn't named or can't be opened, which counts as empty.
    fn agrees_without_log(&self, program: &mut Program) -> Result<(), Failure> {
        let expected = (self.task.output)(&self.bytes, &[]);
        let without = Case { bytes: self.bytes.clone(), log: None, expected, ..*self };
        program.name(Named::Nothing)?;
        without.agrees("with no log named", program.on_file(&self.bytes)?)?;
        program.name(Named::NoFile)?;
        without.agrees("with a log that can't be opened", program.on_file(&self.bytes)?)
    }

    fn agrees(&self, manner: &str, ended: Ended) -> Result<(), Failure> {
        if ended.output != self.expected {
            return self.differs(manner, &(self.task.first_difference)(&self.expected, &ended.output));
        }
        match ended.status {
            Some(status) if status.success() => Ok(()),
            Some(status) => self.differs(manner, &format!("the output agrees, but the program ends with {status}")),
            None => self.differs(manner, "the output agrees, but the program does not end"),
        }
    }

    /// The program has to end whichever way its output isn't read; how many ways there are.
    fn ends_unread(&self, program: &Program) -> Result<usize, Failure> {
        for unread in UNREAD {
            if !program.ends(&self.bytes, unread)? {
                self.differs(&format!("output {unread:?}"), "the program does not end")?;
            }
        }
        Ok(UNREAD.len())
    }

    fn differs(&self, manner: &str, what: &str) -> Result<(), Failure> {
        let (kind, seed) = (self.kind.name, self.seed);
        // With the process in its name, so that comparisons at the same time leave each other's files alone.
        let path = std::env::temp_dir().join(format!("trials-{kind}-{seed}-{}.run", std::process::id()));
        std::fs::write(&path, &self.bytes)?;
        let mut files = String::new();
        if let Some((sort, log)) = &self.log {
            let path = path.with_extension("log");
            std::fs::write(&path, log)?;
            files = format!("\nthe log, of the sort {} ({}): {}", sort.name, sort.about, path.display());
        }
        files += &format!("\nthe file: {}", path.display());
        Err(Failure::Difference(format!("kind {kind}, seed {seed}, {manner}: {what}{files}")))
    }

    /// Cut at random places, some of them beside each other.
    fn pieces(&self) -> Vec<&[u8]> {
        let mut random = Random::new(self.seed);
        let mut places = BTreeSet::from([0, self.bytes.len()]);
        for _ in 0..random.below(MAX_CUTS) {
            let place = random.below(self.bytes.len() + 1);
            places.extend((place..=self.bytes.len()).take(1 + random.below(3)));
        }
        let places: Vec<usize> = places.into_iter().collect();
        places.windows(2).map(|ends| &self.bytes[ends[0]..ends[1]]).collect()
    }

    fn few_bytes_each(&self) -> Vec<&[u8]> {
        let mut random = Random::new(self.seed);
        let (mut pieces, mut rest) = (Vec::new(), self.bytes.as_slice());
        while !rest.is_empty() {
            let (piece, after) = rest.split_at(rest.len().min(1 + random.below(FEW_BYTES)));
            pieces.push(piece);
            rest = after;
        }
        pieces
    }
}

/// How two texts come apart: the first line that isn't the same.
fn first_line(expected: &[u8], printed: &[u8]) -> String {
    let lines = |text| String::from_utf8_lossy(text).split_inclusive('\n').map(str::to_string).collect::<Vec<_>>();
    let (expected, printed) = (lines(expected), lines(printed));
    let same = expected.iter().zip(&printed).take_while(|(e, p)| e == p).count();
    let line = |lines: &[String]| lines.get(same).map_or("nothing".to_string(), |line| format!("{line:?}"));
    format!("line {} should be {}, and there is {}", same + 1, line(&expected), line(&printed))
}

fn first_byte(expected: &[u8], printed: &[u8]) -> String {
    let same = expected.iter().zip(printed).take_while(|(e, p)| e == p).count();
    let byte = |bytes: &[u8]| bytes.get(same).map_or("nothing".to_string(), |byte| byte.to_string());
    format!("byte {same} of the output should be {}, and there is {}", byte(expected), byte(printed))
}
