//! What `motion` printed for a run file, in words and in the user's unit. It reads the answers and works none out.

use std::io::{self, BufRead, Write};

use peer::run::{Cause, Refusal};
use run_file::{whole, Tag, HEADER, MAX_DIMENSION, UNIT};

use crate::block;
use crate::encode::Encoded;
use crate::fault::Names;
use crate::number::rounded;
use crate::refusal::{in_general, refusal};

/// A run of more fields than this is long: how far it is gets told meanwhile.
const LONG: usize = 512;
const TOLD_EVERY: usize = 64;

/// How an output ends.
#[derive(Debug, PartialEq, Eq)]
pub enum End {
    Whole,
    Refused,
    /// It stops before its end; or this line of it can't be the run's, for a reason.
    Cut,
    Foreign(usize, String),
}

/// What may go wrong while an output is read and put into words.
#[derive(Debug)]
pub enum Failure {
    Read(io::Error),
    Write(io::Error),
}

/// Writes each line of an output in words and, where it is whole or refused, what it comes to.
pub fn explain(
    run: &[u8],
    plan: Option<&Encoded>,
    output: impl BufRead,
    text: &mut impl Write,
    progress: &mut Option<impl Write>,
) -> Result<End, Failure> {
    let fields = fields(run);
    let mut explained = Explained { run, plan, fields: &fields, seen: Seen::default() };
    for (number, line) in output.split(b'\n').enumerate() {
        let line = line.map_err(Failure::Read)?;
        let line = String::from_utf8_lossy(&line);
        if let Some(progress) = progress.as_mut().filter(|_| fields.len() > LONG && number % TOLD_EVERY == 0) {
            // Nothing hangs on a progress line.
            let _ = write!(progress, "\rfield {number} of {}", fields.len()).and_then(|()| progress.flush());
        }
        match explained.line(&line) {
            Ok(words) => text.write_all(words.as_bytes()).map_err(Failure::Write)?,
            Err(what) => {
                explained.seen.end = End::Foreign(number + 1, what);
                break;
            }
        }
    }
    if let Some(progress) = progress.as_mut().filter(|_| fields.len() > LONG) {
        let _ = write!(progress, "\r\x1b[K").and_then(|()| progress.flush());
    }
    if matches!(explained.seen.end, End::Whole | End::Refused) {
        text.write_all(explained.summary().as_bytes()).map_err(Failure::Write)?;
    }
    Ok(explained.seen.end)
}

/// Where each whole field of a run file begins, and its tag; then where the rest begins, if there is any.
fn fields(run: &[u8]) -> Vec<(usize, u8)> {
    let (mut fields, mut place) = (Vec::new(), 0);
    while let Some((tag, body)) = whole(&run[place..]) {
        fields.push((place, tag));
        place += HEADER + body.len();
    }
    if let Some(tag) = run.get(place) {
        fields.push((place, *tag));
    }
    fields
}

struct Explained<'a> {
    run: &'a [u8],
    plan: Option<&'a Encoded>,
    fields: &'a [(usize, u8)],
    seen: Seen,
}

/// What an output has said so far.
#[derive(Debug)]
struct Seen {
    accepted: usize,
    safe: usize,
    unknown: usize,
    first_unknown: Option<usize>,
    /// Of each coordinate the widest box: its field and its ends.
    widest: Vec<(usize, i128, i128)>,
    folded: Option<Vec<i128>>,
    refusal: Option<Refusal>,
    end: End,
}

impl Default for Seen {
    fn default() -> Seen {
        Seen {
            accepted: 0,
            safe: 0,
            unknown: 0,
            first_unknown: None,
            widest: Vec::new(),
            folded: None,
            refusal: None,
            end: End::Cut,
        }
    }
}

impl Explained<'_> {
    /// A line of the output in words, or why it can't be the next one.
    fn line(&mut self, line: &str) -> Result<String, String> {
        let words: Vec<&str> = line.split(' ').collect();
        if self.seen.end != End::Cut {
            return Err("the output has ended before it".to_string());
        }
        match words.as_slice() {
            ["folded", totals @ ..] => self.folded(totals),
            ["end", last] => self.end(last),
            [number, "refused", cause, place] => self.refused(number, cause, place),
            [number, tag, answer @ ..] => self.answer(number, tag, answer),
            _ => Err("it is no line of 'motion'".to_string()),
        }
    }

    fn answer(&mut self, number: &str, tag: &str, answer: &[&str]) -> Result<String, String> {
        let field = self.seen.accepted;
        let (_, own) = *self.fields.get(field).ok_or("the run file has no such field")?;
        if number != field.to_string() || tag != own.to_string() || self.seen.folded.is_some() {
            return Err(format!("it should be the line of field {field}, whose tag is {own}"));
        }
        let kind = Tag::of(own).ok_or("no field has such a tag")?;
        let said = match answer {
            ["safe"] if kind == Tag::Check => {
                self.seen.safe += 1;
                "safe, no motion is in the unsafe region".to_string()
            }
            ["unknown"] if kind == Tag::Check => {
                self.seen.unknown += 1;
                self.seen.first_unknown.get_or_insert(field);
                "unknown, a motion may be in the unsafe region".to_string()
            }
            ends if kind != Tag::Check => self.ends(field, ends)?,
            _ => return Err("it is no line of a check".to_string()),
        };
        self.seen.accepted += 1;
        Ok(format!("{}, {}: {said}\n", self.names(field).numbered(), block::name(kind)))
    }

    /// The ends of a box.
    fn ends(&mut self, field: usize, words: &[&str]) -> Result<String, String> {
        let ends = numbers(words)?;
        if ends.is_empty() || ends.len() % 2 != 0 || ends.len() > 2 * MAX_DIMENSION {
            return Err("it has no low and high end for each coordinate".to_string());
        }
        let mut said = Vec::new();
        for (i, pair) in ends.chunks(2).enumerate() {
            let (low, high) = (pair[0], pair[1]);
            said.push(format!("coordinate {} from {}", i + 1, interval(low, high)));
            match self.seen.widest.get_mut(i) {
                Some(widest) if widest.2 - widest.1 < high - low => *widest = (field, low, high),
                Some(_) => {}
                None => self.seen.widest.push((field, low, high)),
            }
        }
        Ok(said.join(", "))
    }

    fn folded(&mut self, totals: &[&str]) -> Result<String, String> {
        if self.seen.accepted != self.fields.len() || self.seen.folded.is_some() || totals.len() != MAX_DIMENSION {
            return Err(format!("field {} has no line yet", self.seen.accepted));
        }
        self.seen.folded = Some(numbers(totals)?);
        Ok(String::new())
    }

    fn end(&mut self, last: &str) -> Result<String, String> {
        if self.seen.folded.is_none() || last.parse() != Ok(self.fields.len() - 1) {
            return Err("the run does not end there".to_string());
        }
        self.seen.end = End::Whole;
        Ok(String::new())
    }

    fn refused(&mut self, number: &str, cause: &str, place: &str) -> Result<String, String> {
        let field = self.seen.accepted;
        let begins = self.fields.get(field).map_or(self.run.len(), |(place, _)| *place);
        if number != field.to_string() || place != begins.to_string() || self.seen.folded.is_some() {
            return Err(format!("the next field is {field}, which begins at byte {begins}"));
        }
        let known = Cause::ALL.into_iter().find(|known| cause == (*known as u8).to_string());
        let cause = known.ok_or("it refuses with a number that is not a run's")?;
        self.seen.refusal = Some(Refusal { field, cause, place: begins });
        self.seen.end = End::Refused;
        Ok(String::new())
    }

    fn names(&self, field: usize) -> Names<'_> {
        let place = self.fields.get(field).map_or(self.run.len(), |(place, _)| *place);
        Names { field, placed: self.plan.and_then(|plan| plan.at(place)) }
    }

    fn summary(&self) -> String {
        let Seen { accepted, safe, unknown, .. } = self.seen;
        let closing = if self.seen.refusal.is_some() { "then a refusal" } else { "which is the whole run" };
        let fields = if accepted == 1 { "field" } else { "fields" };
        let mut text = format!("\n{accepted} {fields} accepted, {closing}\n");
        text += &match self.seen.first_unknown {
            None if safe == 0 => "no checks\n".to_string(),
            None => format!("checks: {safe} safe, none unknown\n"),
            Some(first) => {
                let first = self.names(first).numbered();
                format!("checks: {safe} safe, {unknown} UNKNOWN, the first of them {first}\n")
            }
        };
        for (i, (field, low, high)) in self.seen.widest.iter().enumerate() {
            let field = self.names(*field).numbered();
            text += &format!("coordinate {} is widest at {field}: from {}\n", i + 1, interval(*low, *high));
        }
        if let Some(totals) = &self.seen.folded {
            let added = |(i, total): (usize, &i128)| format!("{} to coordinate {}", rounded(*total, UNIT, true), i + 1);
            let added: Vec<String> = totals.iter().enumerate().filter(|(_, total)| **total != 0).map(added).collect();
            let added = if added.is_empty() { "nothing".to_string() } else { added.join(", ") };
            text += &format!("folding added {added}\n");
        }
        match &self.seen.refusal {
            None => text,
            Some(own) => match refusal(self.run, self.plan).filter(|told| told.refusal == *own) {
                Some(told) => text + &told.lines,
                None => format!("{text}refused: {}\n", in_general(own, &self.names(own.field))),
            },
        }
    }
}

/// Two ends in the user's unit, rounded rounded.
fn interval(low: i128, high: i128) -> String {
    format!("{} to {}", rounded(low, UNIT, false), rounded(high, UNIT, true))
}

fn numbers(words: &[&str]) -> Result<Vec<i128>, String> {
    words.iter().map(|word| word.parse().map_err(|_| format!("'{word}' is not a number"))).collect()
}
