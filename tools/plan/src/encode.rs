//! From a plan to its run file. The grammar is in docs/USING.md.

use std::fmt;
use std::rc::Rc;
use std::slice::from_ref;

use run_file::Tag;

use crate::block;
use crate::line::{lines, Line, Mistake};
use crate::number::count;

/// Repeats that give more bytes than the longest run has, or nest deeper, are taken for a slip.
const MAX_BYTES: usize = 1 << 24;
const MAX_DEPTH: usize = 16;

/// A plan's run file, where each block's bytes begin, and what is told of blocks that are seldom meant so.
#[derive(Debug, Default)]
pub struct Encoded {
    pub bytes: Vec<u8>,
    pub blocks: Vec<Placed>,
    pub notes: Vec<Mistake>,
}

/// The bytes of a block begin here; in repeats, in which round of each, the outermost first.
#[derive(Clone, Debug)]
pub struct Placed {
    pub byte: usize,
    pub block: Rc<Block>,
    pub rounds: Vec<usize>,
}

/// The lines of a block: its first one, and each part with its label and its key, as `Fault` has it.
#[derive(Debug)]
pub struct Block {
    pub head: usize,
    pub parts: Vec<(String, usize, usize)>,
}

impl Encoded {
    fn push(&mut self, bytes: &[u8], block: Block) {
        if !bytes.is_empty() {
            self.blocks.push(Placed { byte: self.bytes.len(), block: Rc::new(block), rounds: Vec::new() });
            self.bytes.extend(bytes);
        }
    }

    fn append(&mut self, other: &Encoded, round: usize) {
        let offset = self.bytes.len();
        self.blocks.extend(other.blocks.iter().map(|placed| Placed {
            byte: offset + placed.byte,
            block: Rc::clone(&placed.block),
            rounds: [&[round], placed.rounds.as_slice()].concat(),
        }));
        self.bytes.extend(&other.bytes);
    }

    /// The block that has this byte, or after which it would stand.
    pub fn at(&self, byte: usize) -> Option<&Placed> {
        self.blocks[..self.blocks.partition_point(|placed| placed.byte <= byte)].last()
    }
}

impl Block {
    /// The line of a part, or the first one where the part is left out.
    pub fn line_of(&self, label: &str, key: usize) -> usize {
        let found = self.parts.iter().find(|(own, place, _)| own == label && *place == key);
        found.map_or(self.head, |(_, _, line)| *line)
    }
}

impl fmt::Display for Placed {
    fn fmt(&self, out: &mut fmt::Formatter) -> fmt::Result {
        write!(out, "line {}", self.block.head)?;
        match self.rounds.as_slice() {
            [] => Ok(()),
            [round] => write!(out, ", round {round}"),
            rounds => {
                let rounds: Vec<String> = rounds.iter().map(usize::to_string).collect();
                write!(out, ", rounds {}", rounds.join(", "))
            }
        }
    }
}

pub fn encode(text: &str) -> Result<Encoded, Mistake> {
    let lines = lines(text)?;
    match lines.iter().find(|line| line.label != "}" && words().all(|word| word != line.label)) {
        Some(line) => line.mistake(unknown(&line.label)),
        None => blocks(&mut lines.as_slice(), &[]),
    }
}

/// The blocks up to the end of the plan or, inside open repeats, up to the last one's `}`.
fn blocks(lines: &mut &[Line], open: &[&Line]) -> Result<Encoded, Mistake> {
    let mut encoded = Encoded::default();
    while let Some((head, rest)) = lines.split_first() {
        *lines = rest;
        match head.label.as_str() {
            "}" if !open.is_empty() && head.words.is_empty() => return Ok(encoded),
            "}" => return head.mistake("'}' stands alone and closes a repeat"),
            "repeat" => {
                let times = match head.words.as_slice() {
                    [times, brace] if brace == "{" => head.numbers(from_ref(times), count(0, 65_536))?[0] as usize,
                    _ => return head.mistake("a repeat is written 'repeat COUNT {'"),
                };
                if open.len() == MAX_DEPTH {
                    return head.mistake(format!("repeats stand at most {MAX_DEPTH} deep"));
                }
                let inner = blocks(lines, &[open, &[head]].concat())?;
                if inner.bytes.len() * times + encoded.bytes.len() > MAX_BYTES {
                    return head.mistake("the plan is too long");
                }
                (1..=times).for_each(|round| encoded.append(&inner, round));
                encoded.notes.extend(inner.notes);
            }
            "raw" => encoded.push(&raw(head)?, Block { head: head.number, parts: Vec::new() }),
            label if is_part(label) => return head.mistake(format!("'{label}' stands under no field that has it")),
            label => {
                let Some(tag) = Tag::ALL.iter().copied().find(|tag| block::word(*tag) == label) else {
                    return head.mistake(unknown(label));
                };
                let size = rest.iter().take_while(|line| is_part(&line.label)).count();
                let (parts, rest) = rest.split_at(size);
                *lines = rest;
                let field = block::read(tag, head, parts)?;
                if let Some(message) = block::note(&field, parts) {
                    encoded.notes.push(Mistake { line: head.number, message });
                }
                encoded.push(&field.encode(), Block { head: head.number, parts: keyed(parts) });
            }
        }
    }
    match open.last() {
        Some(line) => line.mistake("this repeat has no '}'"),
        None => Ok(encoded),
    }
}

/// Each part with its label, its key and its line. A form's key is its coordinate, any other part's its place.
fn keyed(parts: &[Line]) -> Vec<(String, usize, usize)> {
    let key = |i: usize| match parts[i].words.first().and_then(|word| word.parse::<usize>().ok()) {
        Some(coordinate) if parts[i].label.starts_with('Q') => coordinate - 1,
        _ => parts[..i].iter().filter(|part| part.label == parts[i].label).count(),
    };
    (0..parts.len()).map(|i| (parts[i].label.clone(), key(i), parts[i].number)).collect()
}

fn raw(head: &Line) -> Result<Vec<u8>, Mistake> {
    let or_mistake = |word: &String| match byte(word.as_bytes()) {
        Some(byte) => Ok(byte),
        None => head.mistake(format!("'{word}' is not a byte of two hexadecimal digits")),
    };
    head.words.iter().map(or_mistake).collect()
}

/// The byte that two hexadecimal digits state.
pub(crate) fn byte(digits: &[u8]) -> Option<u8> {
    let digit = |d: u8| char::from(d).to_digit(16).map(|v| v as u8);
    match *digits {
        [high, low] => digit(high).zip(digit(low)).map(|(high, low)| 16 * high + low),
        _ => None,
    }
}

/// Whether a line that begins so stands under a field.
fn is_part(label: &str) -> bool {
    Tag::ALL.iter().any(|tag| block::parts(*tag).contains(&label))
}

/// The words that a plan's lines begin with, besides a closing brace.
fn words() -> impl Iterator<Item = &'static str> {
    let parts = Tag::ALL.iter().flat_map(|tag| block::parts(*tag).iter().copied());
    ["grains", "raw", "repeat"].into_iter().chain(Tag::ALL.iter().map(|tag| block::word(*tag))).chain(parts)
}

/// What is said of a line that begins with none of them.
fn unknown(label: &str) -> String {
    let what = format!("'{label}' is not a word that a plan's line begins with");
    if label == "/" || label.starts_with(|c: char| c.is_ascii_digit() || ['-', '+', '.'].contains(&c)) {
        return format!("{what}; a list of numbers, a matrix too, stands in one line");
    }
    let distance = |word: &&str| distance(&label.to_lowercase(), &word.to_lowercase());
    match words().min_by_key(distance).filter(|word| distance(word) <= (2 * label.len() / 5).min(2)) {
        Some(word) => format!("{what}; '{word}' is"),
        None => what,
    }
}

/// How many letters have to be put in, left out or exchanged.
fn distance(one: &str, other: &str) -> usize {
    let other: Vec<char> = other.chars().collect();
    let mut row: Vec<usize> = (0..=other.len()).collect();
    for (i, letter) in one.chars().enumerate() {
        let mut corner = std::mem::replace(&mut row[0], i + 1);
        for (j, own) in other.iter().enumerate() {
            let exchanged = corner + usize::from(letter != *own);
            corner = row[j + 1];
            row[j + 1] = exchanged.min(row[j] + 1).min(corner + 1);
        }
    }
    row[other.len()]
}
