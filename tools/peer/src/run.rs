//! The run: fields read one after the other, each accepted or refused; the first refusal ends it.

use run_file::{whole, Field, Tag, HEADER, MAX_FIELDS};

use crate::finish::{Finished, Folds};
use crate::kind;
pub use crate::kind::{advance, taken_dimension};
use crate::set::Set;

/// The first identifier that no file can name.
pub const FIRST_MARK: i128 = 65_536;

/// Why a field is refused, with the papers' number; 11 and 13 belong to a library's calls.
#[derive(Clone, Copy, Debug, PartialEq, Eq, PartialOrd, Ord)]
pub enum Cause {
    InputEnds = 1,
    Tag = 2,
    Length = 3,
    Count = 4,
    Dimension = 5,
    Range = 6,
    Rule = 7,
    Span = 8,
    Factors = 9,
    ResultSpan = 10,
    TooManyFields = 12,
    EmptyDisturbance = 14,
}

impl Cause {
    pub const ALL: [Cause; 12] = [
        Cause::InputEnds,
        Cause::Tag,
        Cause::Length,
        Cause::Count,
        Cause::Dimension,
        Cause::Range,
        Cause::Rule,
        Cause::Span,
        Cause::Factors,
        Cause::ResultSpan,
        Cause::TooManyFields,
        Cause::EmptyDisturbance,
    ];

    /// The refusal, unless what it is about holds.
    pub fn unless(self, holds: bool) -> Result<(), Cause> {
        if holds {
            Ok(())
        } else {
            Err(self)
        }
    }
}

#[derive(Clone, Copy, Debug, PartialEq, Eq)]
pub struct Refusal {
    pub field: usize,
    pub cause: Cause,
    /// Where the field's tag stands, or would stand, in the input.
    pub place: usize,
}

#[derive(Clone, Debug, PartialEq, Eq)]
pub enum Outcome {
    Box(Vec<(i128, i128)>),
    Verdict { safe: bool },
}

/// What passes from field to field.
#[derive(Clone, Debug, PartialEq, Eq)]
pub struct State {
    pub set: Option<Set>,
    /// The next new identifier (document 01: the mark).
    pub mark: i128,
}

impl State {
    pub fn empty() -> State {
        State { set: None, mark: FIRST_MARK }
    }

    /// The set, which every field but the first needs.
    pub fn current(&self) -> Result<&Set, Cause> {
        self.set.as_ref().ok_or(Cause::Tag)
    }
}

/// An accepted field with the set and the mark after it.
#[derive(Clone, Debug)]
pub struct Accepted {
    pub number: usize,
    pub field: Field,
    pub outcome: Outcome,
    pub set: Set,
    pub mark: i128,
    /// For each generator of the set, its place in the list before finishing, in which a sum's body
    /// stands after the set; a hull has none.
    pub kept: Vec<usize>,
    pub folds: Folds,
    /// What folding added to each coordinate's radius.
    pub folded: Vec<i128>,
}

pub struct Run<'a> {
    input: &'a [u8],
    place: usize,
    number: usize,
    state: State,
    over: bool,
}

impl<'a> Run<'a> {
    pub fn new(input: &'a [u8]) -> Run<'a> {
        Run { input, place: 0, number: 0, state: State::empty(), over: false }
    }

    fn next_field(&mut self) -> Result<Accepted, Cause> {
        let rest = &self.input[self.place..];
        let (field, length) = read_field(rest, self.number)?;
        let (finished, mark) = apply(&field, &self.state)?;
        let outcome = kind::answer(&field, &finished.set);
        self.state = State { set: Some(finished.set.clone()), mark };
        self.place += length;
        let number = self.number;
        self.number += 1;
        let Finished { set, kept, folds, folded } = finished;
        Ok(Accepted { number, field, outcome, set, mark, kept, folds, folded })
    }
}

/// The accepted fields and at most one refusal, which is the last item.
impl Iterator for Run<'_> {
    type Item = Result<Accepted, Refusal>;

    fn next(&mut self) -> Option<Self::Item> {
        if self.over || (self.number > 0 && self.place == self.input.len()) {
            return None;
        }
        let (field, place) = (self.number, self.place);
        Some(self.next_field().map_err(|cause| {
            self.over = true;
            Refusal { field, cause, place }
        }))
    }
}

/// The field at the front of the input and its length in bytes, or one of 12, 2, 1, 3, 4, 3.
pub fn read_field(input: &[u8], number: usize) -> Result<(Field, usize), Cause> {
    Cause::TooManyFields.unless(number <= MAX_FIELDS)?;
    let tag = Tag::of(*input.first().ok_or(Cause::InputEnds)?).ok_or(Cause::Tag)?;
    Cause::Tag.unless((tag == Tag::Start) == (number == 0))?;
    let (_, body) = whole(input).ok_or(Cause::InputEnds)?;
    Cause::Length.unless(body.len() >= tag.counts().len())?;
    Cause::Count.unless(tag.counts_fit(body))?;
    Cause::Length.unless(body.len() == tag.length(body))?;
    Ok((tag.decode(body), HEADER + body.len()))
}

/// The finished set after a field whose counts fit, and the mark, or one of 5 to 10 and 14.
pub fn apply(field: &Field, state: &State) -> Result<(Finished, i128), Cause> {
    if let (Some(taken), Some(set)) = (kind::taken_dimension(field), &state.set) {
        Cause::Dimension.unless(taken == set.dimension())?;
    }
    kind::look(field)?;
    let (finished, mark) = kind::advance(field, state)?;
    Cause::ResultSpan.unless(!finished.set.is_too_wide())?;
    Ok((finished, mark))
}
