//! What a refused field has wrong, in words: in which of its parts, by the plan's line where a plan is known.

use peer::run::Cause;
use run_file::{SPAN_LIMIT, UNIT};

use crate::encode::Placed;
use crate::number::rounded;

/// What is wrong, and in which part of the field; in none where it is the field as a whole.
#[derive(Debug)]
pub struct Fault {
    part: Option<(&'static str, usize)>,
    what: String,
}

impl Fault {
    /// In the part with this label: the one of coordinate `key` for a form, the one in this place for others, from 0 on.
    pub fn of(label: &'static str, key: usize, what: String) -> Fault {
        Fault { part: Some((label, key)), what }
    }

    pub fn of_field(what: String) -> Fault {
        Fault { part: None, what }
    }
}

/// What a field and its parts are called: by lines of a plan, or by their places where there is none.
pub struct Names<'a> {
    pub field: usize,
    pub placed: Option<&'a Placed>,
}

impl Names<'_> {
    pub fn part(&self, label: &str, key: usize) -> String {
        match self.placed {
            Some(placed) => format!("line {}", placed.block.line_of(label, key)),
            None if ["term", "generator", "halfspace", "Q", "Q+-"].contains(&label) => format!("{label} {}", key + 1),
            None => label.to_string(),
        }
    }

    /// The fault as a sentence, with the number of the refusal.
    pub fn sentence(&self, fault: &Fault, cause: Cause) -> String {
        let place = match (self.placed, fault.part) {
            (Some(_), Some((label, key))) => self.part(label, key),
            (Some(placed), None) => format!("line {}", placed.block.head),
            (None, Some((label, key))) => format!("field {}, {}", self.field, self.part(label, key)),
            (None, None) => format!("field {}", self.field),
        };
        format!("{place}: {} ({})", fault.what, cause as u8)
    }

    /// A field by its number and its line in the plan.
    pub fn numbered(&self) -> String {
        match self.placed {
            Some(placed) => format!("field {} ({placed})", self.field),
            None => format!("field {}", self.field),
        }
    }
}

/// How far coordinate `i` reaches, which is too far.
pub fn reach(i: usize, span: i128) -> String {
    format!("coordinate {} may reach {} from 0, more than {}", i + 1, rounded(span, UNIT, true), unit(SPAN_LIMIT))
}

/// A limit in the user's unit, in which each is a whole number.
pub fn unit(limit: i128) -> i128 {
    limit / UNIT
}

/// Why a field is refused, in general.
pub fn words(cause: Cause) -> &'static str {
    match cause {
        Cause::InputEnds => "the file ends inside a field, or has none",
        Cause::Tag => "a tag that no field has, or a start set that is not the first field and the only one",
        Cause::Length => "a length that is not the one which the field's counts give",
        Cause::Count => "a count outside its limits",
        Cause::Dimension => "a field for another number of coordinates than the set has",
        Cause::Range => "a number outside its range",
        Cause::Rule => "identifiers or terms out of order, numbers that are all 0, or an identifier in no term",
        Cause::Span => "a given set that is wider than 256 units",
        Cause::Factors => "more than 12 factors",
        Cause::ResultSpan => "a result that is wider than 256 units",
        Cause::TooManyFields => "more than 4,096 fields after the start set",
        Cause::EmptyDisturbance => "a disturbance whose radii are all 0",
    }
}
