//! Bodies as text, a file for each sort: the block that states one, and where it breaks a rule.

mod check;
mod disturbance;
mod reduction;
mod set;
mod step;

use std::fmt::Display;

use peer::run::Cause;
use run_file::{counts_fit, kind, Body, Field, Kind, Tag};

use crate::fault::{Fault, Names};
use crate::line::{Line, Mistake};
use crate::number::{Form, WORD};

/// What the lines under a field can begin with, or what its counts count.
pub type Labels = &'static [&'static str];

trait Block: Body {
    const PARTS: Labels;
    /// What its counts are counts of.
    const COUNTED: Labels;

    /// Whether a plan can state these counts.
    fn can_be_stated(counts: &[u8]) -> bool {
        counts_fit(Self::COUNTS, counts)
    }

    /// What stands after the field's word, and the lines under that.
    fn text(&self, form: Form) -> (String, Vec<String>);

    /// The body that a block states, by its first line and those under it, all of which begin with one of `PARTS`.
    fn read(head: &Line, parts: &[Line]) -> Result<Self, Mistake>;

    /// What is to be told of a body that is right but seldom meant.
    fn note(&self, _parts: &[Line]) -> Option<String> {
        None
    }

    /// Where it has what 6, 7, 8 or 14 refuses.
    fn fault(&self, cause: Cause, names: &Names) -> Option<Fault>;
}

/// What a kind of field is called.
trait Word: Kind {
    /// What its block begins with.
    const WORD: &'static str;
    /// What a sentence calls it.
    const NAME: &'static str;
}

macro_rules! words {
    ($($name:ident: $word:literal, $long:literal;)*) => {
        $(impl Word for kind::$name {
            const WORD: &'static str = $word;
            const NAME: &'static str = $long;
        })*
    };
}

words! {
    Start: "start", "start set";
    Step: "step", "step";
    Disturbance: "disturbance", "disturbance";
    Independent: "independent", "independent sum";
    Tied: "tied", "tied sum";
    Reduce: "reduce", "reduction";
    Check: "check", "check";
    Hull: "hull", "hull";
    Ranged: "ranged", "ranged step";
}

macro_rules! by_kind {
    ($($name:ident($body:ty) = $tag:literal,)*) => {
        pub fn word(tag: Tag) -> &'static str {
            match tag { $(Tag::$name => kind::$name::WORD,)* }
        }

        pub fn name(tag: Tag) -> &'static str {
            match tag { $(Tag::$name => kind::$name::NAME,)* }
        }

        pub fn parts(tag: Tag) -> Labels {
            match tag { $(Tag::$name => <$body>::PARTS,)* }
        }

        pub fn counted(tag: Tag) -> Labels {
            match tag { $(Tag::$name => <$body>::COUNTED,)* }
        }

        pub fn can_be_stated(tag: Tag, counts: &[u8]) -> bool {
            match tag { $(Tag::$name => <$body>::can_be_stated(counts),)* }
        }

        fn read_body(tag: Tag, head: &Line, parts: &[Line]) -> Result<Field, Mistake> {
            match tag { $(Tag::$name => <$body>::read(head, parts).map(Field::$name),)* }
        }

        fn body_text(field: &Field, form: Form) -> (String, Vec<String>) {
            match field { $(Field::$name(body) => body.text(form),)* }
        }

        pub fn note(field: &Field, parts: &[Line]) -> Option<String> {
            match field { $(Field::$name(body) => body.note(parts),)* }
        }

        pub fn fault(field: &Field, cause: Cause, names: &Names) -> Option<Fault> {
            match field { $(Field::$name(body) => body.fault(cause, names),)* }
        }
    };
}

run_file::for_each_kind!(by_kind);

/// The field that a block states.
pub fn read(tag: Tag, head: &Line, lines: &[Line]) -> Result<Field, Mistake> {
    match lines.iter().find(|line| !parts(tag).contains(&line.label.as_str())) {
        Some(line) => line.mistake(format!("'{}' does not belong under '{}'", line.label, head.label)),
        None => read_body(tag, head, lines),
    }
}

/// A field's block: its first line and those under it.
pub fn text(field: &Field, form: Form) -> (String, Vec<String>) {
    let (head, parts) = body_text(field, form);
    (format!("{} {head}", word(field.tag())), parts)
}

/// A label and the words after it.
fn labelled<T: Display>(label: &str, words: &[T]) -> String {
    words.iter().fold(label.to_string(), |line, word| format!("{line} {word}"))
}

/// Words of sets and steps.
fn words(numbers: &[i128], form: Form) -> Vec<String> {
    numbers.iter().map(|v| WORD.text(*v, form)).collect()
}
