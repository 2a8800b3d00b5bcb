//! The lines of `motion`, and `sets`: under each line of an accepted field, indented, the whole set after that field:
//!
//! ```text
//! 1 2 -4096 8192
//!   identifiers 1
//!   centre 0
//!   term 1 : -4096          exponents, one for each identifier, then coefficients
//!   term 2 : 4096
//!   generator 5             one line each
//!   carried 0               the four parts of the radii
//!   rounded 0
//!   folded 0
//!   given 0
//!   mark 65536              the next new identifier
//! ```

use std::fmt::{Display, Write};

use run_file::MAX_DIMENSION;

use crate::run::{Accepted, Outcome, Refusal, Run};
use crate::set::{RadiusParts, Set};

pub fn motion(input: &[u8]) -> String {
    lines(input, |_| String::new())
}

pub fn sets(input: &[u8]) -> String {
    lines(input, |accepted| {
        let mut lines = shape_lines(&accepted.set);
        lines.extend(radius_lines(&accepted.set.radius_parts));
        lines.push(format!("mark {}", accepted.mark));
        lines.into_iter().map(|line| format!("  {line}\n")).collect()
    })
}

fn lines(input: &[u8], after_field: impl Fn(&Accepted) -> String) -> String {
    let mut text = String::new();
    let mut last = 0;
    // What folding added to the radius of each coordinate there can be, in all fields so far.
    let mut folded = [0; MAX_DIMENSION];
    for item in Run::new(input) {
        match item {
            Ok(accepted) => {
                text += &answer_line(&accepted);
                text += &after_field(&accepted);
                last = accepted.number;
                folded.iter_mut().zip(&accepted.folded).for_each(|(total, added)| *total += added);
            }
            Err(refusal) => return text + &refusal_line(&refusal),
        }
    }
    text + &format!("{}\nend {last}\n", labelled("folded", &folded))
}

fn answer_line(accepted: &Accepted) -> String {
    let mut line = format!("{} {}", accepted.number, accepted.field.tag() as u8);
    match &accepted.outcome {
        Outcome::Box(ends) => {
            for (low, high) in ends {
                // Writing to a string cannot fail.
                let _ = write!(line, " {low} {high}");
            }
        }
        Outcome::Verdict { safe } => line += if *safe { " safe" } else { " unknown" },
    }
    line + "\n"
}

fn refusal_line(refusal: &Refusal) -> String {
    format!("{} refused {} {}\n", refusal.field, refusal.cause as u8, refusal.place)
}

/// All of a set but its radii.
fn shape_lines(set: &Set) -> Vec<String> {
    let mut lines = vec![labelled("identifiers", &set.identifiers), labelled("centre", &set.centre)];
    for term in &set.terms {
        lines.push(format!("{} : {}", labelled("term", &term.exponents), joined(&term.coefficients)));
    }
    lines.extend(set.generators.iter().map(|generator| labelled("generator", generator)));
    lines
}

fn radius_lines(parts: &[RadiusParts]) -> [String; 4] {
    let line = |label, part: fn(&RadiusParts) -> i128| labelled(label, &parts.iter().map(part).collect::<Vec<_>>());
    [
        line("carried", |parts| parts.carried),
        line("rounded", |parts| parts.rounded),
        line("folded", |parts| parts.folded),
        line("given", |parts| parts.given),
    ]
}

pub fn labelled<T: Display>(label: &str, numbers: &[T]) -> String {
    if numbers.is_empty() {
        label.to_string()
    } else {
        format!("{label} {}", joined(numbers))
    }
}

fn joined<T: Display>(numbers: &[T]) -> String {
    numbers.iter().map(T::to_string).collect::<Vec<_>>().join(" ")
}
