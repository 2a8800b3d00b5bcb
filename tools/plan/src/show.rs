//! The other way: any bytes as a plan whose encoding they are. What doesn't read as a field, and all after it, is shown
//! as raw bytes.

use std::fmt::Write;

use run_file::{whole, Field, Tag, HEADER};

use crate::block;
use crate::number::Form;

const RAW_BYTES_A_LINE: usize = 24;

pub fn show(input: &[u8], form: Form) -> String {
    let mut text = match form {
        Form::Units => String::new(),
        Form::Grains => "grains\n".to_string(),
    };
    let mut place = 0;
    let mut number = 0;
    while let Some((field, length)) = well_formed(&input[place..]) {
        let (head, parts) = block::text(&field, form);
        // Writing to a string cannot fail.
        let _ = writeln!(text, "{head}  # field {number}, byte {place}");
        for part in parts {
            let _ = writeln!(text, "  {part}");
        }
        place += length;
        number += 1;
    }
    if place < input.len() {
        let _ = writeln!(text, "# field {number}, byte {place}: not a well-formed field");
    }
    for bytes in input[place..].chunks(RAW_BYTES_A_LINE) {
        let bytes: Vec<String> = bytes.iter().map(|b| format!("{b:02x}")).collect();
        let _ = writeln!(text, "raw {}", bytes.join(" "));
    }
    text
}

/// The field at the front, if it is whole, with counts that a plan can state and the length they give.
fn well_formed(input: &[u8]) -> Option<(Field, usize)> {
    let (tag, body) = whole(input)?;
    let tag = Tag::of(tag)?;
    let fits = body.len() >= tag.counts().len() && block::can_be_stated(tag, body) && body.len() == tag.length(body);
    fits.then(|| (tag.decode(body), HEADER + body.len()))
}
