//! Laser logs as text: a word for each entry, a decimal number in the user's unit or `missing`. Bytes that these don't
//! state are written `raw:` and two hexadecimal digits a byte.

use std::fmt::Write;

use peer::laser::ENTRY;

use crate::encode::byte;
use crate::line::Mistake;
use crate::number::{is_decimal, not_a_number};

const MISSING: &str = "missing";
const RAW: &str = "raw:";

/// The log that a text states.
pub fn log(text: &str) -> Result<Vec<u8>, Mistake> {
    let text = text.strip_prefix('\u{feff}').unwrap_or(text);
    let mut log = Vec::new();
    for (i, line) in text.lines().enumerate() {
        for word in line.split('#').next().unwrap_or("").split_whitespace() {
            log.extend(stated(word).map_err(|message| Mistake { line: i + 1, message })?);
        }
    }
    Ok(log)
}

/// Any bytes as a text that states them, a line for each entry.
pub fn show_log(log: &[u8]) -> String {
    let mut text = String::new();
    for (i, entry) in log.chunks(ENTRY).enumerate() {
        let note = match entry {
            [0, 0, 0, 0, 0] => "",
            [0, _, _, _, _] => ": missing",
            _ if reading(entry).is_some() => "",
            _ => ": not an entry",
        };
        // Writing to a string cannot fail.
        let _ = writeln!(text, "{}  # byte {}{note}", word(entry), i * ENTRY);
    }
    text
}

/// The bytes that a word states.
fn stated(word: &str) -> Result<Vec<u8>, String> {
    if word == MISSING {
        return Ok(vec![0; ENTRY]);
    }
    if let Some(digits) = word.strip_prefix(RAW) {
        let bytes: Option<Vec<u8>> = digits.as_bytes().chunks(2).map(byte).collect();
        let bytes = bytes.filter(|bytes| !bytes.is_empty());
        return bytes.ok_or_else(|| format!("'{word}' has to have two hexadecimal digits for each byte after '{RAW}'"));
    }
    if !is_decimal(word) {
        let more = match word.chars().next() {
            Some(letter) if letter.is_alphabetic() => format!(", nor '{MISSING}', nor '{RAW}' with bytes"),
            _ if word.contains('/') => ": a reading is a decimal number and no fraction".to_string(),
            _ => String::new(),
        };
        return Err(not_a_number(word) + &more);
    }
    match word.parse::<f32>() {
        Ok(reading) if reading.is_finite() => Ok([&[1], &reading.to_le_bytes()[..]].concat()),
        _ => Err(format!("{word} is larger than any 32-bit float")),
    }
}

/// The word for up to as many bytes as an entry has.
fn word(bytes: &[u8]) -> String {
    match (bytes, reading(bytes)) {
        ([0, 0, 0, 0, 0], _) => MISSING.to_string(),
        // As few digits as tell it from its neighbours.
        (_, Some(reading)) => reading.to_string(),
        _ => bytes.iter().fold(RAW.to_string(), |word, byte| format!("{word}{byte:02x}")),
    }
}

/// The finite reading of an entry that has one.
fn reading(entry: &[u8]) -> Option<f32> {
    match entry {
        &[1, a, b, c, d] => Some(f32::from_le_bytes([a, b, c, d])).filter(|reading| reading.is_finite()),
        _ => None,
    }
}
