//! Numbers as a plan writes them: in the user's unit, or, in a plan that says `grains`, the file's own whole numbers.

use run_file::{SQUARE_UNIT, UNIT};

/// How a plan writes its numbers.
#[derive(Clone, Copy, Debug, PartialEq, Eq)]
pub enum Form {
    Units,
    Grains,
}

/// What a number's place in the file asks of it.
#[derive(Clone, Copy)]
pub struct Slot {
    low: i128,
    high: i128,
    /// How many of the file's units make one of the user's; none where a number only counts.
    scale: Option<i128>,
}

/// Words of sets and steps: grains, or entries in 1/4096.
pub const WORD: Slot = Slot { low: i32::MIN as i128, high: i32::MAX as i128, scale: Some(UNIT) };
/// A halfspace's b, in 1/16,777,216.
pub const BOUND: Slot = Slot { low: i64::MIN as i128, high: i64::MAX as i128, scale: Some(SQUARE_UNIT) };
pub const IDENTIFIER: Slot = Slot { scale: None, ..WORD };
pub const BYTE: Slot = count(0, 255);

/// Numbers with up to so many decimals are written with a point, others as fractions.
const EXACT: u32 = 6;
/// Ends of boxes are rounded to so many decimals.
const ROUNDED: u32 = 4;

pub const fn count(low: i128, high: i128) -> Slot {
    Slot { low, high, scale: None }
}

impl Slot {
    /// The file's number that a word states, or what is wrong with the word.
    pub fn parse(self, word: &str, form: Form) -> Result<i128, String> {
        let (numerator, denominator) = fraction(word)?;
        let value = match (self.scale, form) {
            (Some(scale), Form::Units) => scaled(word, numerator, denominator, scale)?,
            (None, _) if !is_whole(word) => return Err(format!("'{word}' has to be a whole number")),
            (Some(_), Form::Grains) if !is_whole(word) => {
                return Err(format!("'{word}' has to be a whole number, as this plan counts in grains"))
            }
            _ => numerator,
        };
        if (self.low..=self.high).contains(&value) {
            return Ok(value);
        }
        let (low, high) = match (self.scale, form) {
            (Some(scale), Form::Units) => (self.low / scale, format!("below {}", (self.high + 1) / scale)),
            _ => (self.low, self.high.to_string()),
        };
        Err(format!("{word} is not from {low} to {high}"))
    }

    /// The file's number as a plan of this form writes it.
    pub fn text(self, value: i128, form: Form) -> String {
        match (self.scale, form) {
            (Some(scale), Form::Units) => exactly(value, scale),
            _ => value.to_string(),
        }
    }
}

/// value/scale as a whole number, with a few decimals, or as a fraction.
fn exactly(value: i128, scale: i128) -> String {
    let shifted = value * 10i128.pow(EXACT);
    if shifted % scale == 0 {
        decimal(shifted / scale, EXACT)
    } else {
        format!("{value}/{scale}")
    }
}

/// value/scale with a few decimals, rounded up or down.
pub fn rounded(value: i128, scale: i128, up: bool) -> String {
    let shifted = value * 10i128.pow(ROUNDED);
    let below = shifted.div_euclid(scale);
    decimal(if up && shifted % scale != 0 { below + 1 } else { below }, ROUNDED)
}

/// value over a power of ten, without needless zeros.
fn decimal(value: i128, places: u32) -> String {
    let one = 10u128.pow(places);
    let sign = if value < 0 { "-" } else { "" };
    let (whole, rest) = (value.unsigned_abs() / one, value.unsigned_abs() % one);
    if rest == 0 {
        format!("{sign}{whole}")
    } else {
        let digits = format!("{rest:0width$}", width = places as usize);
        format!("{sign}{whole}.{}", digits.trim_end_matches('0'))
    }
}

/// numerator/denominator times scale, which has to be whole.
fn scaled(word: &str, numerator: i128, denominator: i128, scale: i128) -> Result<i128, String> {
    let product = numerator.checked_mul(scale).ok_or_else(|| too_long(word))?;
    if product % denominator == 0 {
        return Ok(product / denominator);
    }
    let below = product.div_euclid(denominator);
    let near = |value: i128| format!("{value}/{scale} (about {})", about(value, scale));
    Err(format!("{word} is not a whole number of 1/{scale}: {} and {} are nearest", near(below), near(below + 1)))
}

/// value/scale to as many decimals as tell neighbours apart.
fn about(value: i128, scale: i128) -> String {
    let decimals = if scale == UNIT { 5 } else { 9 };
    format!("{:.decimals$}", value as f64 / scale as f64)
}

/// The number that a word states as a fraction, exactly.
fn fraction(word: &str) -> Result<(i128, i128), String> {
    let digits = word.strip_prefix(['-', '+']).unwrap_or(word);
    let number = |digits: &str| digits.parse::<i128>().map_err(|_| too_long(word));
    let (magnitude, denominator) = if let Some((above, below)) = digits.split_once('/') {
        if !is_digits(above) || !is_digits(below) {
            return Err(not_a_number(word));
        }
        (number(above)?, number(below)?)
    } else if let Some((whole, decimals)) = digits.split_once('.') {
        let all = format!("{whole}{decimals}");
        if !is_digits(&all) {
            return Err(not_a_number(word));
        }
        let power = u32::try_from(decimals.len()).ok().and_then(|places| 10i128.checked_pow(places));
        (number(&all)?, power.ok_or_else(|| too_long(word))?)
    } else if is_digits(digits) {
        (number(digits)?, 1)
    } else {
        return Err(not_a_number(word));
    };
    if denominator == 0 {
        return Err(format!("'{word}' divides by 0; between the rows of a matrix '/' has a space on both sides"));
    }
    Ok((if word.starts_with('-') { -magnitude } else { magnitude }, denominator))
}

/// Whether a word is a number with or without a point, as long as it may be.
pub(crate) fn is_decimal(word: &str) -> bool {
    is_digits(&word.strip_prefix(['-', '+']).unwrap_or(word).replacen('.', "", 1))
}

fn is_whole(word: &str) -> bool {
    !word.contains(['.', '/'])
}

fn is_digits(text: &str) -> bool {
    !text.is_empty() && text.bytes().all(|b| b.is_ascii_digit())
}

fn too_long(word: &str) -> String {
    format!("'{word}' has too many digits")
}

/// What is wrong, and for what people often write how it is written here.
pub(crate) fn not_a_number(word: &str) -> String {
    let digits = |text: &str| text.trim_start_matches(['-', '+']).starts_with(|c: char| c.is_ascii_digit() || c == '.');
    let hint = if word.starts_with(['\u{2212}', '\u{2013}', '\u{2014}']) {
        ": its minus sign is not '-'"
    } else if !digits(word) {
        ""
    } else if word.contains(',') {
        ": the decimal mark is '.', and nothing stands between digits or after a number"
    } else if word.contains(['e', 'E'])
        && word.trim_end_matches(|c: char| c.is_ascii_digit()).ends_with(['e', 'E', '-', '+'])
    {
        ": it is written out, as 0.001"
    } else if word.ends_with('%') {
        ": 5% is written 0.05"
    } else if word.ends_with(|c: char| c.is_alphabetic()) {
        ": no unit stands after a number"
    } else {
        ""
    };
    format!("'{word}' is not a number{hint}")
}
