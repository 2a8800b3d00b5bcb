//! The lines of a plan, as words.

use run_file::{Matrix, MAX_DIMENSION};

use crate::number::{count, Form, Slot, WORD};

/// What is wrong with a plan, and in which line; also what is only told.
#[derive(Clone, Debug, PartialEq, Eq)]
pub struct Mistake {
    pub line: usize,
    pub message: String,
}

/// A line with something on it; `:`, `{` and `}` are words of their own.
#[derive(Clone)]
pub struct Line {
    pub number: usize,
    pub label: String,
    pub words: Vec<String>,
    form: Form,
}

/// The lines of a text that have something on them, and how their numbers are written.
pub fn lines(text: &str) -> Result<Vec<Line>, Mistake> {
    let text = text.strip_prefix('\u{feff}').unwrap_or(text);
    let mut lines: Vec<Line> = text.lines().enumerate().filter_map(|(i, line)| Line::new(i + 1, line)).collect();
    match lines.first() {
        Some(first) if first.label == "grains" => {
            if !first.words.is_empty() {
                return first.mistake("'grains' stands alone in its line");
            }
            lines.remove(0);
            lines.iter_mut().for_each(|line| line.form = Form::Grains);
        }
        _ => {}
    }
    match lines.iter().find(|line| line.label == "grains") {
        Some(line) => line.mistake("'grains' stands once, before the first field"),
        None => Ok(lines),
    }
}

impl Line {
    fn new(number: usize, text: &str) -> Option<Line> {
        let mut text = text.split('#').next().unwrap_or("").to_string();
        for mark in [":", "{", "}"] {
            text = text.replace(mark, &format!(" {mark} "));
        }
        let mut words = text.split_whitespace().map(str::to_string);
        let label = words.next()?;
        Some(Line { number, label, words: words.collect(), form: Form::Units })
    }

    pub fn mistake<T>(&self, message: impl Into<String>) -> Result<T, Mistake> {
        Err(Mistake { line: self.number, message: message.into() })
    }

    pub fn numbers(&self, words: &[String], slot: Slot) -> Result<Vec<i128>, Mistake> {
        words.iter().map(|word| slot.parse(word, self.form).or_else(|message| self.mistake(message))).collect()
    }

    pub fn exactly(&self, words: &[String], size: usize, slot: Slot) -> Result<Vec<i128>, Mistake> {
        if words.len() != size {
            let numbers = if size == 1 { "number" } else { "numbers" };
            return self.mistake(format!("'{}' needs {size} {numbers} here, not {}", self.label, words.len()));
        }
        self.numbers(words, slot)
    }

    /// Dimensions, as many as there are words.
    pub fn dimensions(&self, words: &[String]) -> Result<Vec<usize>, Mistake> {
        let numbers = self.numbers(words, count(1, MAX_DIMENSION as i128))?;
        Ok(numbers.into_iter().map(|n| n as usize).collect())
    }

    /// The one number that stands after the word of most fields.
    pub fn dimension(&self) -> Result<usize, Mistake> {
        match self.words.as_slice() {
            [_] => Ok(self.dimensions(&self.words)?[0]),
            _ => self.mistake(format!("this is written '{} N', where N is how many coordinates it has", self.label)),
        }
    }

    /// What stands before and after the one `:`.
    pub fn halves(&self) -> Result<(&[String], &[String]), Mistake> {
        let mut parts = self.words.split(|word| word == ":");
        match (parts.next(), parts.next(), parts.next()) {
            (Some(before), Some(after), None) => Ok((before, after)),
            _ => self.mistake(format!("'{}' needs one ':'", self.label)),
        }
    }

    pub fn rows(&self, words: &[String], rows: usize, columns: usize) -> Result<Matrix, Mistake> {
        let parts: Vec<&[String]> = words.split(|word| word == "/").collect();
        if parts.len() != rows {
            let noun = if rows == 1 { "row" } else { "rows" };
            let spaces = if words.iter().any(|word| word.len() > 1 && word.contains('/')) {
                "; between rows '/' has a space on both sides"
            } else if rows == 1 {
                "; in a fraction '/' has no spaces"
            } else {
                ""
            };
            return self.mistake(format!("'{}' needs {rows} {noun}, not {}{spaces}", self.label, parts.len()));
        }
        parts.into_iter().map(|row| self.exactly(row, columns, WORD)).collect()
    }
}

/// The one part with this label, if any.
pub fn single<'a>(parts: &'a [Line], label: &str) -> Result<Option<&'a Line>, Mistake> {
    let mut found = parts.iter().filter(|part| part.label == label);
    match (found.next(), found.next()) {
        (_, Some(second)) => second.mistake(format!("a second '{label}' in one field")),
        (first, None) => Ok(first),
    }
}

/// The numbers of the one part with this label, or zeros.
pub fn vector(parts: &[Line], label: &str, size: usize) -> Result<Vec<i128>, Mistake> {
    match single(parts, label)? {
        Some(part) => part.exactly(&part.words, size, WORD),
        None => Ok(vec![0; size]),
    }
}

/// What each part with this label states.
pub fn several<'a, T>(
    parts: &'a [Line],
    label: &str,
    limit: usize,
    read: impl Fn(&'a Line) -> Result<T, Mistake>,
) -> Result<Vec<T>, Mistake> {
    let found: Vec<&Line> = parts.iter().filter(|part| part.label == label).collect();
    match found.get(limit) {
        Some(part) => part.mistake(format!("a field has at most {limit} of '{label}'")),
        None => found.into_iter().map(read).collect(),
    }
}

/// The rows of the one part with this label, or zeros.
pub fn matrix(parts: &[Line], label: &str, rows: usize, columns: usize) -> Result<Matrix, Mistake> {
    match single(parts, label)? {
        Some(part) => part.rows(&part.words, rows, columns),
        None => Ok(vec![vec![0; columns]; rows]),
    }
}

/// For each of m coordinates the form that is given for it, or zeros.
pub fn forms(parts: &[Line], label: &str, m: usize, n: usize) -> Result<Vec<Matrix>, Mistake> {
    let mut forms: Vec<Option<Matrix>> = vec![None; m];
    for part in parts.iter().filter(|part| part.label == label) {
        let (coordinate, rows) = part.halves()?;
        let i = part.exactly(coordinate, 1, count(1, m as i128))?[0] as usize - 1;
        if forms[i].replace(part.rows(rows, n, n)?).is_some() {
            return part.mistake(format!("a second '{label}' of coordinate {}", i + 1));
        }
    }
    Ok(forms.into_iter().map(|form| form.unwrap_or(vec![vec![0; n]; n])).collect())
}
