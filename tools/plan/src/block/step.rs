//! A step's block, and a ranged step's, which is a step's with half-widths.

use peer::run::Cause;
use run_file::{HalfWidths, Matrix, RangedStep, Step, CONSTANT_LIMIT, ENTRY_LIMIT};

use super::{labelled, words, Block, Labels};
use crate::fault::{unit, Fault, Names};
use crate::line::{forms, matrix, vector, Line, Mistake};
use crate::number::Form;

impl Block for Step {
    const PARTS: Labels = &["c", "A", "Q"];
    const COUNTED: Labels = &["new coordinates", "coordinates"];

    fn text(&self, form: Form) -> (String, Vec<String>) {
        let mut parts = vec![labelled("c", &words(&self.constant, form))];
        parts.extend(entry_lines("A", &self.matrix, "Q", &self.forms, form));
        (format!("{} from {}", self.constant.len(), self.from_dimension()), parts)
    }

    fn read(head: &Line, parts: &[Line]) -> Result<Step, Mistake> {
        let (m, n) = match head.words.as_slice() {
            [m, from, n] if from == "from" => {
                let dimensions = head.dimensions(&[m.clone(), n.clone()])?;
                (dimensions[0], dimensions[1])
            }
            _ => return head.mistake(format!("this step is written '{} M from N'", head.label)),
        };
        let constant = vector(parts, "c", m)?;
        Ok(Step { constant, matrix: matrix(parts, "A", m, n)?, forms: forms(parts, "Q", m, n)? })
    }

    fn note(&self, parts: &[Line]) -> Option<String> {
        let has_matrix = parts.iter().any(|part| part.label == "A");
        (!has_matrix).then(|| "this step has no 'A', which counts as zeros".to_string())
    }

    fn fault(&self, cause: Cause, _names: &Names) -> Option<Fault> {
        (cause == Cause::Range).then(|| constant_fault(self).or_else(|| entry_fault(self, &self.exactly())))?
    }
}

impl Block for RangedStep {
    const PARTS: Labels = &["c", "A", "Q", "A+-", "Q+-"];
    const COUNTED: Labels = Step::COUNTED;

    fn text(&self, form: Form) -> (String, Vec<String>) {
        let (head, mut parts) = self.step.text(form);
        parts.extend(entry_lines("A+-", &self.half_widths.matrix, "Q+-", &self.half_widths.forms, form));
        (head, parts)
    }

    fn read(head: &Line, parts: &[Line]) -> Result<RangedStep, Mistake> {
        let step = Step::read(head, parts)?;
        let (m, n) = (step.constant.len(), step.from_dimension());
        let half_widths = HalfWidths { matrix: matrix(parts, "A+-", m, n)?, forms: forms(parts, "Q+-", m, n)? };
        Ok(RangedStep { step, half_widths })
    }

    fn note(&self, parts: &[Line]) -> Option<String> {
        self.step.note(parts)
    }

    fn fault(&self, cause: Cause, _names: &Names) -> Option<Fault> {
        (cause == Cause::Range)
            .then(|| constant_fault(&self.step).or_else(|| entry_fault(&self.step, &self.half_widths)))?
    }
}

/// A line for A, and one for each form that isn't all zeros.
fn entry_lines(a: &str, matrix: &Matrix, q: &str, forms: &[Matrix], form: Form) -> Vec<String> {
    let rows = |rows: &Matrix| rows.iter().map(|row| words(row, form).join(" ")).collect::<Vec<_>>().join(" / ");
    let mut lines = vec![format!("{a} {}", rows(matrix))];
    for (i, form) in forms.iter().enumerate().filter(|(_, form)| form.iter().flatten().any(|v| *v != 0)) {
        lines.push(format!("{q} {} : {}", i + 1, rows(form)));
    }
    lines
}

fn constant_fault(step: &Step) -> Option<Fault> {
    let i = step.constant.iter().position(|v| v.abs() > CONSTANT_LIMIT)?;
    Some(Fault::of("c", 0, format!("the number of coordinate {} is beyond {}", i + 1, unit(CONSTANT_LIMIT))))
}

fn entry_fault(step: &Step, half_widths: &HalfWidths) -> Option<Fault> {
    let in_forms = |i: usize| in_matrix("Q", "Q+-", i, &step.forms[i], &half_widths.forms[i]);
    in_matrix("A", "A+-", 0, &step.matrix, &half_widths.matrix).or_else(|| (0..step.forms.len()).find_map(in_forms))
}

/// The first entry that is beyond its limit by itself or with its half-width, or whose half-width is below 0.
fn in_matrix(
    label: &'static str,
    widths: &'static str,
    key: usize,
    matrix: &Matrix,
    half_widths: &Matrix,
) -> Option<Fault> {
    for (row, (entries, half_widths)) in matrix.iter().zip(half_widths).enumerate() {
        for (column, (entry, width)) in entries.iter().zip(half_widths).enumerate() {
            let place = format!("row {}, column {}", row + 1, column + 1);
            let limit = unit(ENTRY_LIMIT);
            if entry.abs() > ENTRY_LIMIT {
                return Some(Fault::of(label, key, format!("the entry in {place} is beyond {limit}")));
            } else if *width < 0 {
                return Some(Fault::of(widths, key, format!("the half-width in {place} is below 0")));
            } else if entry.abs() + width > ENTRY_LIMIT {
                let what = format!("the entry and its half-width in {place} come to more than {limit}");
                return Some(Fault::of(widths, key, what));
            }
        }
    }
    None
}
