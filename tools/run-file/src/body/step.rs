//! The polynomial step x' = c + Ax + Q(x,x), and the ranged step, whose body begins with a step's.

use super::{Body, Counts, DIMENSION};
use crate::bytes::{push_words, Reader};

/// A matrix by rows.
pub type Matrix = Vec<Vec<i128>>;

/// Entries of A and Q are in 1/4096.
#[derive(Clone, Debug, PartialEq, Eq)]
pub struct Step {
    pub constant: Vec<i128>,
    pub matrix: Matrix,
    /// Q: for each new coordinate a quadratic form.
    pub forms: Vec<Matrix>,
}

/// How far each entry of A and Q may be off, either way.
#[derive(Clone, Debug, PartialEq, Eq)]
pub struct HalfWidths {
    pub matrix: Matrix,
    pub forms: Vec<Matrix>,
}

/// A step whose entries are known within half-widths (document 02, A.2).
#[derive(Clone, Debug, PartialEq, Eq)]
pub struct RangedStep {
    pub step: Step,
    pub half_widths: HalfWidths,
}

impl Step {
    /// The dimension that the step takes.
    pub fn from_dimension(&self) -> usize {
        self.matrix.first().map_or(0, Vec::len)
    }

    /// The half-widths of entries that are known exactly.
    pub fn exactly(&self) -> HalfWidths {
        let (m, n) = (self.constant.len(), self.from_dimension());
        HalfWidths { matrix: vec![vec![0; n]; m], forms: vec![vec![vec![0; n]; n]; m] }
    }
}

impl Body for Step {
    const COUNTS: Counts = &[DIMENSION, DIMENSION];

    fn length(counts: &mut Reader) -> usize {
        let (m, n) = (counts.count(), counts.count());
        2 + 4 * m + entries_length(m, n)
    }

    fn decode(bytes: &mut Reader) -> Step {
        let (m, n) = (bytes.count(), bytes.count());
        Step { constant: bytes.words(m), matrix: bytes.rows(m, n), forms: bytes.forms(m, n) }
    }

    fn encode(&self, bytes: &mut Vec<u8>) {
        bytes.extend([self.constant.len() as u8, self.from_dimension() as u8]);
        push_words(bytes, &self.constant);
        push_entries(bytes, &self.matrix, &self.forms);
    }
}

impl Body for RangedStep {
    const COUNTS: Counts = Step::COUNTS;

    fn length(counts: &mut Reader) -> usize {
        let (m, n) = (counts.count(), counts.count());
        2 + 4 * m + 2 * entries_length(m, n)
    }

    fn decode(bytes: &mut Reader) -> RangedStep {
        let step = Step::decode(bytes);
        let (m, n) = (step.constant.len(), step.from_dimension());
        RangedStep { step, half_widths: HalfWidths { matrix: bytes.rows(m, n), forms: bytes.forms(m, n) } }
    }

    fn encode(&self, bytes: &mut Vec<u8>) {
        self.step.encode(bytes);
        push_entries(bytes, &self.half_widths.matrix, &self.half_widths.forms);
    }
}

/// How many bytes A and Q take, or their half-widths.
fn entries_length(m: usize, n: usize) -> usize {
    4 * (m * n + m * n * n)
}

/// A and Q, or their half-widths.
fn push_entries(bytes: &mut Vec<u8>, matrix: &Matrix, forms: &[Matrix]) {
    matrix.iter().chain(forms.iter().flatten()).for_each(|row| push_words(bytes, row));
}
