//! The numbers of a body, little-endian.

use crate::body::Matrix;

/// Takes numbers off the front of bytes that are long enough.
pub struct Reader<'a> {
    bytes: &'a [u8],
}

impl Reader<'_> {
    pub fn new(bytes: &[u8]) -> Reader<'_> {
        Reader { bytes }
    }

    pub fn count(&mut self) -> usize {
        usize::from(self.take::<1>()[0])
    }

    pub fn words(&mut self, count: usize) -> Vec<i128> {
        (0..count).map(|_| i128::from(i32::from_le_bytes(self.take()))).collect()
    }

    pub fn long(&mut self) -> i128 {
        i128::from(i64::from_le_bytes(self.take()))
    }

    pub fn rows(&mut self, rows: usize, columns: usize) -> Matrix {
        (0..rows).map(|_| self.words(columns)).collect()
    }

    pub fn forms(&mut self, count: usize, n: usize) -> Vec<Matrix> {
        (0..count).map(|_| self.rows(n, n)).collect()
    }

    fn take<const N: usize>(&mut self) -> [u8; N] {
        let (front, rest) = self.bytes.split_at(N);
        self.bytes = rest;
        std::array::from_fn(|i| front[i])
    }
}

pub fn push_words(bytes: &mut Vec<u8>, words: &[i128]) {
    for word in words {
        bytes.extend((*word as i32).to_le_bytes());
    }
}
