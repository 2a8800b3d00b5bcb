//! A disturbance's body: a radius for each coordinate.

use super::{Body, Counts, DIMENSION};
use crate::bytes::{push_words, Reader};

impl Body for Vec<i128> {
    const COUNTS: Counts = &[DIMENSION];

    fn length(counts: &mut Reader) -> usize {
        1 + 4 * counts.count()
    }

    fn decode(bytes: &mut Reader) -> Vec<i128> {
        let n = bytes.count();
        bytes.words(n)
    }

    fn encode(&self, bytes: &mut Vec<u8>) {
        bytes.push(self.len() as u8);
        push_words(bytes, self);
    }
}
