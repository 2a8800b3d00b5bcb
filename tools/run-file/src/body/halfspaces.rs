//! A check's body: the halfspaces that bound the unsafe region.

use super::{Body, Counts, DIMENSION};
use crate::bytes::{push_words, Reader};
use crate::limits::MAX_HALFSPACES;

/// The points x with normal·x ≤ bound; normal in 1/4096, bound in 1/16,777,216.
#[derive(Clone, Debug, PartialEq, Eq)]
pub struct Halfspace {
    pub normal: Vec<i128>,
    pub bound: i128,
}

impl Body for Vec<Halfspace> {
    const COUNTS: Counts = &[DIMENSION, 1..=MAX_HALFSPACES as u8];

    fn length(counts: &mut Reader) -> usize {
        let (n, count) = (counts.count(), counts.count());
        2 + count * (4 * n + 8)
    }

    fn decode(bytes: &mut Reader) -> Vec<Halfspace> {
        let (n, count) = (bytes.count(), bytes.count());
        (0..count).map(|_| Halfspace { normal: bytes.words(n), bound: bytes.long() }).collect()
    }

    fn encode(&self, bytes: &mut Vec<u8>) {
        let dimension = self.first().map_or(0, |halfspace| halfspace.normal.len());
        bytes.extend([dimension as u8, self.len() as u8]);
        for halfspace in self {
            push_words(bytes, &halfspace.normal);
            bytes.extend((halfspace.bound as i64).to_le_bytes());
        }
    }
}
