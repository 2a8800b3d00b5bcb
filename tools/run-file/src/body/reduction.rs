//! A reduction's body: how many terms and generators may remain.

use super::{Body, Counts};
use crate::bytes::Reader;
use crate::limits::{MAX_GENERATORS, MAX_TERMS};

#[derive(Clone, Copy, Debug, PartialEq, Eq)]
pub struct Reduction {
    pub terms: usize,
    pub generators: usize,
}

impl Body for Reduction {
    const COUNTS: Counts = &[0..=MAX_TERMS as u8, 0..=MAX_GENERATORS as u8];

    fn length(_counts: &mut Reader) -> usize {
        2
    }

    fn decode(bytes: &mut Reader) -> Reduction {
        Reduction { terms: bytes.count(), generators: bytes.count() }
    }

    fn encode(&self, bytes: &mut Vec<u8>) {
        bytes.extend([self.terms as u8, self.generators as u8]);
    }
}
