//! A set as a file states it, in grains.

use super::{Body, Counts, DIMENSION};
use crate::bytes::{push_words, Reader};
use crate::limits::{MAX_FACTORS, MAX_GENERATORS, MAX_TERMS};

#[derive(Clone, Debug, Default, PartialEq, Eq)]
pub struct SetBody {
    pub identifiers: Vec<i128>,
    pub centre: Vec<i128>,
    pub terms: Vec<Term>,
    pub generators: Vec<Vec<i128>>,
    /// Half the width of the surrounding box in each coordinate (document 01: the skirt).
    pub radii: Vec<i128>,
}

/// Coefficients times a product of factor powers; one exponent for each factor of its set.
#[derive(Clone, Debug, PartialEq, Eq)]
pub struct Term {
    pub exponents: Vec<u32>,
    pub coefficients: Vec<i128>,
}

impl SetBody {
    pub fn dimension(&self) -> usize {
        self.centre.len()
    }
}

impl Body for SetBody {
    const COUNTS: Counts = &[DIMENSION, 0..=MAX_FACTORS as u8, 0..=MAX_TERMS as u8, 0..=MAX_GENERATORS as u8];

    fn length(counts: &mut Reader) -> usize {
        let (n, p, h, q) = (counts.count(), counts.count(), counts.count(), counts.count());
        4 + 4 * p + 4 * n + h * (p + 4 * n) + 4 * n * q + 4 * n
    }

    fn decode(bytes: &mut Reader) -> SetBody {
        let (n, p, h, q) = (bytes.count(), bytes.count(), bytes.count(), bytes.count());
        let term = |bytes: &mut Reader| Term {
            exponents: (0..p).map(|_| bytes.count() as u32).collect(),
            coefficients: bytes.words(n),
        };
        SetBody {
            identifiers: bytes.words(p),
            centre: bytes.words(n),
            terms: (0..h).map(|_| term(bytes)).collect(),
            generators: (0..q).map(|_| bytes.words(n)).collect(),
            radii: bytes.words(n),
        }
    }

    fn encode(&self, bytes: &mut Vec<u8>) {
        let counts = [self.dimension(), self.identifiers.len(), self.terms.len(), self.generators.len()];
        bytes.extend(counts.map(|count| count as u8));
        push_words(bytes, &self.identifiers);
        push_words(bytes, &self.centre);
        for term in &self.terms {
            bytes.extend(term.exponents.iter().map(|e| *e as u8));
            push_words(bytes, &term.coefficients);
        }
        self.generators.iter().for_each(|generator| push_words(bytes, generator));
        push_words(bytes, &self.radii);
    }
}
