//! What stands in a field, a file for each sort of body. Kinds may share one, as the start set, the sums and the hull do.

mod halfspaces;
mod radii;
mod reduction;
mod set;
mod step;

pub use halfspaces::Halfspace;
pub use reduction::Reduction;
pub use set::{SetBody, Term};
pub use step::{HalfWidths, Matrix, RangedStep, Step};

use std::ops::RangeInclusive;

use crate::bytes::Reader;
use crate::limits::MAX_DIMENSION;

/// The limits of each count that a body begins with.
pub type Counts = &'static [RangeInclusive<u8>];

pub const DIMENSION: RangeInclusive<u8> = 1..=MAX_DIMENSION as u8;

pub trait Body: Sized {
    const COUNTS: Counts;

    /// The length that its counts give.
    fn length(counts: &mut Reader) -> usize;

    /// Takes the body off bytes of that length.
    fn decode(bytes: &mut Reader) -> Self;

    /// Each number has to fit its bytes, else what does not fit is cut off.
    fn encode(&self, bytes: &mut Vec<u8>);
}

/// Whether each of the counts that the bytes begin with is within its limits.
pub fn counts_fit(limits: Counts, bytes: &[u8]) -> bool {
    limits.iter().zip(bytes).all(|(limits, count)| limits.contains(count))
}
