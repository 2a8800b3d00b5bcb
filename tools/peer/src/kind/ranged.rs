//! The ranged step.

use run_file::{kind, RangedStep};

use super::{Looked, Operation};
use crate::finish::Finished;
use crate::run::{Cause, State};
use crate::step::{image, is_in_range};

impl Operation for kind::Ranged {
    fn taken_dimension(ranged: &RangedStep) -> Option<usize> {
        Some(ranged.step.from_dimension())
    }

    fn advance(ranged: &RangedStep, state: &State) -> Result<(Finished, i128), Cause> {
        Ok((image(&ranged.step, &ranged.half_widths, state.current()?), state.mark))
    }
}

impl Looked for RangedStep {
    fn look(&self) -> Result<(), Cause> {
        Cause::Range.unless(is_in_range(&self.step, &self.half_widths))
    }
}
