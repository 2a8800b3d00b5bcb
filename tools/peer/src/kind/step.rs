//! The step: a ranged step whose half-widths are 0.

use run_file::{kind, Step};

use super::{Looked, Operation};
use crate::finish::Finished;
use crate::run::{Cause, State};
use crate::step::{image, is_in_range};

impl Operation for kind::Step {
    fn taken_dimension(step: &Step) -> Option<usize> {
        Some(step.from_dimension())
    }

    fn advance(step: &Step, state: &State) -> Result<(Finished, i128), Cause> {
        Ok((image(step, &step.exactly(), state.current()?), state.mark))
    }
}

impl Looked for Step {
    fn look(&self) -> Result<(), Cause> {
        Cause::Range.unless(is_in_range(self, &self.exactly()))
    }
}
