//! The reduction to so many terms and generators.

use run_file::{kind, Reduction};

use super::{Looked, Operation};
use crate::finish::{finish, Finished};
use crate::run::{Cause, State};

impl Operation for kind::Reduce {
    fn taken_dimension(_limits: &Reduction) -> Option<usize> {
        None
    }

    fn advance(limits: &Reduction, state: &State) -> Result<(Finished, i128), Cause> {
        Ok((finish(state.current()?.clone(), *limits), state.mark))
    }
}

impl Looked for Reduction {
    fn look(&self) -> Result<(), Cause> {
        Ok(())
    }
}
