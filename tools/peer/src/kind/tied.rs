//! The tied sum: equal identifiers are one factor.

use run_file::{kind, SetBody};

use super::Operation;
use crate::finish::Finished;
use crate::run::{Cause, State};
use crate::set::Set;
use crate::sums::tied_sum;

impl Operation for kind::Tied {
    fn taken_dimension(body: &SetBody) -> Option<usize> {
        Some(body.dimension())
    }

    fn advance(body: &SetBody, state: &State) -> Result<(Finished, i128), Cause> {
        let sum = tied_sum(state.current()?, &Set::from(body)).ok_or(Cause::Factors)?;
        Ok((sum, state.mark))
    }
}
