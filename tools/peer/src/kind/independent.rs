//! The independent sum: the body's factors are new ones.

use run_file::{kind, SetBody};

use super::Operation;
use crate::finish::Finished;
use crate::run::{Cause, State};
use crate::set::Set;
use crate::sums::independent_sum;

impl Operation for kind::Independent {
    fn taken_dimension(body: &SetBody) -> Option<usize> {
        Some(body.dimension())
    }

    fn advance(body: &SetBody, state: &State) -> Result<(Finished, i128), Cause> {
        let sum = independent_sum(state.current()?, &Set::from(body), state.mark).ok_or(Cause::Factors)?;
        Ok((sum, state.mark + body.identifiers.len() as i128))
    }
}
