//! The hull with a body, whose points a new factor blends with those of the set.

use run_file::{kind, SetBody};

use super::Operation;
use crate::finish::Finished;
use crate::hull::hull;
use crate::run::{Cause, State};
use crate::set::Set;

impl Operation for kind::Hull {
    fn taken_dimension(body: &SetBody) -> Option<usize> {
        Some(body.dimension())
    }

    fn advance(body: &SetBody, state: &State) -> Result<(Finished, i128), Cause> {
        let hull = hull(state.current()?, &Set::from(body), state.mark).ok_or(Cause::Factors)?;
        Ok((hull, state.mark + 1))
    }
}
