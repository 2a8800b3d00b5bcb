//! The start set: the first field and no other.

use run_file::{kind, SetBody};

use super::Operation;
use crate::finish::Finished;
use crate::run::{Cause, State};
use crate::set::Set;

impl Operation for kind::Start {
    fn taken_dimension(_body: &SetBody) -> Option<usize> {
        None
    }

    fn advance(body: &SetBody, state: &State) -> Result<(Finished, i128), Cause> {
        Cause::Tag.unless(state.set.is_none())?;
        Ok((Finished::as_it_is(Set::from(body)), state.mark))
    }
}
