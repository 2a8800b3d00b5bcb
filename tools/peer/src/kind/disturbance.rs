//! The disturbance.

use run_file::{kind, DISTURBANCE_LIMIT};

use super::{Looked, Operation};
use crate::finish::Finished;
use crate::run::{Cause, State};
use crate::set::{all_given, Set};
use crate::sums::add;

impl Operation for kind::Disturbance {
    fn taken_dimension(radii: &Vec<i128>) -> Option<usize> {
        Some(radii.len())
    }

    fn advance(radii: &Vec<i128>, state: &State) -> Result<(Finished, i128), Cause> {
        let set = state.current()?;
        let radius_parts = add(&set.radius_parts, &all_given(radii.iter().copied()));
        Ok((Finished::as_it_is(Set { radius_parts, ..set.clone() }), state.mark))
    }
}

impl Looked for Vec<i128> {
    fn look(&self) -> Result<(), Cause> {
        Cause::Range.unless(self.iter().all(|r| (0..=DISTURBANCE_LIMIT).contains(r)))?;
        Cause::EmptyDisturbance.unless(self.iter().any(|r| *r != 0))
    }
}
