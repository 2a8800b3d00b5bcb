//! The check against an unsafe region.

use run_file::{kind, Halfspace};

use super::{Looked, Operation};
use crate::bounds::{is_in_range, is_safe};
use crate::finish::Finished;
use crate::run::{Cause, Outcome, State};
use crate::set::Set;

impl Operation for kind::Check {
    fn taken_dimension(region: &Vec<Halfspace>) -> Option<usize> {
        region.first().map(|halfspace| halfspace.normal.len())
    }

    fn advance(_region: &Vec<Halfspace>, state: &State) -> Result<(Finished, i128), Cause> {
        Ok((Finished::as_it_is(state.current()?.clone()), state.mark))
    }

    fn answer(region: &Vec<Halfspace>, set: &Set) -> Outcome {
        Outcome::Verdict { safe: is_safe(set, region) }
    }
}

impl Looked for Vec<Halfspace> {
    fn look(&self) -> Result<(), Cause> {
        Cause::Range.unless(self.iter().all(is_in_range))
    }
}
