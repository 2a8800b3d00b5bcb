//! What the kinds of fields do, a file for each, and what their bodies can have wrong by themselves.

mod check;
mod disturbance;
mod hull;
mod independent;
mod ranged;
mod reduction;
mod set;
mod start;
mod step;
mod tied;

use run_file::{kind, Body, Field, Kind};

use crate::bounds::bounding_box;
use crate::finish::Finished;
use crate::run::{Cause, Outcome, State};
use crate::set::Set;

/// What can be said of a body alone.
trait Looked: Body {
    /// 6, 14, 7 and 8: what it can have wrong by itself.
    fn look(&self) -> Result<(), Cause>;
}

/// What a field does with its body.
trait Operation: Kind {
    /// The dimension that the current set must have; none where it may have any, or where there is no set yet.
    fn taken_dimension(body: &Self::Body) -> Option<usize>;

    /// The finished set and the mark after it, or 2 or 9. The body has nothing wrong by itself, and the set has the
    /// dimension that it takes.
    fn advance(body: &Self::Body, state: &State) -> Result<(Finished, i128), Cause>;

    /// What it says of the set after it: the box, unless the kind has an answer of its own.
    fn answer(_body: &Self::Body, set: &Set) -> Outcome {
        Outcome::Box(bounding_box(set))
    }
}

macro_rules! by_kind {
    ($($name:ident($body:ty) = $tag:literal,)*) => {
        pub fn look(field: &Field) -> Result<(), Cause> {
            match field { $(Field::$name(body) => body.look(),)* }
        }

        pub fn taken_dimension(field: &Field) -> Option<usize> {
            match field { $(Field::$name(body) => kind::$name::taken_dimension(body),)* }
        }

        pub fn advance(field: &Field, state: &State) -> Result<(Finished, i128), Cause> {
            match field { $(Field::$name(body) => kind::$name::advance(body, state),)* }
        }

        pub fn answer(field: &Field, set: &Set) -> Outcome {
            match field { $(Field::$name(body) => kind::$name::answer(body, set),)* }
        }
    };
}

run_file::for_each_kind!(by_kind);
