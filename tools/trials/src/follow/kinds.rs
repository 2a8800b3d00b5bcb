//! How a motion moves at each kind of field.

use peer::run::Outcome;
use peer::set::Set;
use run_file::{kind, Field, Halfspace, Kind, RangedStep, Reduction, SetBody, Step};

use super::Motion;
use crate::fraction::{sum, Fraction};

/// What a field does to a motion.
trait Followed: Kind {
    /// Moves as the field says, without rounding.
    fn follow(body: &Self::Body, motion: &mut Motion);

    /// Whether the answer rules this place out for every motion, other than by a box.
    fn excludes(_body: &Self::Body, _answer: &Outcome, _place: &[Fraction]) -> bool {
        false
    }
}

macro_rules! by_kind {
    ($($name:ident($body:ty) = $tag:literal,)*) => {
        pub fn follow(field: &Field, motion: &mut Motion) {
            match field { $(Field::$name(body) => kind::$name::follow(body, motion),)* }
        }

        pub fn excludes(field: &Field, answer: &Outcome, place: &[Fraction]) -> bool {
            match field { $(Field::$name(body) => kind::$name::excludes(body, answer, place),)* }
        }
    };
}

run_file::for_each_kind!(by_kind);

impl Followed for kind::Start {
    fn follow(body: &SetBody, motion: &mut Motion) {
        motion.add_tied(&Set::from(body));
    }
}

impl Followed for kind::Step {
    fn follow(step: &Step, motion: &mut Motion) {
        motion.step(step, &step.exactly());
    }
}

impl Followed for kind::Disturbance {
    fn follow(radii: &Vec<i128>, motion: &mut Motion) {
        motion.add_offsets(radii);
    }
}

/// The body's factors are new ones.
impl Followed for kind::Independent {
    fn follow(body: &SetBody, motion: &mut Motion) {
        let new_factor = |_: &i128| {
            let value = motion.pick();
            motion.new_factor(value)
        };
        let identifiers: Vec<i128> = body.identifiers.iter().map(new_factor).collect();
        motion.add_body(&Set::from(body), &identifiers);
    }
}

impl Followed for kind::Tied {
    fn follow(body: &SetBody, motion: &mut Motion) {
        motion.add_tied(&Set::from(body));
    }
}

/// It leaves each motion where it is.
impl Followed for kind::Reduce {
    fn follow(_limits: &Reduction, _motion: &mut Motion) {}
}

/// It leaves each motion where it is, and rules the region out where it says safe.
impl Followed for kind::Check {
    fn follow(_region: &Vec<Halfspace>, _motion: &mut Motion) {}

    fn excludes(region: &Vec<Halfspace>, answer: &Outcome, place: &[Fraction]) -> bool {
        let holds = |halfspace: &Halfspace| linear(&halfspace.normal, place) <= Fraction::from(halfspace.bound);
        *answer == Outcome::Verdict { safe: true } && region.iter().all(holds)
    }
}

/// A new factor blends the motion's point with one of the body.
impl Followed for kind::Hull {
    fn follow(body: &SetBody, motion: &mut Motion) {
        let x = std::mem::take(&mut motion.place);
        motion.add_tied(&Set::from(body));
        let v = motion.pick();
        motion.place = blend(&v, &x, &motion.place);
        motion.new_factor(v);
    }
}

impl Followed for kind::Ranged {
    fn follow(ranged: &RangedStep, motion: &mut Motion) {
        motion.step(&ranged.step, &ranged.half_widths);
    }
}

fn linear(row: &[i128], x: &[Fraction]) -> Fraction {
    sum(row.iter().zip(x).filter(|(a, _)| **a != 0).map(|(a, x)| &Fraction::from(*a) * x))
}

/// ((1 + v)x + (1 - v)y)/2.
fn blend(v: &Fraction, x: &[Fraction], y: &[Fraction]) -> Vec<Fraction> {
    let one = Fraction::from(1);
    let (of_x, of_y) = (&one + v, &one - v);
    x.iter().zip(y).map(|(x, y)| (&(&of_x * x) + &(&of_y * y)).over_power(1)).collect()
}
