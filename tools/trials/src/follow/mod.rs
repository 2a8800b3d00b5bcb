//! Sampled motions followed with exact fractions through a run: none may leave the box, leave the set
//! at its own factor values, or be in a region declared safe. A test of the reading, not a proof.

mod kinds;

use std::collections::BTreeMap;
use std::fmt;

use peer::bounds::bounding_box;
use peer::run::{Accepted, Outcome, Refusal, Run, FIRST_MARK};
use peer::set::Set;
use run_file::{Field, HalfWidths, Step};

use crate::fraction::{sum, Fraction};
use crate::membership::contains;
use crate::random::Random;

/// A step squares a motion's numbers; a motion whose numbers outgrow this is not followed further.
pub const MAX_BITS: usize = 8_192;
/// From here on offsets are picked so that the motion lands on a multiple of 1/16 of a grain again.
const LONG_BITS: usize = 192;
const GRID: usize = 4;

/// How a motion picks: always one end, an end at random, or also what lies between; 0 often, as even
/// powers have an end there. One end of a coefficient's range is that which takes the motion up, or down.
#[derive(Clone, Copy, Debug)]
pub enum Manner {
    High,
    Low,
    Ends,
    Any,
}

#[derive(Clone, Debug, PartialEq, Eq)]
pub enum Escape {
    /// Out of the box in a coordinate, counted from 1.
    Box(usize),
    /// In no point of the set whose factors take the motion's values.
    Set,
    /// In the unsafe region of a check that said safe.
    Safe,
}

/// A motion's picks so far and where they have led.
pub struct Motion {
    random: Random,
    manner: Manner,
    /// Of each identifier seen; those of independent sums and hulls under their identifiers in the set.
    values: BTreeMap<i128, Fraction>,
    /// The next new identifier, counted from the accepted bodies.
    mark: i128,
    /// Of each generator of the set, the number picked for it in the body it comes from.
    numbers: Vec<Fraction>,
    pub place: Vec<Fraction>,
}

pub struct Report {
    pub text: String,
    pub escaped: bool,
}

/// Follows so many motions, in all manners in turn.
pub fn follow(input: &[u8], motions: usize, seed: u64) -> Report {
    let manners = [Manner::High, Manner::Low, Manner::Ends, Manner::Any];
    let mut random = Random::new(seed);
    let mut followed: Vec<Traced> = (0..motions)
        .map(|i| Traced { motion: Motion::new(manners[i % manners.len()], random.word()), last: None })
        .collect();
    let mut text = String::new();
    let mut last = None;
    for item in Run::new(input) {
        let accepted = match item {
            Ok(accepted) => accepted,
            Err(Refusal { field, cause, .. }) => {
                text += &format!("field {field} is refused with {}\n", cause as u8);
                break;
            }
        };
        for (i, one) in followed.iter_mut().enumerate().filter(|(_, one)| one.last == last) {
            if one.motion.bits() > MAX_BITS {
                continue;
            }
            one.motion.accept(&accepted);
            if let Some(escape) = one.motion.escape(&accepted.set, &accepted.outcome, &accepted.field) {
                let (number, manner) = (accepted.number, one.motion.manner);
                text += &format!("escape: motion {i} ({manner:?}) at field {number} {escape}: {}\n", one.motion);
                return Report { text, escaped: true };
            }
            one.last = Some(accepted.number);
        }
        last = Some(accepted.number);
    }
    for (i, one) in followed.iter().enumerate().filter(|(_, one)| one.last != last) {
        if let Some(place) = one.last {
            let manner = one.motion.manner;
            text += &format!("motion {i} ({manner:?}): followed to field {place}, over {MAX_BITS} bits long there\n");
        }
    }
    let whole = followed.iter().filter(|one| one.last == last).count();
    text += &match last {
        Some(last) => {
            format!("no escape among {motions} motions, {whole} of them followed to the last field, {last}\n")
        }
        None => "no field to follow\n".to_string(),
    };
    Report { text, escaped: false }
}

/// A motion and the last field it has been followed through.
struct Traced {
    motion: Motion,
    last: Option<usize>,
}

impl Motion {
    pub fn new(manner: Manner, seed: u64) -> Motion {
        let random = Random::new(seed);
        Motion { random, manner, values: BTreeMap::new(), mark: FIRST_MARK, numbers: Vec::new(), place: Vec::new() }
    }

    /// Moves as the field says.
    pub fn accept(&mut self, accepted: &Accepted) {
        kinds::follow(&accepted.field, self);
        self.numbers = accepted.kept.iter().map(|place| self.numbers[*place].clone()).collect();
    }

    /// Whether the motion is somewhere it can't be if the answer to this field holds; exact.
    pub fn escape(&self, set: &Set, outcome: &Outcome, field: &Field) -> Option<Escape> {
        let ends = match outcome {
            Outcome::Box(ends) => ends.clone(),
            Outcome::Verdict { .. } => bounding_box(set),
        };
        for (i, (low, high)) in ends.into_iter().enumerate() {
            if self.place[i] < Fraction::from(low) || self.place[i] > Fraction::from(high) {
                return Some(Escape::Box(i + 1));
            }
        }
        if !self.is_in(set) {
            return Some(Escape::Set);
        }
        kinds::excludes(field, outcome, &self.place).then_some(Escape::Safe)
    }

    /// Adds a point of the body at the values of its identifiers, which are picked where they have none yet.
    fn add_tied(&mut self, body: &Set) {
        for id in &body.identifiers {
            if !self.values.contains_key(id) {
                let value = self.pick();
                self.values.insert(*id, value);
            }
        }
        self.add_body(body, &body.identifiers);
    }

    /// The next new identifier, which gets this value.
    fn new_factor(&mut self, value: Fraction) -> i128 {
        let id = self.mark;
        self.values.insert(id, value);
        self.mark += 1;
        id
    }

    /// Adds a point of the body with these identifiers in the place of its own; it is the place if there is none yet.
    fn add_body(&mut self, body: &Set, identifiers: &[i128]) {
        let numbers: Vec<Fraction> = body.generators.iter().map(|_| self.pick()).collect();
        let point = add(&polynomial(body, identifiers, &self.values), &generated(body, &numbers));
        self.place = if self.place.is_empty() { point } else { add(&self.place, &point) };
        self.numbers.extend(numbers);
        self.add_offsets(&body.radii());
    }

    /// The step's polynomial without rounding, each coefficient picked within its half-width of the entry.
    fn step(&mut self, step: &Step, half_widths: &HalfWidths) {
        let x = std::mem::take(&mut self.place);
        let products: Vec<Vec<Fraction>> = x.iter().map(|a| x.iter().map(|b| a * b).collect()).collect();
        for (i, constant) in step.constant.iter().enumerate() {
            let linear = self.combination(&step.matrix[i], &half_widths.matrix[i], &x).over_power(12);
            let rows = step.forms[i].iter().zip(&half_widths.forms[i]).zip(&products);
            let quadratic = sum(rows.map(|((row, widths), products)| self.combination(row, widths, products)));
            self.place.push(&(&Fraction::from(*constant) + &linear) + &quadratic.over_power(24));
        }
    }

    /// Adds an offset to each coordinate, picked or, where the number has become long, near the pick.
    fn add_offsets(&mut self, radii: &[i128]) {
        for (i, radius) in radii.iter().enumerate() {
            let x = self.place[i].clone();
            let radius = Fraction::from(*radius);
            let picked = &x + &(&radius * &self.pick());
            self.place[i] = picked.clone();
            if x.bits() > LONG_BITS {
                let below = picked.rounded_down(GRID);
                let above = &below + &Fraction::new(1, GRID);
                let within = |y: &Fraction| (y - &x).abs() <= radius;
                if let Some(near) = [below, above].into_iter().find(within) {
                    self.place[i] = near;
                }
            }
        }
    }

    /// A number in [-1,1].
    fn pick(&mut self) -> Fraction {
        let end = if self.random.once_in(2) { 1 } else { -1 };
        match self.manner {
            Manner::High => Fraction::from(1),
            Manner::Low => Fraction::from(-1),
            Manner::Ends => Fraction::from(end),
            Manner::Any if self.random.once_in(3) => Fraction::from(end),
            Manner::Any if self.random.once_in(4) => Fraction::zero(),
            Manner::Any => Fraction::new(self.random.between(-8, 8), 3),
        }
    }

    /// The sum of the numbers in x, each times a coefficient picked for it.
    fn combination(&mut self, entries: &[i128], half_widths: &[i128], x: &[Fraction]) -> Fraction {
        let numbers = entries.iter().zip(half_widths).zip(x).filter(|((a, width), _)| (**a, **width) != (0, 0));
        sum(numbers.map(|((a, width), x)| &self.pick_coefficient(*a, *width, x) * x))
    }

    /// A number within the half-width of the entry, to be multiplied by x.
    fn pick_coefficient(&mut self, entry: i128, half_width: i128, x: &Fraction) -> Fraction {
        if half_width == 0 {
            return Fraction::from(entry);
        }
        let falls = *x < Fraction::zero() && matches!(self.manner, Manner::High | Manner::Low);
        let most = Fraction::from(if falls { -half_width } else { half_width });
        &Fraction::from(entry) + &(&most * &self.pick())
    }

    /// How many bits its longest coordinate takes.
    fn bits(&self) -> usize {
        self.place.iter().map(Fraction::bits).max().unwrap_or(0)
    }

    /// Whether the place is a point of the set with the motion's factor values. Where the generator
    /// numbers that it came with show that, nothing more is needed; else the zonotope decides.
    fn is_in(&self, set: &Set) -> bool {
        let rest = subtract(&self.place, &polynomial(set, &set.identifiers, &self.values));
        let offset = subtract(&rest, &generated(set, &self.numbers));
        let radii = set.radii();
        let within = offset.iter().zip(&radii).all(|(x, r)| x.abs() <= Fraction::from(*r));
        within || contains(&set.generators, &radii, &rest)
    }
}

/// Centre and terms, the k-th factor at the value of the k-th of `identifiers`.
fn polynomial(set: &Set, identifiers: &[i128], values: &BTreeMap<i128, Fraction>) -> Vec<Fraction> {
    let mut point: Vec<Fraction> = set.centre.iter().map(|v| Fraction::from(*v)).collect();
    for term in &set.terms {
        let powers = identifiers.iter().zip(&term.exponents).map(|(id, e)| values[id].power(*e));
        let product = powers.fold(Fraction::from(1), |product, power| &product * &power);
        for (x, g) in point.iter_mut().zip(&term.coefficients) {
            *x = &*x + &(&Fraction::from(*g) * &product);
        }
    }
    point
}

fn generated(set: &Set, numbers: &[Fraction]) -> Vec<Fraction> {
    let coordinate = |i: usize| sum(set.generators.iter().zip(numbers).map(|(g, b)| &Fraction::from(g[i]) * b));
    (0..set.dimension()).map(coordinate).collect()
}

fn add(x: &[Fraction], y: &[Fraction]) -> Vec<Fraction> {
    x.iter().zip(y).map(|(x, y)| x + y).collect()
}

fn subtract(x: &[Fraction], y: &[Fraction]) -> Vec<Fraction> {
    x.iter().zip(y).map(|(x, y)| x - y).collect()
}

impl fmt::Display for Escape {
    fn fmt(&self, f: &mut fmt::Formatter) -> fmt::Result {
        match self {
            Escape::Box(coordinate) => write!(f, "is out of the box in coordinate {coordinate}"),
            Escape::Set => write!(f, "is out of the set at its factor values"),
            Escape::Safe => write!(f, "is in the region declared safe"),
        }
    }
}

/// Where the motion is, about, and its factor values.
impl fmt::Display for Motion {
    fn fmt(&self, f: &mut fmt::Formatter) -> fmt::Result {
        write!(f, "at")?;
        for x in &self.place {
            write!(f, " {}", x.approximately())?;
        }
        write!(f, " with")?;
        for (id, value) in &self.values {
            write!(f, " {id}:{}", value.approximately())?;
        }
        Ok(())
    }
}
