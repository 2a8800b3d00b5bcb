//! The exact (tied) and the Minkowski (independent) sum.

use std::collections::BTreeSet;
use std::ops::Add;

use run_file::{Term, MAX_FACTORS};

use crate::finish::{finish, Finished, FULL};
use crate::set::Set;

/// Equal identifiers are one factor. None if the factors, counted before finishing, are too many.
pub fn tied_sum(first: &Set, second: &Set) -> Option<Finished> {
    let identifiers = union(first, second, MAX_FACTORS)?;
    let mut terms = terms_over(first, &identifiers);
    terms.extend(terms_over(second, &identifiers));
    let sum = Set {
        centre: add(&first.centre, &second.centre),
        terms,
        generators: first.generators.iter().chain(&second.generators).cloned().collect(),
        radius_parts: add(&first.radius_parts, &second.radius_parts),
        identifiers,
    };
    Some(finish(sum, FULL))
}

/// The second set's factors become new ones, numbered from `mark` on.
pub fn independent_sum(first: &Set, second: &Set, mark: i128) -> Option<Finished> {
    let identifiers = (mark..).take(second.identifiers.len()).collect();
    tied_sum(first, &Set { identifiers, ..second.clone() })
}

/// The identifiers of both, in order; none if there are more than `most`.
pub fn union(first: &Set, second: &Set, most: usize) -> Option<Vec<i128>> {
    let identifiers: BTreeSet<i128> = first.identifiers.iter().chain(&second.identifiers).copied().collect();
    (identifiers.len() <= most).then(|| identifiers.into_iter().collect())
}

/// The set's terms with one exponent for each of the given identifiers, among which are its own.
pub fn terms_over(set: &Set, identifiers: &[i128]) -> Vec<Term> {
    let place = |id| set.identifiers.iter().position(|own| own == id);
    let places: Vec<Option<usize>> = identifiers.iter().map(place).collect();
    set.terms
        .iter()
        .map(|t| Term {
            exponents: places.iter().map(|place| place.map_or(0, |k| t.exponents[k])).collect(),
            coefficients: t.coefficients.clone(),
        })
        .collect()
}

pub fn add<T: Copy + Add<Output = T>>(x: &[T], y: &[T]) -> Vec<T> {
    x.iter().zip(y).map(|(x, y)| *x + *y).collect()
}
