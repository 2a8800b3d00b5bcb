//! The hull with a second set, after Propositions 14 and 15 of document 001: every point between a point of the one
//! and a point of the other at equal factor values.

use run_file::{Term, MAX_FACTORS, SQUARE_UNIT};

use crate::finish::{finish, Finished, FULL};
use crate::set::Set;
use crate::step::{image_radius, is_inexact, round};
use crate::sums::{add, terms_over, union};

/// A new factor, numbered `mark`, blends the two: it is 1 at the first set and -1 at the second. Equal identifiers are
/// one factor. None if the factors, the new one with them and counted before finishing, are too many.
pub fn hull(first: &Set, second: &Set, mark: i128) -> Option<Finished> {
    let mut identifiers = union(first, second, MAX_FACTORS - 1)?;
    let mut inexact = vec![0; first.dimension()];
    let mut halved = |numbers: &[i128]| -> Vec<i128> {
        let halves = numbers.iter().map(|v| v * (SQUARE_UNIT / 2));
        let mut rounded = |(v, count): (i128, &mut i128)| {
            *count += i128::from(is_inexact(v));
            round(v)
        };
        halves.zip(&mut inexact).map(&mut rounded).collect()
    };
    let times = |sign: i128, numbers: &[i128]| -> Vec<i128> { numbers.iter().map(|v| sign * v).collect() };
    let with_power = |exponents: &[u32], power: u32| [exponents, &[power]].concat();

    let centre = halved(&add(&first.centre, &second.centre));
    let difference = halved(&add(&first.centre, &times(-1, &second.centre)));
    let mut terms = vec![Term { exponents: with_power(&vec![0; identifiers.len()], 1), coefficients: difference }];
    for (set, sign) in [(first, 1), (second, -1)] {
        for Term { exponents, coefficients } in terms_over(set, &identifiers) {
            terms.push(Term { exponents: with_power(&exponents, 0), coefficients: halved(&coefficients) });
            terms
                .push(Term { exponents: with_power(&exponents, 1), coefficients: halved(&times(sign, &coefficients)) });
        }
    }
    let larger = |i: usize| first.independent_part(i).max(second.independent_part(i));
    let radius_parts = inexact.iter().enumerate().map(|(i, count)| image_radius(larger(i), *count)).collect();
    identifiers.push(mark);
    Some(finish(Set { identifiers, centre, terms, generators: Vec::new(), radius_parts }, FULL))
}
