//! The box of a set and the check against an unsafe region.

use run_file::{Halfspace, BOUND_LIMIT, ENTRY_LIMIT};

use crate::set::{is_even, Set};
use crate::step::dot;

pub fn is_in_range(halfspace: &Halfspace) -> bool {
    halfspace.normal.iter().all(|a| a.abs() <= ENTRY_LIMIT) && halfspace.bound.abs() <= BOUND_LIMIT
}

/// Low and high end of each coordinate.
pub fn bounding_box(set: &Set) -> Vec<(i128, i128)> {
    (0..set.dimension())
        .map(|i| {
            let mut direction = vec![0; set.dimension()];
            direction[i] = 1;
            ends(set, &direction)
        })
        .collect()
}

/// Safe if some halfspace of the unsafe region holds no point of the set.
pub fn is_safe(set: &Set, region: &[Halfspace]) -> bool {
    region.iter().any(|halfspace| lower_end(set, &halfspace.normal) > halfspace.bound)
}

pub fn lower_end(set: &Set, direction: &[i128]) -> i128 {
    ends(set, direction).0
}

/// Low and high end of direction·x. Only a term with all exponents even keeps its sign.
fn ends(set: &Set, direction: &[i128]) -> (i128, i128) {
    let centre = dot(direction, &set.centre);
    let (mut low, mut high) = (centre, centre);
    for term in &set.terms {
        let g = dot(direction, &term.coefficients);
        if is_even(term) {
            low += g.min(0);
            high += g.max(0);
        } else {
            low -= g.abs();
            high += g.abs();
        }
    }
    let generators: i128 = set.generators.iter().map(|g| dot(direction, g).abs()).sum();
    let radii: i128 = direction.iter().zip(set.radii()).map(|(a, r)| a.abs() * r).sum();
    (low - generators - radii, high + generators + radii)
}
