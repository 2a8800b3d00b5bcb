//! Finishing: what every operation does to its result before the span is looked at.

use run_file::{Reduction, Term, MAX_EXPONENT, MAX_GENERATORS, MAX_TERMS};

use crate::set::{is_even, Set};

/// As many terms and generators as a set has place for.
pub const FULL: Reduction = Reduction { terms: MAX_TERMS, generators: MAX_GENERATORS };

/// How often each reason to fold came up.
#[derive(Clone, Copy, Debug, Default, PartialEq, Eq)]
pub struct Folds {
    pub by_exponent: usize,
    pub by_size: usize,
    pub generators: usize,
}

#[derive(Clone, Debug, PartialEq, Eq)]
pub struct Finished {
    pub set: Set,
    /// For each generator that remains, its place in the list before finishing.
    pub kept: Vec<usize>,
    pub folds: Folds,
    /// What folding added to each coordinate's radius.
    pub folded: Vec<i128>,
}

impl Finished {
    /// A set that needs no finishing.
    pub fn as_it_is(set: Set) -> Finished {
        let kept = (0..set.generators.len()).collect();
        let folded = vec![0; set.dimension()];
        Finished { set, kept, folds: Folds::default(), folded }
    }
}

/// Sort and collect, drop zeros, fold high exponents, fold the smallest, drop unused factors.
pub fn finish(set: Set, limits: Reduction) -> Finished {
    let mut folds = Folds::default();
    let Set { identifiers, mut centre, terms, generators, mut radius_parts } = set;
    let mut folded = vec![0; centre.len()];

    let mut collected = collect(terms);
    collected.retain(|t| t.coefficients.iter().any(|g| *g != 0));
    let nonzero = |g: &Vec<i128>| g.iter().any(|v| *v != 0);
    let generators: Vec<(usize, Vec<i128>)> = generators.into_iter().enumerate().filter(|(_, g)| nonzero(g)).collect();

    let (high, rest): (Vec<Term>, Vec<Term>) =
        collected.into_iter().partition(|t| t.exponents.iter().any(|e| *e > MAX_EXPONENT));
    folds.by_exponent = high.len();
    for term in &high {
        fold_term(term, &mut centre, &mut folded);
    }

    let (small, terms) = split_smallest(rest, limits.terms, |t| size(&t.coefficients));
    folds.by_size = small.len();
    for term in &small {
        fold_term(term, &mut centre, &mut folded);
    }

    let (small, generators) = split_smallest(generators, limits.generators, |(_, g)| size(g));
    folds.generators = small.len();
    for (_, generator) in &small {
        fold_generator(generator, &mut folded);
    }

    for (parts, added) in radius_parts.iter_mut().zip(&folded) {
        parts.folded += added;
    }
    let (kept, generators) = generators.into_iter().unzip();
    let set = drop_unused_factors(Set { identifiers, centre, terms, generators, radius_parts });
    Finished { set, kept, folds, folded }
}

/// Terms in the order of their exponents, those with equal exponents added up.
fn collect(mut terms: Vec<Term>) -> Vec<Term> {
    terms.sort_by(|s, t| s.exponents.cmp(&t.exponents));
    let mut collected: Vec<Term> = Vec::new();
    for term in terms {
        match collected.last_mut() {
            Some(last) if last.exponents == term.exponents => {
                for (sum, g) in last.coefficients.iter_mut().zip(&term.coefficients) {
                    *sum += g;
                }
            }
            _ => collected.push(term),
        }
    }
    collected
}

/// The sum of |numbers|, position weighing four times as much as speed.
pub fn size(numbers: &[i128]) -> i128 {
    numbers.iter().enumerate().map(|(i, v)| if i % 2 == 0 { 4 * v.abs() } else { v.abs() }).sum()
}

/// Splits off the smallest until `limit` remain, of equals the later first; both keep their order.
fn split_smallest<T>(items: Vec<T>, limit: usize, size: impl Fn(&T) -> i128) -> (Vec<T>, Vec<T>) {
    let mut by_size: Vec<usize> = (0..items.len()).collect();
    by_size.sort_by_key(|&place| (size(&items[place]), std::cmp::Reverse(place)));
    let mut is_small = vec![false; items.len()];
    for &place in &by_size[..items.len().saturating_sub(limit)] {
        is_small[place] = true;
    }
    let (small, rest): (Vec<_>, Vec<_>) = items.into_iter().zip(is_small).partition(|(_, is_small)| *is_small);
    let items_of = |list: Vec<(T, bool)>| list.into_iter().map(|(item, _)| item).collect();
    (items_of(small), items_of(rest))
}

/// Replaces a term by an interval that holds it (document 01: a fold). An even one lies between 0 and g: the centre moves
/// by g/2 rounded toward zero (document 02, A.3), and the radius takes in the rest.
pub fn fold_term(term: &Term, centre: &mut [i128], radii: &mut [i128]) {
    for (i, g) in term.coefficients.iter().enumerate() {
        if is_even(term) {
            centre[i] += g / 2;
            radii[i] += (g.abs() + 1) / 2;
        } else {
            radii[i] += g.abs();
        }
    }
}

fn fold_generator(generator: &[i128], radii: &mut [i128]) {
    for (radius, g) in radii.iter_mut().zip(generator) {
        *radius += g.abs();
    }
}

fn drop_unused_factors(set: Set) -> Set {
    let used: Vec<usize> = (0..set.identifiers.len()).filter(|&k| set.uses_factor(k)).collect();
    let terms = set
        .terms
        .iter()
        .map(|t| Term {
            exponents: used.iter().map(|&k| t.exponents[k]).collect(),
            coefficients: t.coefficients.clone(),
        })
        .collect();
    let identifiers = used.iter().map(|&k| set.identifiers[k]).collect();
    Set { identifiers, terms, ..set }
}
