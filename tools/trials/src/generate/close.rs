//! Runs where one unit decides: equal sizes, exact halves, odd folds, odd hulls.

use std::collections::BTreeSet;

use run_file::{Field, RangedStep, Reduction, SetBody, Step, Term, MAX_GENERATORS, MAX_TERMS, SPAN_LIMIT, UNIT};

use super::parts::{region, span};
use super::plain::zero_step;
use super::valid::Builder;
use crate::random::Random;

/// Terms and generators of equal sizes or nearly so, as the weights have it, in reductions and full sums.
pub fn ties(random: &mut Random) -> Vec<u8> {
    let n = 1 + random.below(6);
    let mut builder = start(Field::Start(tied_sizes(random, n, 4)));
    for _ in 0..4 + random.below(8) {
        let set = builder.set();
        let field = match random.below(6) {
            0 => Field::Reduce(Reduction { terms: random.below(MAX_TERMS), generators: random.below(MAX_GENERATORS) }),
            1 => Field::Reduce(Reduction { terms: random.below(12), generators: random.below(8) }),
            2 => Field::Tied(tied_sizes(random, n, 4)),
            3 => Field::Independent(tied_sizes(random, n, 2)),
            4 => Field::Step(exchange(random, n)),
            _ => Field::Check(region(random, &set)),
        };
        builder.add(&field);
    }
    builder.bytes
}

/// Steps, some of them ranged, among powers of two and small odd numbers, so that many numbers are exact halves or one
/// beside.
pub fn halves(random: &mut Random) -> Vec<u8> {
    let n = 1 + random.below(3);
    let mut builder = start(Field::Start(body(random, n, 2, 4, 2, power_of_two_or_odd)));
    for _ in 0..4 + random.below(8) {
        let set = builder.set();
        let field = match random.below(4) {
            0 => Field::Check(region(random, &set)),
            1 if set.identifiers.len() < 9 => Field::Independent(body(random, n, 2, 2, 1, power_of_two_or_odd)),
            _ => {
                let step = Step {
                    constant: numbers(random, n, |r| r.between(-2, 2)),
                    matrix: (0..n).map(|_| numbers(random, n, sparse)).collect(),
                    forms: (0..n).map(|_| (0..n).map(|_| numbers(random, n, sparse)).collect()).collect(),
                };
                let mut half_widths = step.exactly();
                half_widths.matrix.iter_mut().flatten().for_each(|width| *width = sparse(random).abs());
                if random.once_in(3) {
                    Field::Ranged(RangedStep { step, half_widths })
                } else {
                    Field::Step(step)
                }
            }
        };
        builder.add(&field);
    }
    builder.bytes
}

/// Even powers with odd coefficients, mostly of one sign, that are folded in a set as wide as can be: a fold that widened
/// it by one would be refused.
pub fn odd_folds(random: &mut Random) -> Vec<u8> {
    let n = 1 + random.below(3);
    let most = *random.pick(&[3, -3]);
    let odd = |random: &mut Random| if random.once_in(4) { 2 * random.between(-4, 3) + 1 } else { most };
    let mut set = body(random, n, 2, 6, 1, odd);
    for term in &mut set.terms {
        term.exponents.iter_mut().for_each(|e| *e = if random.once_in(12) { *e } else { 2 * *e });
    }
    set.terms.sort_by(|s, t| s.exponents.cmp(&t.exponents));
    set.terms.dedup_by(|s, t| s.exponents == t.exponents);
    let (mut wide, mut step) = (set.clone(), exchange(random, n));
    for i in 0..n {
        let room = SPAN_LIMIT - span(&wide, i) - random.between(0, 3);
        match random.below(3) {
            0 => wide.radii[i] += room,
            _ => wide.centre[i] += if wide.centre[i] < 0 { -room } else { room },
        }
    }
    step.forms[0][0][0] = UNIT;
    let fold = Field::Reduce(Reduction { terms: random.below(4), generators: random.below(2) });
    let high = SetBody { terms: set.terms.iter().map(|t| raised(t, 32)).collect(), ..set.clone() };
    let (first, then) = match random.below(4) {
        0 => (set, [fold, Field::Step(exchange(random, n))]),
        1 => (high, [Field::Step(step), fold]),
        _ => (wide, [fold, Field::Step(exchange(random, n))]),
    };
    let mut builder = start(Field::Start(first));
    for field in &then {
        builder.add(field);
    }
    let check = Field::Check(region(random, &builder.set()));
    builder.add(&check);
    builder.bytes
}

/// Hulls of odd numbers, each half of which is rounded. Some runs begin with a set's hull with itself: of even numbers
/// it leaves the new factor nothing to blend, though its number is used.
pub fn odd_hulls(random: &mut Random) -> Vec<u8> {
    let n = 1 + random.below(4);
    let odd = |random: &mut Random| 2 * random.between(-40, 40) + 1;
    let first = match random.below(4) {
        0 => body(random, n, 3, 6, 3, |random| 2 * odd(random)),
        _ => body(random, n, 3, 6, 3, odd),
    };
    let mut builder = start(Field::Start(first.clone()));
    if random.once_in(2) {
        builder.add(&Field::Hull(first));
    }
    for _ in 0..4 + random.below(6) {
        let set = builder.set();
        let field = match random.below(6) {
            0 => Field::Check(region(random, &set)),
            1 => Field::Independent(body(random, n, 1, 1, 1, odd)),
            2 => Field::Reduce(Reduction { terms: random.below(8), generators: 0 }),
            _ => Field::Hull(body(random, n, 3, 6, 3, odd)),
        };
        builder.add(&field);
    }
    builder.bytes
}

fn raised(term: &Term, by: u32) -> Term {
    Term { exponents: term.exponents.iter().map(|e| e + by).collect(), ..term.clone() }
}

fn start(field: Field) -> Builder {
    let mut builder = Builder::empty();
    builder.add(&field);
    builder
}

/// One at a place of weight 4 counts as much as four at a place of weight 1.
fn tied_sizes(random: &mut Random, n: usize, factors: usize) -> SetBody {
    let mut set = body(random, n, factors, MAX_TERMS, MAX_GENERATORS, |r| *r.pick(&[-1, 0, 1]));
    let rows = set.terms.iter_mut().map(|t| &mut t.coefficients).chain(&mut set.generators);
    for row in rows {
        for (i, v) in row.iter_mut().enumerate() {
            *v *= if i % 2 == 0 || random.once_in(2) { 1 } else { 4 };
        }
    }
    set
}

/// Each coordinate becomes one of them, or its negative: exact, but places change their weight.
fn exchange(random: &mut Random, n: usize) -> Step {
    let mut step = zero_step(n, n);
    for row in &mut step.matrix {
        row[random.below(n)] = *random.pick(&[UNIT, -UNIT]);
    }
    step
}

/// One of which two and an entry, or one and two entries, often make 8,388,608 or an odd multiple of it.
fn power_of_two_or_odd(random: &mut Random) -> i128 {
    *random.pick(&[0, 1, 1, 3, 5, 64, 2048, 4096]) * random.between(-1, 1)
}

fn sparse(random: &mut Random) -> i128 {
    if random.once_in(3) {
        *random.pick(&[1, 2048, 2048, 4096]) * random.between(-1, 1)
    } else {
        0
    }
}

/// A valid body with up to so many factors, terms and generators, of numbers made by `number`.
fn body(
    random: &mut Random,
    n: usize,
    factors: usize,
    terms: usize,
    generators: usize,
    number: impl Fn(&mut Random) -> i128 + Copy,
) -> SetBody {
    let factors = 1 + random.below(factors);
    let mut rows: BTreeSet<Vec<u32>> =
        (0..factors).map(|k| (0..factors).map(|j| u32::from(j == k)).collect()).collect();
    for _ in 0..random.below(terms + 1) {
        let row: Vec<u32> = (0..factors).map(|_| random.below(6) as u32).collect();
        if rows.len() < terms && row.iter().any(|e| *e > 0) {
            rows.insert(row);
        }
    }
    let nonzero = |random: &mut Random| loop {
        let row = numbers(random, n, number);
        if row.iter().any(|v| *v != 0) {
            return row;
        }
    };
    SetBody {
        identifiers: (1..).take(factors).collect(),
        centre: numbers(random, n, number),
        terms: rows.into_iter().map(|exponents| Term { exponents, coefficients: nonzero(random) }).collect(),
        generators: (0..random.below(generators + 1)).map(|_| nonzero(random)).collect(),
        radii: (0..n).map(|_| random.between(0, 2)).collect(),
    }
}

fn numbers(random: &mut Random, count: usize, number: impl Fn(&mut Random) -> i128) -> Vec<i128> {
    (0..count).map(|_| number(random)).collect()
}
