//! The plain sets, steps and runs that files aimed at something are made of.

use run_file::{Field, Halfspace, RangedStep, Reduction, SetBody, Step, Term, MAX_GENERATORS, MAX_TERMS, UNIT};

use super::parts::radii;
use crate::random::Random;

/// A set of the given counts, in limits or not, with all numbers 1 and zero centre and radii.
pub fn plain_set(n: usize, p: usize, h: usize, q: usize) -> SetBody {
    SetBody {
        identifiers: (1..).take(p).collect(),
        centre: vec![0; n],
        terms: (1..).take(h).map(|e| Term { exponents: vec![e; p], coefficients: vec![1; n] }).collect(),
        generators: vec![vec![1; n]; q],
        radii: vec![0; n],
    }
}

pub fn zero_step(m: usize, n: usize) -> Step {
    Step { constant: vec![0; m], matrix: vec![vec![0; n]; m], forms: vec![vec![vec![0; n]; n]; m] }
}

pub fn zero_ranged(m: usize, n: usize) -> RangedStep {
    let step = zero_step(m, n);
    RangedStep { half_widths: step.exactly(), step }
}

/// A disturbance for n coordinates whose radii are all 0.
pub fn empty_disturbance(n: usize) -> Field {
    Field::Disturbance(vec![0; n])
}

/// A start set and so many fields after it that change nothing.
pub fn unchanged(fields: usize) -> Vec<u8> {
    let reduce = Field::Reduce(Reduction { terms: MAX_TERMS, generators: MAX_GENERATORS });
    [Field::Start(plain_set(1, 1, 1, 0)).encode(), reduce.encode().repeat(fields)].concat()
}

/// A start set and so many fields after it that leave it as wide as it was or wider by a little.
pub fn little_changed(random: &mut Random, fields: usize) -> Vec<u8> {
    let n = 1 + random.below(2);
    let mut bytes = Field::Start(plain_set(n, 1, 2, 1)).encode();
    for _ in 0..fields {
        bytes.extend(little_change(random, n).encode());
    }
    bytes
}

/// Such a field, for a set in n coordinates.
pub fn little_change(random: &mut Random, n: usize) -> Field {
    match random.below(5) {
        0 => Field::Reduce(Reduction {
            terms: random.below(1 + MAX_TERMS),
            generators: random.below(1 + MAX_GENERATORS),
        }),
        1 => Field::Disturbance(radii(random, n, 3)),
        2 => {
            let mut same = zero_step(n, n);
            (0..n).for_each(|i| same.matrix[i][i] = UNIT);
            Field::Step(same)
        }
        3 => Field::Tied(plain_set(n, 0, 0, 0)),
        _ => {
            let normal = (0..n).map(|_| random.between(-2, 2)).collect();
            Field::Check(vec![Halfspace { normal, bound: -random.between(0, 20_000) }])
        }
    }
}
