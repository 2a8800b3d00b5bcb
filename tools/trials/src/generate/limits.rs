//! Runs with one number or count at its limit, one below or one above. The seed says which, so that consecutive
//! seeds have them all.

use peer::set::Set;
use run_file::{
    Field, Halfspace, Reduction, SetBody, Term, BOUND_LIMIT, CONSTANT_LIMIT, DISTURBANCE_LIMIT, ENTRY_LIMIT,
    MAX_DIMENSION, MAX_EXPONENT, MAX_FACTORS, MAX_FIELDS, MAX_GENERATORS, MAX_HALFSPACES, MAX_IDENTIFIER, MAX_TERMS,
    SPAN_LIMIT, UNIT,
};

use super::parts::{region, span};
use super::plain::{plain_set, unchanged, zero_ranged, zero_step};
use crate::random::Random;

/// How many numbers have a limit here, and how many counts.
const NUMBERS: u64 = 26;
const COUNTS: u64 = 22;

/// Numbers within 1 of a limit, first of one sign, then of the other.
pub fn number(random: &mut Random, seed: u64) -> Vec<u8> {
    let by = i128::from(seed % 3) - 1;
    let sign = if (seed / 3 / NUMBERS).is_multiple_of(2) { 1 } else { -1 };
    let start = Field::Start(plain_set(2, 1, 1, 1));
    let empty = Field::Start(plain_set(2, 0, 0, 0));
    let mut body = plain_set(2, 1, 1, 1);
    let mut step = zero_step(2, 2);
    let mut ranged = zero_ranged(2, 2);
    let fields = match seed / 3 % NUMBERS {
        0 => {
            let (p, h) = (1 + random.below(MAX_FACTORS - 1), 1 + random.below(MAX_TERMS));
            body = plain_set(2, p, h, 1);
            body.terms[h - 1].exponents[p - 1] = (i128::from(MAX_EXPONENT) + by) as u32;
            vec![start, given(random, body)]
        }
        1 => {
            body.identifiers[0] = MAX_IDENTIFIER + by;
            vec![start, given(random, body)]
        }
        2 => {
            body.identifiers[0] = 1 + by;
            vec![start, given(random, body)]
        }
        3 => {
            body.radii[1] = by;
            vec![start, given(random, body)]
        }
        4 => {
            body.centre[0] = sign * (SPAN_LIMIT + by - 2);
            vec![Field::Start(body)]
        }
        5 => {
            step.constant[1] = sign * (CONSTANT_LIMIT + by);
            vec![start, Field::Step(step)]
        }
        6 => {
            step.matrix[random.below(2)][random.below(2)] = sign * (ENTRY_LIMIT + by);
            vec![start, Field::Step(step)]
        }
        7 => {
            step.forms[random.below(2)][random.below(2)][random.below(2)] = sign * (ENTRY_LIMIT + by);
            vec![start, Field::Step(step)]
        }
        8 => vec![start, Field::Check(vec![Halfspace { normal: vec![0, sign * (ENTRY_LIMIT + by)], bound: 0 }])],
        9 => vec![start, Field::Check(vec![Halfspace { normal: vec![1, -1], bound: sign * (BOUND_LIMIT + by) }])],
        10 => vec![empty, Field::Disturbance(vec![DISTURBANCE_LIMIT + by, DISTURBANCE_LIMIT])],
        11 => vec![start, Field::Disturbance(vec![1, by])],
        12 => vec![start, Field::Disturbance(vec![SPAN_LIMIT - 2 + by, 0])],
        13 | 14 => {
            // A term with itself, or two terms, have an exponent of about 63 together.
            body = plain_set(2, 1, 2, 1);
            body.terms[1].exponents[0] = (by + if seed / 3 % NUMBERS == 13 { 32 } else { 62 }) as u32;
            body.terms.iter_mut().for_each(|term| term.coefficients[0] = 9_000);
            step.forms[0][0][0] = UNIT;
            vec![Field::Start(body), Field::Step(step)]
        }
        15 => {
            body = plain_set(2, 2, 3, 2);
            widen_to(random, &mut body, SPAN_LIMIT + by);
            vec![Field::Start(body)]
        }
        16 => {
            body = plain_set(2, 2, 3, 2);
            widen_to(random, &mut body, SPAN_LIMIT + by);
            vec![empty, given(random, body)]
        }
        17 => {
            let mut current = plain_set(2, 2, 3, 2);
            widen_to(random, &mut current, SPAN_LIMIT / 2);
            body = plain_set(2, 2, 3, 2);
            widen_to(random, &mut body, SPAN_LIMIT / 2 + by);
            vec![Field::Start(current), given(random, body)]
        }
        18 => {
            // With itself: a coefficient of 1 is halved and rounded to 0 four times, for which the radius takes 2.
            let numbers = vec![SPAN_LIMIT + by - 2 - 1; 2];
            if random.once_in(2) {
                body.radii = numbers;
            } else {
                body.centre = numbers;
            }
            vec![Field::Start(body.clone()), Field::Hull(body)]
        }
        19 => {
            ranged.half_widths.matrix[random.below(2)][random.below(2)] = by;
            vec![start, Field::Ranged(ranged)]
        }
        20 => {
            ranged.half_widths.forms[random.below(2)][random.below(2)][random.below(2)] = by;
            vec![start, Field::Ranged(ranged)]
        }
        21 => {
            let (i, j, size) = (random.below(2), random.below(2), random.between(0, ENTRY_LIMIT - 1));
            ranged.step.matrix[i][j] = sign * size;
            ranged.half_widths.matrix[i][j] = ENTRY_LIMIT + by - size;
            vec![start, Field::Ranged(ranged)]
        }
        22 => {
            let (i, j, l, size) =
                (random.below(2), random.below(2), random.below(2), random.between(0, ENTRY_LIMIT - 1));
            ranged.step.forms[i][j][l] = sign * size;
            ranged.half_widths.forms[i][j][l] = ENTRY_LIMIT + by - size;
            vec![start, Field::Ranged(ranged)]
        }
        23 => {
            let mut current = plain_set(2, 1, 2, 1);
            widen_to(random, &mut current, 1_000);
            (0..2).for_each(|i| step.matrix[i][i] = UNIT);
            step.constant = current.centre.iter().map(|k| sign_of(*k) * (SPAN_LIMIT + by - 1_000)).collect();
            vec![Field::Start(current), Field::Step(step)]
        }
        24 => {
            // In a set with spans of 1.0 a half-width adds itself to the radius.
            let mut current = plain_set(2, 1, 2, 1);
            widen_to(random, &mut current, UNIT);
            for i in 0..2 {
                let width = random.between(1, ENTRY_LIMIT - UNIT);
                ranged.step.matrix[i][i] = UNIT;
                ranged.step.constant[i] = sign_of(current.centre[i]) * (SPAN_LIMIT + by - UNIT - width);
                if random.once_in(2) {
                    ranged.half_widths.matrix[i][random.below(2)] = width;
                } else {
                    ranged.half_widths.forms[i][random.below(2)][random.below(2)] = width;
                }
            }
            vec![Field::Start(current), Field::Ranged(ranged)]
        }
        _ => vec![start, Field::Disturbance(vec![0, by])],
    };
    fields.iter().flat_map(Field::encode).collect()
}

/// Counts within 1 of a limit.
pub fn count(random: &mut Random, seed: u64) -> Vec<u8> {
    let near = |limit: usize| limit + (seed % 3) as usize - 1;
    let set = |n, p, h, q| Field::Start(plain_set(n, p, h, q));
    let start = set(2, 1, 1, 1);
    let region = |count| Field::Check(vec![Halfspace { normal: vec![1, 1], bound: 0 }; count]);
    let fields = match seed / 3 % COUNTS {
        0 => vec![set(near(MAX_DIMENSION), 1, 1, 1)],
        1 => vec![set(near(1), 1, 1, 1)],
        2 => vec![set(2, near(MAX_FACTORS), 1, 0)],
        3 => vec![set(2, 1, near(MAX_TERMS), 0)],
        4 => vec![set(2, 1, 1, near(MAX_GENERATORS))],
        5 => vec![set(2, near(1), 1, 0)],
        6 => vec![set(2, 1, near(1), 0)],
        7 => vec![start, Field::Step(zero_step(near(MAX_DIMENSION), 2))],
        8 => vec![start, Field::Step(zero_step(near(1), 2))],
        9 => vec![set(MAX_DIMENSION, 0, 0, 0), Field::Step(zero_step(2, near(MAX_DIMENSION)))],
        10 => vec![set(MAX_DIMENSION, 0, 0, 0), Field::Disturbance(vec![1; near(MAX_DIMENSION)])],
        11 => vec![start, Field::Reduce(Reduction { terms: near(MAX_TERMS), generators: MAX_GENERATORS })],
        12 => vec![start, Field::Reduce(Reduction { terms: 0, generators: near(MAX_GENERATORS) })],
        13 => vec![start, region(near(MAX_HALFSPACES))],
        14 => vec![start, region(near(1))],
        15 => return unchanged(near(MAX_FIELDS)),
        16 => {
            let first = 1 + random.below(11);
            vec![set(1, first, 1, 0), Field::Independent(plain_set(1, near(MAX_FACTORS) - first, 1, 0))]
        }
        17 => {
            let (first, shared) = (1 + random.below(11), random.below(2));
            vec![set(1, first, 1, 0), Field::Tied(sharing(first, shared, near(MAX_FACTORS)))]
        }
        18 => {
            // The factor that blends is one more.
            let (first, shared) = (1 + random.below(9), random.below(2));
            vec![set(1, first, 1, 0), Field::Hull(sharing(first, shared, near(MAX_FACTORS) - 1))]
        }
        19 => vec![start, Field::Ranged(zero_ranged(near(MAX_DIMENSION), 2))],
        20 => vec![start, Field::Ranged(zero_ranged(near(1), 2))],
        _ => vec![set(MAX_DIMENSION, 0, 0, 0), Field::Ranged(zero_ranged(2, near(MAX_DIMENSION)))],
    };
    fields.iter().flat_map(Field::encode).collect()
}

/// Everything at its limit at once, and a step with every entry.
pub fn fullest(random: &mut Random) -> Vec<u8> {
    let mut step = zero_step(MAX_DIMENSION, MAX_DIMENSION);
    step.forms.iter_mut().flatten().flatten().for_each(|q| *q = random.between(-UNIT, UNIT));
    let mut set = plain_set(MAX_DIMENSION, MAX_FACTORS, MAX_TERMS, MAX_GENERATORS);
    set.terms.iter_mut().for_each(|t| t.coefficients[0] = random.between(1, 2_000));
    let body = set.clone();
    [Field::Start(set), Field::Step(step), given(random, body)].iter().flat_map(Field::encode).collect()
}

/// Hulls of the fullest sets on different rows of exponents: of 161 terms 40 stay.
pub fn full_hulls(random: &mut Random) -> Vec<u8> {
    let (n, p) = (1 + random.below(MAX_DIMENSION), 2 + random.below(MAX_FACTORS - 3));
    let mut set = |raised: u32| {
        let mut set = plain_set(n, p, MAX_TERMS, MAX_GENERATORS);
        for term in &mut set.terms {
            term.exponents[p - 1] += raised;
            term.coefficients.iter_mut().for_each(|g| *g = 2 * random.between(-900, 900) + 1);
        }
        set
    };
    let (first, second, third) = (set(0), set(22), set(23));
    let check = Field::Check(region(random, &Set::from(&first)));
    [Field::Start(first), Field::Hull(second), check, Field::Hull(third)].iter().flat_map(Field::encode).collect()
}

/// Steps that keep two coordinates, one with a term of α³²β and the other with one of α³³, and make the other coordinates
/// of their product, which folds: in each field one of them is nothing but what was folded, as wide as can be.
pub fn most_folded(random: &mut Random) -> Vec<u8> {
    let n = 3 + random.below(MAX_DIMENSION - 2);
    let first = random.below(n);
    let second = (first + 1 + random.below(n - 1)) % n;
    let widest = (0..n).find(|i| ![first, second].contains(i));
    let mut term = |exponents: [u32; 2], i: usize, size: i128| {
        let mut coefficients = vec![0; n];
        coefficients[i] = *random.pick(&[size, -size]);
        Term { exponents: exponents.to_vec(), coefficients }
    };
    let mut start = plain_set(n, 2, 0, 0);
    start.terms = vec![term([32, 1], first, 32_768), term([33, 0], second, 16_384)];
    let mut step = zero_step(n, n);
    for i in 0..n {
        if [first, second].contains(&i) {
            step.matrix[i][i] = UNIT;
        } else {
            let entry = if Some(i) == widest { ENTRY_LIMIT } else { random.between(0, ENTRY_LIMIT) };
            step.forms[i][first][second] = *random.pick(&[entry, -entry]);
        }
    }
    [Field::Start(start).encode(), Field::Step(step).encode().repeat(MAX_FIELDS)].concat()
}

fn given(random: &mut Random, body: SetBody) -> Field {
    match random.below(3) {
        0 => Field::Tied(body),
        1 => Field::Hull(body),
        _ => Field::Independent(body),
    }
}

/// A set that shares so many of the identifiers 1 to `first` and has so many together with them.
fn sharing(first: usize, shared: usize, together: usize) -> SetBody {
    let mut set = plain_set(1, together - first + shared, 1, 0);
    set.identifiers.iter_mut().for_each(|id| *id += (first - shared) as i128);
    set
}

/// Widens each coordinate to this span in one of its parts, the way the part points already.
fn widen_to(random: &mut Random, set: &mut SetBody, wanted: i128) {
    for i in 0..set.dimension() {
        let more = wanted - span(set, i);
        let part = match random.below(4) {
            0 => &mut set.centre[i],
            1 => &mut set.radii[i],
            2 => &mut set.terms[0].coefficients[i],
            _ => &mut set.generators[0][i],
        };
        *part += sign_of(*part) * more;
    }
}

fn sign_of(number: i128) -> i128 {
    if number < 0 {
        -1
    } else {
        1
    }
}
