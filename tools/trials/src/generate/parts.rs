//! Random valid set bodies, radii, steps and checks.

use std::collections::BTreeSet;

use peer::bounds::lower_end;
use peer::set::Set;
use run_file::{
    HalfWidths, Halfspace, RangedStep, SetBody, Step, Tag, Term, BOUND_LIMIT, ENTRY_LIMIT, MAX_HALFSPACES,
    MAX_IDENTIFIER, SPAN_LIMIT, SQUARE_UNIT, UNIT,
};

use crate::random::Random;

/// What a set body is to be like; the counts are at most.
#[derive(Clone, Copy)]
pub struct Shape {
    pub dimension: usize,
    pub factors: usize,
    pub terms: usize,
    pub generators: usize,
    pub lowest_exponent: u32,
    pub highest_exponent: u32,
    pub with_radii: bool,
    pub span: i128,
}

/// A valid body. It has factors only if it has terms, and the other way round.
pub fn body(random: &mut Random, shape: &Shape) -> SetBody {
    let n = shape.dimension;
    let (factors, terms) = if shape.factors == 0 || shape.terms == 0 { (0, 0) } else { (shape.factors, shape.terms) };
    let exponents = exponent_rows(random, shape, factors, terms);
    let limit = (shape.span / (exponents.len() + shape.generators + 2) as i128).max(1);
    let numbers = |random: &mut Random| (0..n).map(|_| random.between(-limit, limit)).collect();
    let no_radius = |random: &mut Random| !shape.with_radii || random.once_in(3);
    let radius = |random: &mut Random| if no_radius(random) { 0 } else { random.between(0, limit) };
    SetBody {
        identifiers: identifiers(random, factors),
        centre: numbers(random),
        terms: exponents
            .into_iter()
            .map(|exponents| Term { exponents, coefficients: nonzero(random, n, limit) })
            .collect(),
        generators: (0..shape.generators).map(|_| nonzero(random, n, limit)).collect(),
        radii: (0..n).map(|_| radius(random)).collect(),
    }
}

/// The span of a body's set in coordinate `i`.
pub fn span(body: &SetBody, i: usize) -> i128 {
    Set::from(body).span(i)
}

/// Widens each coordinate to the full span or a little less, in the centre or the radius.
pub fn fill_span(random: &mut Random, set: &mut SetBody) {
    for i in 0..set.dimension() {
        let room = SPAN_LIMIT - span(set, i) - random.between(0, 2);
        if room > 0 && random.once_in(2) {
            set.radii[i] += room;
        } else if room > 0 {
            set.centre[i] += if set.centre[i] < 0 { -room } else { room };
        }
    }
}

/// Mostly few and low, so that tied sums meet identifiers they share; sometimes any.
fn identifiers(random: &mut Random, count: usize) -> Vec<i128> {
    let highest = if random.once_in(4) { MAX_IDENTIFIER } else { 14 };
    let mut identifiers = BTreeSet::new();
    while identifiers.len() < count {
        identifiers.insert(random.between(1, highest));
    }
    identifiers.into_iter().collect()
}

/// Distinct rows of exponents in order, up to `count`; each factor occurs in one.
fn exponent_rows(random: &mut Random, shape: &Shape, factors: usize, count: usize) -> BTreeSet<Vec<u32>> {
    let (lowest, highest) = (i128::from(shape.lowest_exponent.max(1)), i128::from(shape.highest_exponent));
    let exponent = |random: &mut Random, used: bool| if used { random.between(lowest, highest) as u32 } else { 0 };
    let mut rows = BTreeSet::new();
    if factors == 0 {
        return rows;
    }
    if count < factors {
        rows.insert((0..factors).map(|_| exponent(random, true)).collect::<Vec<u32>>());
    } else {
        for k in 0..factors {
            rows.insert((0..factors).map(|j| exponent(random, j == k)).collect());
        }
    }
    for _ in 0..4 * count {
        let chosen = random.below(factors);
        let row = (0..factors).map(|k| {
            let used = k == chosen || random.once_in(3);
            exponent(random, used)
        });
        let row = row.collect();
        if rows.len() < count {
            rows.insert(row);
        }
    }
    rows
}

fn nonzero(random: &mut Random, n: usize, limit: i128) -> Vec<i128> {
    let mut numbers: Vec<i128> =
        (0..n).map(|_| if random.once_in(4) { 0 } else { random.between(-limit, limit) }).collect();
    if numbers.iter().all(|v| *v == 0) {
        numbers[random.below(n)] = random.between(1, limit);
    }
    numbers
}

/// The radii of a disturbance: up to the limit, and not all 0 even where that is 0.
pub fn radii(random: &mut Random, n: usize, limit: i128) -> Vec<i128> {
    let mut radii: Vec<i128> = (0..n).map(|_| random.between(0, limit)).collect();
    if radii.iter().all(|r| *r == 0) {
        radii[random.below(n)] = random.between(1, limit.max(1));
    }
    radii
}

/// A step to m coordinates whose result has a span of about `span` at most.
pub fn step(random: &mut Random, set: &Set, m: usize, span: i128) -> Step {
    let (mut matrix, mut forms) = entries(random, m, set.dimension());
    let constant: Vec<i128> = (0..m).map(|_| random.between(-span / 8, span / 8)).collect();
    for i in 0..m {
        shrink(&mut matrix[i], &mut forms[i], set, span - constant[i].abs());
    }
    Step { constant, matrix, forms }
}

/// The same with entries that are known within half-widths, large or small ones.
pub fn ranged(random: &mut Random, set: &Set, m: usize, span: i128) -> RangedStep {
    let step = step(random, set, m, span / 2);
    let (mut matrix, mut forms) = entries(random, m, set.dimension());
    let fit = |(width, entry): (&mut i128, &i128)| *width = width.abs().min(ENTRY_LIMIT - entry.abs());
    matrix.iter_mut().flatten().zip(step.matrix.iter().flatten()).for_each(fit);
    forms.iter_mut().flatten().flatten().zip(step.forms.iter().flatten().flatten()).for_each(fit);
    let reach = *random.pick(&[span / 2, span / 64]);
    for i in 0..m {
        shrink(&mut matrix[i], &mut forms[i], set, reach);
    }
    RangedStep { step, half_widths: HalfWidths { matrix, forms } }
}

/// A and Q, or only one of them; some entries are 0 and a few as large as can be.
fn entries(random: &mut Random, m: usize, n: usize) -> (Vec<Vec<i128>>, Vec<Vec<Vec<i128>>>) {
    let (with_matrix, with_forms) = (!random.once_in(6), !random.once_in(4));
    let mut entry = |wanted: bool| {
        if !wanted || random.once_in(3) {
            0
        } else if random.once_in(8) {
            random.between(-ENTRY_LIMIT, ENTRY_LIMIT)
        } else {
            random.between(-UNIT, UNIT)
        }
    };
    let matrix = (0..m).map(|_| (0..n).map(|_| entry(with_matrix)).collect()).collect();
    let forms = (0..m).map(|_| (0..n).map(|_| (0..n).map(|_| entry(with_forms)).collect()).collect()).collect();
    (matrix, forms)
}

/// Makes a row of A and a form smaller where they can take the set beyond seven eighths of `reach`.
fn shrink(row: &mut [i128], form: &mut [Vec<i128>], set: &Set, reach: i128) {
    let spans: Vec<i128> = (0..set.dimension()).map(|j| set.span(j)).collect();
    let sizes = |row: &[i128]| row.iter().zip(&spans).map(|(a, s)| a.abs() * s).sum::<i128>();
    let products: i128 = form.iter().zip(&spans).map(|(row, s)| s * sizes(row)).sum();
    let largest = UNIT * sizes(row) + products;
    let allowed = SQUARE_UNIT * reach * 7 / 8;
    if largest > allowed {
        let smaller = |v: &mut i128| *v = *v * allowed / largest;
        row.iter_mut().for_each(smaller);
        form.iter_mut().flatten().for_each(smaller);
    }
}

/// Halfspaces around the set, some with b at the lower end or one beside it.
pub fn region(random: &mut Random, set: &Set) -> Vec<Halfspace> {
    let count = if random.once_in(2) { 1 } else { 1 + random.below(MAX_HALFSPACES) };
    (0..count)
        .map(|_| {
            let limit = *random.pick(&[1, UNIT, ENTRY_LIMIT]);
            let normal: Vec<i128> = (0..set.dimension()).map(|_| random.between(-limit, limit)).collect();
            let bound = match random.below(5) {
                0 => random.between(-BOUND_LIMIT, BOUND_LIMIT),
                1 => random.between(-SQUARE_UNIT, SQUARE_UNIT),
                _ => lower_end(set, &normal) + random.between(-1, 1),
            };
            Halfspace { normal, bound }
        })
        .collect()
}

/// The tag of a field after the first.
pub fn later_tag(random: &mut Random) -> Tag {
    *random.pick(&Tag::ALL[1..])
}
