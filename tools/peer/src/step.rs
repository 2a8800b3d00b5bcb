//! The polynomial step x' = c + Ax + Q(x,x), entries of A and Q in 1/4096, each known exactly or within a half-width.

use std::cmp::Ordering;

use run_file::{HalfWidths, Matrix, Step, Term, CONSTANT_LIMIT, ENTRY_LIMIT, SQUARE_UNIT, UNIT};

use crate::finish::{finish, Finished, FULL};
use crate::set::{RadiusParts, Set};

pub fn is_in_range(step: &Step, half_widths: &HalfWidths) -> bool {
    let entry = |(v, width): (&i128, &i128)| *width >= 0 && v.abs() + width <= ENTRY_LIMIT;
    let mut matrix = step.matrix.iter().flatten().zip(half_widths.matrix.iter().flatten());
    let mut forms = step.forms.iter().flatten().flatten().zip(half_widths.forms.iter().flatten().flatten());
    step.constant.iter().all(|v| v.abs() <= CONSTANT_LIMIT) && matrix.all(entry) && forms.all(entry)
}

/// The finished image of a set under every step within the half-widths.
pub fn image(step: &Step, half_widths: &HalfWidths, set: &Set) -> Finished {
    let mut image = Set {
        identifiers: set.identifiers.clone(),
        centre: Vec::new(),
        terms: image_terms(set),
        generators: vec![Vec::new(); set.generators.len()],
        radius_parts: Vec::new(),
    };
    for i in 0..step.constant.len() {
        push_coordinate(i, step, half_widths, set, &mut image);
    }
    finish(image, FULL)
}

/// Coordinate `i` of every part of the image, each number rounded by itself.
fn push_coordinate(i: usize, step: &Step, half_widths: &HalfWidths, set: &Set, image: &mut Set) {
    let (row, form) = (&step.matrix[i], &step.forms[i]);
    let k = &set.centre;
    let mut inexact = 0;
    let mut rounded = |v: i128| {
        inexact += i128::from(is_inexact(v));
        round(v)
    };
    let linear = |g: &[i128]| UNIT * dot(row, g) + quadratic(form, k, g) + quadratic(form, g, k);

    let centre = SQUARE_UNIT * step.constant[i] + UNIT * dot(row, k) + quadratic(form, k, k);
    image.centre.push(rounded(centre));

    let mut place = 0;
    for term in &set.terms {
        image.terms[place].coefficients.push(rounded(linear(&term.coefficients)));
        place += 1;
    }
    for (first, g) in set.terms.iter().enumerate() {
        for (second, h) in set.terms.iter().enumerate().skip(first) {
            let (g, h) = (&g.coefficients, &h.coefficients);
            let product =
                if first == second { quadratic(form, g, g) } else { quadratic(form, g, h) + quadratic(form, h, g) };
            image.terms[place].coefficients.push(rounded(product));
            place += 1;
        }
    }
    for (generator, image) in set.generators.iter().zip(&mut image.generators) {
        image.push(rounded(linear(generator)));
    }
    let rest = rest(row, form, set) + gain(&half_widths.matrix[i], &half_widths.forms[i], set);
    image.radius_parts.push(image_radius(ceiling(rest, SQUARE_UNIT), inexact));
}

/// v in 1/16,777,216, to the nearest whole number; an exact half to the even one of its two neighbours (document 02,
/// A.3).
pub fn round(v: i128) -> i128 {
    let (below, rest) = (v.div_euclid(SQUARE_UNIT), v.rem_euclid(SQUARE_UNIT));
    match rest.cmp(&(SQUARE_UNIT / 2)) {
        Ordering::Less => below,
        Ordering::Greater => below + 1,
        Ordering::Equal if below % 2 == 0 => below,
        Ordering::Equal => below + 1,
    }
}

/// Whether `round` changes v.
pub fn is_inexact(v: i128) -> bool {
    v % SQUARE_UNIT != 0
}

/// The exponents of the image's terms, linear ones first, then pairs row by row; no coefficients yet.
fn image_terms(set: &Set) -> Vec<Term> {
    let without_coefficients = |exponents| Term { exponents, coefficients: Vec::new() };
    let mut terms: Vec<Term> = set.terms.iter().map(|t| without_coefficients(t.exponents.clone())).collect();
    for (first, g) in set.terms.iter().enumerate() {
        for h in &set.terms[first..] {
            let sum = g.exponents.iter().zip(&h.exponents).map(|(d, e)| d + e).collect();
            terms.push(without_coefficients(sum));
        }
    }
    terms
}

/// What the radii and the products with generators can add, in 1/16,777,216 (document 01: S, for exact entries).
fn rest(row: &[i128], form: &Matrix, set: &Set) -> i128 {
    let n = set.dimension();
    let k = &set.centre;
    let w = set.radii();
    let d: Vec<i128> = (0..n).map(|j| set.terms.iter().map(|t| t.coefficients[j].abs()).sum()).collect();
    let r: Vec<i128> = (0..n).map(|j| set.independent_part(j)).collect();
    let mut sum = 0;
    for j in 0..n {
        let slope = UNIT * row[j] + (0..n).map(|l| (form[j][l] + form[l][j]) * k[l]).sum::<i128>();
        sum += slope.abs() * w[j];
        for l in 0..n {
            sum += form[j][l].abs() * (d[j] * r[l] + r[j] * d[l] + r[j] * r[l]);
        }
    }
    sum
}

/// What entries that are off by these half-widths can add, in 1/16,777,216 (document 02: what S gains).
fn gain(row: &[i128], form: &Matrix, set: &Set) -> i128 {
    let spans: Vec<i128> = (0..set.dimension()).map(|j| set.span(j)).collect();
    UNIT * dot(row, &spans) + quadratic(form, &spans, &spans)
}

pub fn dot(a: &[i128], x: &[i128]) -> i128 {
    a.iter().zip(x).map(|(a, x)| a * x).sum()
}

fn quadratic(form: &Matrix, x: &[i128], y: &[i128]) -> i128 {
    form.iter().zip(x).map(|(row, x)| x * dot(row, y)).sum()
}

/// The radius of a step's or a hull's image before finishing: what is carried over, and half a unit for each inexact
/// rounding (document 02, A.4).
pub fn image_radius(carried: i128, inexact: i128) -> RadiusParts {
    RadiusParts { carried, rounded: ceiling(inexact, 2), folded: 0, given: 0 }
}

/// v / divisor rounded up, for v of 0 or more.
fn ceiling(v: i128, divisor: i128) -> i128 {
    (v + divisor - 1) / divisor
}
