//! Ranged steps at their edges: odd ones, some of which a run refuses, and the fullest.

use run_file::{Field, RangedStep, ENTRY_LIMIT, HEADER, MAX_DIMENSION, MAX_FACTORS, MAX_GENERATORS, MAX_TERMS, UNIT};

use super::faults::{break_length, half_width_out_of_range, place, resize_body};
use super::parts::{body, ranged, region, Shape};
use super::plain::zero_ranged;
use super::valid::{prefix, Builder, MIXED};
use crate::random::Random;

const SPAN: i128 = 60_000;

/// After a short valid run a ranged step with one thing odd about it, and a check where a run accepts it.
pub fn odd_ranges(random: &mut Random) -> Vec<u8> {
    let fields = random.below(4);
    let mut builder = prefix(random, &MIXED, fields);
    let set = builder.set();
    let (m, n) = (1 + random.below(MAX_DIMENSION), set.dimension());
    let mut odd = ranged(random, &set, m, SPAN);
    match random.below(6) {
        0 => odd.half_widths = odd.step.exactly(),
        1 => half_width_out_of_range(random, &odd.step, &mut odd.half_widths),
        2 => odd = one_entry(random, m, n, ENTRY_LIMIT),
        3 => odd = one_entry(random, m, n, ENTRY_LIMIT + 1),
        4 => odd = zero_ranged(m, 1 + random.below(MAX_DIMENSION + 1)),
        _ => return [builder.bytes, of_another_length(random, odd)].concat(),
    }
    let field = Field::Ranged(odd);
    if !builder.add(&field) {
        return [builder.bytes, field.encode()].concat();
    }
    let check = Field::Check(region(random, &builder.set()));
    builder.add(&check);
    builder.bytes
}

/// Zeros but for one entry and its half-width, which together are so much.
fn one_entry(random: &mut Random, m: usize, n: usize, together: i128) -> RangedStep {
    let mut ranged = zero_ranged(m, n);
    let (i, j, l) = place(random, &ranged.step);
    let size = *random.pick(&[0, 1, UNIT, ENTRY_LIMIT - 1, ENTRY_LIMIT]);
    let entry = if random.once_in(2) { size } else { -size };
    if random.once_in(2) {
        (ranged.step.matrix[i][j], ranged.half_widths.matrix[i][j]) = (entry, together - size);
    } else {
        (ranged.step.forms[i][j][l], ranged.half_widths.forms[i][j][l]) = (entry, together - size);
    }
    ranged
}

/// The bytes without half-widths, without those of Q, under a plain step's tag, or some more or fewer.
fn of_another_length(random: &mut Random, ranged: RangedStep) -> Vec<u8> {
    let (m, n) = (ranged.step.constant.len(), ranged.step.from_dimension());
    let plain = Field::Step(ranged.step.clone()).encode();
    let mut bytes = Field::Ranged(ranged).encode();
    let body = bytes.len() - HEADER;
    match random.below(4) {
        0 => resize_body(&mut bytes, plain.len() - HEADER),
        1 => resize_body(&mut bytes, body - 4 * m * n * n),
        2 => bytes[0] = plain[0],
        _ => break_length(random, &mut bytes),
    }
    bytes
}

/// A ranged step with every entry and every half-width on the fullest set, a check, and a step on what is left.
pub fn full_ranges(random: &mut Random) -> Vec<u8> {
    let n = MAX_DIMENSION;
    let shape = Shape {
        dimension: n,
        factors: MAX_FACTORS,
        terms: MAX_TERMS,
        generators: MAX_GENERATORS,
        lowest_exponent: 1,
        highest_exponent: 40,
        with_radii: true,
        span: 20_000,
    };
    let mut full = zero_ranged(n, n);
    let RangedStep { step, half_widths } = &mut full;
    let either_sign = |random: &mut Random, limit: i128| random.between(1, limit) * random.pick(&[1, -1]);
    step.constant.iter_mut().for_each(|c| *c = either_sign(random, SPAN));
    step.matrix.iter_mut().flatten().for_each(|a| *a = either_sign(random, UNIT));
    step.forms.iter_mut().flatten().flatten().for_each(|q| *q = either_sign(random, 1_000));
    half_widths.matrix.iter_mut().flatten().for_each(|width| *width = random.between(1, 1_000));
    half_widths.forms.iter_mut().flatten().flatten().for_each(|width| *width = random.between(1, 300));

    let mut builder = Builder::empty();
    builder.add(&Field::Start(body(random, &shape)));
    builder.add(&Field::Ranged(full));
    let check = Field::Check(region(random, &builder.set()));
    builder.add(&check);
    let left = ranged(random, &builder.set(), n, SPAN);
    builder.add(&Field::Ranged(left));
    builder.bytes
}
