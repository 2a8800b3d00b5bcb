//! One thing wrong: in a field's numbers, or in its bytes.

use run_file::{
    Field, HalfWidths, RangedStep, SetBody, Step, Tag, BOUND_LIMIT, CONSTANT_LIMIT, DISTURBANCE_LIMIT, ENTRY_LIMIT,
    HEADER, MAX_FACTORS, MAX_IDENTIFIER, SPAN_LIMIT,
};

use super::parts::span;
use crate::random::Random;

pub fn body_of(field: &mut Field) -> Option<&mut SetBody> {
    match field {
        Field::Start(body) | Field::Independent(body) | Field::Tied(body) | Field::Hull(body) => Some(body),
        Field::Step(_) | Field::Disturbance(_) | Field::Reduce(_) | Field::Check(_) | Field::Ranged(_) => None,
    }
}

/// Puts one number out of its range, if the field has one that has a range.
pub fn out_of_range(random: &mut Random, field: &mut Field) -> bool {
    match field {
        Field::Start(body) | Field::Independent(body) | Field::Tied(body) | Field::Hull(body) => {
            match random.below(3) {
                0 if !body.identifiers.is_empty() => {
                    let k = random.below(body.identifiers.len());
                    body.identifiers[k] = *random.pick(&[0, -1, MAX_IDENTIFIER + 1, i128::from(i32::MAX)]);
                }
                1 if !body.terms.is_empty() => {
                    let (t, k) = (random.below(body.terms.len()), random.below(body.identifiers.len()));
                    body.terms[t].exponents[k] = *random.pick(&[64, 65, 126, 128, 255]);
                }
                _ => {
                    let i = random.below(body.dimension());
                    body.radii[i] = *random.pick(&[-1, -2, i128::from(i32::MIN)]);
                }
            }
        }
        Field::Step(step) => step_out_of_range(random, step),
        Field::Ranged(RangedStep { step, .. }) if random.once_in(2) => step_out_of_range(random, step),
        Field::Ranged(RangedStep { step, half_widths }) => half_width_out_of_range(random, step, half_widths),
        Field::Disturbance(radii) => {
            let i = random.below(radii.len());
            radii[i] = *random.pick(&[-1, DISTURBANCE_LIMIT + 1, i128::from(i32::MAX), i128::from(i32::MIN)]);
        }
        Field::Check(region) => {
            let i = random.below(region.len());
            if random.once_in(2) {
                let j = random.below(region[i].normal.len());
                region[i].normal[j] = beyond(random, ENTRY_LIMIT);
            } else {
                region[i].bound = *random.pick(&[BOUND_LIMIT + 1, -BOUND_LIMIT - 1, i64::MIN.into(), i64::MAX.into()]);
            }
        }
        Field::Reduce(_) => return false,
    }
    true
}

fn step_out_of_range(random: &mut Random, step: &mut Step) {
    let (i, j, l) = place(random, step);
    match random.below(3) {
        0 => step.constant[i] = beyond(random, CONSTANT_LIMIT),
        1 => step.matrix[i][j] = beyond(random, ENTRY_LIMIT),
        _ => step.forms[i][j][l] = beyond(random, ENTRY_LIMIT),
    }
}

/// A half-width below 0, or one that leads beyond the limit of an entry, by 1 or by far.
pub fn half_width_out_of_range(random: &mut Random, step: &Step, half_widths: &mut HalfWidths) {
    let (i, j, l) = place(random, step);
    let (entry, half_width) = if random.once_in(2) {
        (step.matrix[i][j], &mut half_widths.matrix[i][j])
    } else {
        (step.forms[i][j][l], &mut half_widths.forms[i][j][l])
    };
    let room = ENTRY_LIMIT - entry.abs();
    *half_width = *random.pick(&[-1, room + 1, i128::from(i32::MAX), i128::from(i32::MIN)]);
}

/// A place in A, by row and column, and in the forms of Q.
pub fn place(random: &mut Random, step: &Step) -> (usize, usize, usize) {
    let n = step.from_dimension();
    (random.below(step.constant.len()), random.below(n), random.below(n))
}

fn beyond(random: &mut Random, limit: i128) -> i128 {
    *random.pick(&[limit + 1, -limit - 1, i128::from(i32::MAX), i128::from(i32::MIN)])
}

/// Breaks one of the ordering and zero rules, if there is room for the one picked.
pub fn break_rule(random: &mut Random, body: &mut SetBody) -> bool {
    let (p, h) = (body.identifiers.len(), body.terms.len());
    match random.below(7) {
        0 if p >= 2 => body.identifiers.swap(0, p - 1),
        1 if p >= 2 => body.identifiers[p - 1] = body.identifiers[p - 2],
        2 if h >= 2 => body.terms.swap(0, h - 1),
        3 if h >= 2 => body.terms[1].exponents = body.terms[0].exponents.clone(),
        4 if h >= 1 => body.terms[0].exponents.fill(0),
        5 if h >= 1 => {
            let t = random.below(h);
            body.terms[t].coefficients.fill(0);
        }
        6 if !body.generators.is_empty() => {
            let g = random.below(body.generators.len());
            body.generators[g].fill(0);
        }
        _ if p < MAX_FACTORS && body.identifiers.last() < Some(&MAX_IDENTIFIER) => {
            body.identifiers.push(body.identifiers.last().map_or(1, |id| id + 1));
            body.terms.iter_mut().for_each(|term| term.exponents.push(0));
        }
        _ => return false,
    }
    true
}

pub fn widen(random: &mut Random, body: &mut SetBody) {
    let i = random.below(body.dimension());
    let room = SPAN_LIMIT - span(body, i);
    match random.below(4) {
        0 => body.radii[i] += (room + 1).max(0),
        1 => body.centre[i] = i128::from(i32::MIN),
        2 => body.radii[i] = i128::from(i32::MAX),
        _ if body.centre[i] < 0 => body.centre[i] -= room + 1,
        _ => body.centre[i] += room + 1,
    }
}

/// Puts the tag of another place there, or one that no field has.
pub fn break_tag(random: &mut Random, bytes: &mut [u8], first: bool) {
    let (start, others) = (Tag::Start as u8, Tag::ALL[1..].iter().map(|tag| *tag as u8));
    let unknown = 1 + Tag::ALL.len() as u8;
    bytes[0] = if first {
        *random.pick(&[vec![0], others.collect(), vec![unknown, 255]].concat())
    } else {
        *random.pick(&[0, start, unknown, unknown + 1, 128, 255])
    };
}

/// Makes the body longer or shorter, and the length that the field states with it.
pub fn break_length(random: &mut Random, bytes: &mut Vec<u8>) {
    let length = bytes.len() - HEADER;
    let other = match random.below(4) {
        0 => length + 1 + random.below(8),
        1 => length.saturating_sub(1 + random.below(8)),
        2 => 0,
        _ => random.below(length.max(1)),
    };
    resize_body(bytes, other);
}

/// Cuts the body or adds zeros to it, and states the length.
pub fn resize_body(bytes: &mut Vec<u8>, length: usize) {
    bytes.resize(HEADER + length, 0);
    bytes[1..HEADER].copy_from_slice(&(length as u16).to_le_bytes());
}

/// Puts one of the count bytes out of its limits.
pub fn break_count(random: &mut Random, bytes: &mut [u8]) {
    let [tag, _, _, body @ ..] = bytes else { return };
    let Some(tag) = Tag::of(*tag) else { return };
    let place = match tag.counts() {
        [_] => 0,
        counts => random.below(counts.len()),
    };
    let limits = &tag.counts()[place];
    if let Some(count) = body.get_mut(place) {
        let over = limits.end() + 1;
        *count = *random.pick(&[over, over + 1, 255, if limits.contains(&0) { over } else { 0 }]);
    }
}
