//! Run files aimed at one refusal, and at the order of refusals.

use peer::run::{taken_dimension, State};
use peer::set::Set;
use run_file::{
    Field, CONSTANT_LIMIT, DISTURBANCE_LIMIT, ENTRY_LIMIT, MAX_DIMENSION, MAX_FACTORS, MAX_FIELDS, SPAN_LIMIT, UNIT,
};

use super::faults::{body_of, break_count, break_length, break_rule, break_tag, out_of_range, widen};
use super::parts::span;
use super::plain::{empty_disturbance, plain_set, unchanged, zero_ranged, zero_step};
use super::valid::{next_field, prefix, start_set, Builder, MIXED, WIDE};
use crate::random::Random;

/// A file that a run refuses with this number.
pub fn refused(random: &mut Random, number: u8) -> Vec<u8> {
    match number {
        1 if random.once_in(8) => Vec::new(),
        9 => {
            let (start, field) = too_many_factors(random);
            [start.encode(), field.encode()].concat()
        }
        10 => too_wide_result(random),
        12 => [unchanged(MAX_FIELDS), random_bytes(random, 1)].concat(),
        14 => {
            let fields = random.below(9);
            let Builder { bytes, state } = prefix(random, &MIXED, fields);
            let empty = empty_disturbance(state.set.map_or(1, |set| set.dimension()));
            [bytes, empty.encode(), random_bytes(random, 0)].concat()
        }
        _ => {
            let mut builder = some_prefix(random);
            let mut bytes = loop {
                let mut field = match number {
                    5 => field_of_another_dimension(random, &builder.state),
                    _ => fitting_field(random, &builder.state),
                };
                let broken = match number {
                    5 => builder.state.set.is_some(),
                    6 => out_of_range(random, &mut field),
                    7 => body_of(&mut field).is_some_and(|body| break_rule(random, body)),
                    8 => body_of(&mut field).map(|body| widen(random, body)).is_some(),
                    _ => true,
                };
                if broken {
                    break field.encode();
                }
                builder = some_prefix(random);
            };
            match number {
                1 => bytes.truncate(1 + random.below(bytes.len() - 1)),
                2 => break_tag(random, &mut bytes, builder.bytes.is_empty()),
                3 => break_length(random, &mut bytes),
                4 => break_count(random, &mut bytes),
                _ => {}
            }
            let after = if number == 1 { Vec::new() } else { random_bytes(random, 0) };
            [builder.bytes, bytes, after].concat()
        }
    }
}

/// A field with up to eight things wrong, at any place in a run.
pub fn several_causes(random: &mut Random) -> Vec<u8> {
    let Builder { bytes: mut before, state } = some_prefix(random);
    let mut field = match random.below(4) {
        0 => field_of_another_dimension(random, &state),
        1 => {
            let (start, field) = too_many_factors(random);
            before = start.encode();
            field
        }
        _ => fitting_field(random, &state),
    };
    if let (true, Field::Disturbance(radii)) = (random.once_in(2), &mut field) {
        radii.fill(0);
    }
    if random.once_in(2) {
        out_of_range(random, &mut field);
    }
    if let Some(body) = body_of(&mut field) {
        if random.once_in(2) {
            break_rule(random, body);
        }
        if random.once_in(2) {
            widen(random, body);
        }
    }
    let mut bytes = field.encode();
    if random.once_in(4) {
        break_count(random, &mut bytes);
    }
    if random.once_in(4) {
        break_length(random, &mut bytes);
    }
    if random.once_in(8) {
        bytes.truncate(1 + random.below(bytes.len()));
    }
    if random.once_in(8) {
        break_tag(random, &mut bytes, before.is_empty());
    }
    if random.once_in(16) {
        before = unchanged(MAX_FIELDS);
    }
    [before, bytes].concat()
}

/// A disturbance of zeros with up to two things changed, at any place in a run.
pub fn zeros(random: &mut Random) -> Vec<u8> {
    let Builder { bytes: mut before, state } = match random.below(8) {
        0 => Builder::empty(),
        _ => {
            let (profile, fields) = (*random.pick(&[&MIXED, &WIDE]), random.below(4));
            prefix(random, profile, fields)
        }
    };
    let n = state.set.map_or(1, |set| set.dimension());
    let mut field = match random.below(5) {
        0 => empty_disturbance(1 + random.below(MAX_DIMENSION)),
        _ => empty_disturbance(n),
    };
    match random.below(4) {
        0 => {
            out_of_range(random, &mut field);
        }
        1 => field = one_radius(random, n),
        _ => {}
    }
    let mut bytes = field.encode();
    match random.below(8) {
        0 => break_count(random, &mut bytes),
        1 => break_length(random, &mut bytes),
        2 => bytes.truncate(1 + random.below(bytes.len())),
        3 => before = unchanged(MAX_FIELDS - random.below(2)),
        _ => {}
    }
    let after = if random.once_in(2) { Vec::new() } else { random_bytes(random, 0) };
    [before, bytes, after].concat()
}

/// A disturbance of zeros but for one radius, the smallest or the largest.
fn one_radius(random: &mut Random, n: usize) -> Field {
    let mut radii = vec![0; n];
    radii[random.below(n)] = *random.pick(&[1, DISTURBANCE_LIMIT]);
    Field::Disturbance(radii)
}

/// Nothing, so that the field is the first, or a short valid run.
fn some_prefix(random: &mut Random) -> Builder {
    if random.once_in(3) {
        Builder::empty()
    } else {
        let fields = random.below(5);
        prefix(random, &MIXED, fields)
    }
}

/// A field whose body is right by itself and fits the state.
fn fitting_field(random: &mut Random, state: &State) -> Field {
    match next_field(random, &MIXED, state) {
        Some(field) => field,
        None => Field::Start(start_set(random, &MIXED)),
    }
}

/// A field for a set of another dimension; with no set yet, a start set.
fn field_of_another_dimension(random: &mut Random, state: &State) -> Field {
    let Some(set) = &state.set else { return fitting_field(random, state) };
    loop {
        let other = State { set: Some(Set::from(&start_set(random, &MIXED))), mark: state.mark };
        let field = fitting_field(random, &other);
        if taken_dimension(&field).is_some_and(|n| n != set.dimension()) {
            return field;
        }
    }
}

/// A start set and a sum or hull that has over 12 factors with it and, now and then, is too wide as well.
fn too_many_factors(random: &mut Random) -> (Field, Field) {
    let kind = random.below(3);
    // A hull brings a factor of its own.
    let room = if kind == 2 { MAX_FACTORS - 1 } else { MAX_FACTORS };
    let first = 1 + random.below(MAX_FACTORS);
    let second = room + 1 - first + random.below(first);
    let mut body = plain_set(1, second, second.min(1), 0);
    if kind > 0 {
        let shared = (first + second - room - 1).min(random.below(first));
        body.identifiers.iter_mut().for_each(|id| *id += (first - shared) as i128);
    }
    if random.once_in(2) {
        body.radii[0] = SPAN_LIMIT - span(&body, 0);
    }
    let field = match kind {
        0 => Field::Independent(body),
        1 => Field::Tied(body),
        _ => Field::Hull(body),
    };
    (Field::Start(plain_set(1, first, 1, 0)), field)
}

/// The current set reaches 1 and is moved or widened by the whole span, where a half-width may add the last unit, or a
/// hull's rounding adds to the whole span; or a disturbance after a valid run takes one more than the room that is left.
fn too_wide_result(random: &mut Random) -> Vec<u8> {
    let fields = random.below(9);
    let Builder { bytes, state } = prefix(random, &MIXED, fields);
    if let (true, Some(set)) = (random.once_in(2), &state.set) {
        let radii: Vec<i128> = (0..set.dimension()).map(|i| SPAN_LIMIT + 1 - set.span(i)).collect();
        if radii.iter().all(|r| *r <= DISTURBANCE_LIMIT) {
            return [bytes, Field::Disturbance(radii).encode()].concat();
        }
    }
    let mut start = plain_set(1, 1, 1, 0);
    let mut wide = plain_set(1, 0, 0, 0);
    wide.radii[0] = SPAN_LIMIT;
    let field = match random.below(7) {
        0 => {
            let mut step = zero_step(1, 1);
            step.constant[0] = *random.pick(&[CONSTANT_LIMIT, -CONSTANT_LIMIT]);
            step.matrix[0][0] = *random.pick(&[1, UNIT, -ENTRY_LIMIT]);
            Field::Step(step)
        }
        1 => Field::Disturbance(vec![SPAN_LIMIT]),
        2 => Field::Independent(wide),
        3 => Field::Tied(wide),
        4 => Field::Hull(wide),
        5 => {
            let mut ranged = zero_ranged(1, 1);
            ranged.step.constant[0] = *random.pick(&[CONSTANT_LIMIT, -CONSTANT_LIMIT]);
            match random.below(2) {
                0 => ranged.half_widths.matrix[0][0] = *random.pick(&[1, UNIT, ENTRY_LIMIT]),
                _ => ranged.half_widths.forms[0][0][0] = *random.pick(&[1, UNIT, ENTRY_LIMIT]),
            }
            Field::Ranged(ranged)
        }
        _ => {
            start.terms[0].coefficients[0] = *random.pick(&[SPAN_LIMIT - 1, 1 - SPAN_LIMIT]);
            start.centre[0] = random.between(-1, 1);
            Field::Hull(start.clone())
        }
    };
    [Field::Start(start), field].iter().flat_map(Field::encode).collect()
}

fn random_bytes(random: &mut Random, at_least: usize) -> Vec<u8> {
    (0..at_least + random.below(9)).map(|_| random.word() as u8).collect()
}
