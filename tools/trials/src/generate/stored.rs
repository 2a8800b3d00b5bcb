//! Files with empty disturbances, stored while a run accepted them, and files in which a field is nearly one.

use run_file::{Field, HEADER, MAX_DIMENSION, MAX_FIELDS};

use super::damage::{damage, noise};
use super::faults::{break_length, resize_body};
use super::parts::later_tag;
use super::plain::{empty_disturbance, little_change, plain_set};
use super::valid::{lengthen, prefix, DIMENSIONS, HULLS, MIXED, REDUCTIONS};
use crate::random::Random;

/// What a program may read at once.
const PIECE: usize = 65_536;

/// A valid run with up to three empty disturbances after each of its fields.
pub fn unfilled(random: &mut Random) -> Vec<u8> {
    let profile = *random.pick(&[&MIXED, &DIMENSIONS, &REDUCTIONS, &HULLS]);
    let mut builder = prefix(random, profile, 0);
    let fields = random.below(12);
    for place in 0..=fields {
        if place > 0 {
            lengthen(random, profile, &mut builder);
        }
        if random.once_in(3) {
            let empty = empty_disturbance(builder.set().dimension());
            builder.bytes.extend(empty.encode().repeat(1 + random.below(3)));
        }
    }
    builder.bytes
}

/// As many fields as a run may have, half of them or all but the start set empty disturbances.
pub fn most_fields(random: &mut Random) -> Vec<u8> {
    let n = 1 + random.below(2);
    let all = random.once_in(4);
    let mut bytes = Field::Start(plain_set(n, 1, 2, 1)).encode();
    for _ in 0..MAX_FIELDS {
        let empty = all || random.once_in(2);
        let field = if empty { empty_disturbance(n) } else { little_change(random, n) };
        bytes.extend(field.encode());
    }
    bytes
}

/// The first bytes of an empty disturbance, none or all of them too, alone or after other fields.
pub fn cut(random: &mut Random, seed: u64) -> Vec<u8> {
    let (field, kept) = one_of_each(seed, |field| field.len() + 1);
    let before = match random.below(4) {
        0 => Vec::new(),
        1 => Field::Start(plain_set(2, 1, 1, 1)).encode(),
        2 => [Field::Start(plain_set(2, 1, 1, 1)).encode(), field.clone()].concat(),
        _ => fields(random),
    };
    [before, field[..kept].to_vec()].concat()
}

/// An empty disturbance with one byte changed, a bit of it or wholly, before others that are as they should be.
pub fn one_byte(random: &mut Random, seed: u64) -> Vec<u8> {
    let (mut field, place) = one_of_each(seed, Vec::len);
    field[place] ^= if random.once_in(2) { 1 << random.below(8) } else { 1 + random.below(255) as u8 };
    let before = if random.once_in(2) { Vec::new() } else { fields(random) };
    let after = empty_disturbance(1 + random.below(MAX_DIMENSION)).encode().repeat(random.below(4));
    [before, field, after, fields(random)].concat()
}

/// An empty disturbance and one of its places, of which it has so many; consecutive seeds have them all.
fn one_of_each(seed: u64, places: fn(&Vec<u8>) -> usize) -> (Vec<u8>, usize) {
    let empty: Vec<Vec<u8>> = (1..=MAX_DIMENSION).map(|n| empty_disturbance(n).encode()).collect();
    let mut place = seed as usize % empty.iter().map(places).sum::<usize>();
    let mut n = 0;
    while place >= places(&empty[n]) {
        place -= places(&empty[n]);
        n += 1;
    }
    (empty[n].clone(), place)
}

/// Fields of any kind; now and then the last is cut.
pub fn mix(random: &mut Random) -> Vec<u8> {
    let mut bytes = fields(random);
    if random.once_in(4) {
        bytes.truncate(random.below(bytes.len() + 1));
    }
    bytes
}

pub fn damaged(random: &mut Random) -> Vec<u8> {
    let mut bytes = unfilled(random);
    damage(random, &mut bytes);
    bytes
}

/// An empty disturbance lies across each of the first multiples of what may be read at once, by as many bytes as the seed
/// says, and nearly an empty one across those after them. Between them stand fields of any kind, some of them long.
pub fn across(random: &mut Random, seed: u64) -> Vec<u8> {
    let mut bytes = Vec::new();
    for multiple in 0..3 {
        let (field, place) = one_of_each(seed.wrapping_mul(3).wrapping_add(multiple), |field| field.len() - 1);
        fill(random, &mut bytes, (1 + multiple as usize) * PIECE - 1 - place);
        bytes.extend(field);
    }
    for multiple in 4..4 + random.below(5) {
        let field = nearly_empty(random);
        let place = random.below(field.len() - 1);
        fill(random, &mut bytes, multiple * PIECE - 1 - place);
        bytes.extend(field);
    }
    bytes.extend(mix(random));
    bytes
}

/// Adds fields up to this length.
fn fill(random: &mut Random, bytes: &mut Vec<u8>, length: usize) {
    let long_ones = random.once_in(2);
    while bytes.len() < length {
        let left = length - bytes.len();
        let field = match random.below(8) {
            0 if long_ones => {
                let body = random.below(left);
                other(random, HEADER + body)
            }
            _ => any(random),
        };
        // What is left has to have room for a header.
        bytes.extend(if field.len() + HEADER <= left { field } else { other(random, left) });
    }
}

fn fields(random: &mut Random) -> Vec<u8> {
    (0..random.below(12)).flat_map(|_| any(random)).collect()
}

/// Any field: an empty disturbance, nearly one, one that a run may accept, or one of whatever tag.
fn any(random: &mut Random) -> Vec<u8> {
    match random.below(8) {
        0..=2 => empty_disturbance(1 + random.below(MAX_DIMENSION)).encode(),
        3 | 4 => nearly_empty(random),
        5 => Field::Start(plain_set(1 + random.below(3), 1, 1, 1)).encode(),
        6 => {
            let n = 1 + random.below(3);
            little_change(random, n).encode()
        }
        _ => {
            let length = random.below(60);
            other(random, HEADER + length)
        }
    }
}

/// An empty disturbance but for one thing.
fn nearly_empty(random: &mut Random) -> Vec<u8> {
    let n = 1 + random.below(MAX_DIMENSION);
    let mut field = empty_disturbance(n).encode();
    let length = field.len() - HEADER;
    match random.below(7) {
        0 => field[HEADER + 1 + random.below(4 * n)] = 1 << random.below(8),
        1 => field[HEADER] = *random.pick(&[0, 7, 64, 255, n as u8 - 1, n as u8 + 1]),
        2 => break_length(random, &mut field),
        // The length's first byte is right.
        3 => resize_body(&mut field, length + 256),
        4 => field[0] = *random.pick(&[0, 1, 2, 4, 6, 7, 131, 255]),
        // What no coordinates, or seven, would make of it.
        5 => {
            let n = *random.pick(&[0, 7]);
            resize_body(&mut field, 1 + 4 * n);
            field[HEADER] = n as u8;
        }
        _ => return Field::Disturbance((0..n).map(|i| i128::from(i + 1 == n)).collect()).encode(),
    }
    field
}

/// A field of so many bytes, at least a header's, of any tag; its body is of zeros or noise.
fn other(random: &mut Random, length: usize) -> Vec<u8> {
    let tag = if random.once_in(2) { random.word() as u8 } else { later_tag(random) as u8 };
    let mut field = vec![tag, 0, 0];
    if random.once_in(2) {
        field.extend(noise(random, length));
    }
    resize_body(&mut field, length - HEADER);
    field
}
