//! Laser logs for what a run's boxes ask for, the same for a sort and a seed on every machine: readings of all kinds, and
//! logs with one thing wrong.

use peer::laser::ENTRY;

use super::damage::noise;
use super::{mixed, Kind};
use crate::random::Random;

/// A sort of logs, made for the ends of a run's boxes, with an entry for each pair.
pub struct Sort {
    pub name: &'static str,
    pub about: &'static str,
    /// Its logs are refused, at least where the run asks for an entry.
    pub wrong: bool,
    make: fn(&mut Random, &[Ends]) -> Vec<u8>,
}

/// The low and the high end of a box in one coordinate.
pub type Ends = (i128, i128);

/// 2^116, from which on 4096·r overflows.
const OVERFLOW: f32 = 83_076_749_736_557_242_056_487_941_267_521_536.0;
/// There are so many floats from 0 to below the first normal one.
const SUBNORMALS: usize = 1 << 23;

const SURPLUS: &str = "surplus";

pub static SORTS: [Sort; 11] = [
    right("readings", "readings of all kinds, and missing ones", |r, ends| good(r, ends, any)),
    right("ends", "readings on the ends of the boxes and beside them", |r, ends| good(r, ends, at_end)),
    right("inside", "readings inside", |r, ends| good(r, ends, |r, ends| Some(between(r, ends)))),
    right("missing", "missing readings, with any bytes behind the 0", |r, ends| good(r, ends, |_, _| None)),
    wrong("first-byte", "an entry whose first byte is above 1", |r, ends| {
        let first = if r.once_in(4) { *r.pick(&[2, 3, 128, 255]) } else { r.between(2, 255) as u8 };
        broken(r, ends, |r| entry(first, r.word() as u32))
    }),
    wrong("nan", "a reading that is a NaN", |r, ends| broken(r, ends, |r| entry(1, nan(r)))),
    wrong("infinite", "a reading that is infinite", |r, ends| {
        broken(r, ends, |r| entry(1, r.pick(&[f32::INFINITY, f32::NEG_INFINITY]).to_bits()))
    }),
    wrong("cut", "an entry that is cut short", |r, ends| {
        let kept = 1 + r.below(ENTRY - 1);
        up_to_an_entry(r, ends, kept)
    }),
    wrong("not-there", "an entry that is not there, and none after it", |r, ends| up_to_an_entry(r, ends, 0)),
    wrong(SURPLUS, "a byte after the last entry, or several", |r, ends| {
        let surplus = [vec![*r.pick(&[0, 1, 2, 255])], noise(r, 3 * ENTRY)].concat();
        [good(r, ends, any), surplus].concat()
    }),
    wrong("empty", "no byte at all", |_, _| Vec::new()),
];

const fn right(name: &'static str, about: &'static str, make: fn(&mut Random, &[Ends]) -> Vec<u8>) -> Sort {
    Sort { name, about, wrong: false, make }
}

const fn wrong(name: &'static str, about: &'static str, make: fn(&mut Random, &[Ends]) -> Vec<u8>) -> Sort {
    Sort { wrong: true, ..right(name, about, make) }
}

/// A log for the boxes of a file of this kind and seed. Half of them have nothing wrong. A long one is of a sort that is
/// read to its last entry.
pub fn log(kind: &Kind, seed: u64, ends: &[Ends]) -> (&'static Sort, Vec<u8>) {
    let seed = mixed("log", mixed(kind.name, seed));
    let mut random = Random::new(seed);
    let wrong = random.once_in(2);
    let fits = |sort: &&Sort| sort.wrong == wrong && (sort.is_read_to_the_end() || !kind.long);
    let sorts: Vec<&Sort> = SORTS.iter().filter(fits).collect();
    let sort = *random.pick(&sorts);
    (sort, sort.log(ends, seed))
}

impl Sort {
    pub fn log(&self, ends: &[Ends], seed: u64) -> Vec<u8> {
        (self.make)(&mut Random::new(mixed(self.name, seed)), ends)
    }

    /// Whether no entry of its logs is refused.
    pub fn is_read_to_the_end(&self) -> bool {
        !self.wrong || self.name == SURPLUS
    }
}

/// A log with nothing wrong, each entry of which is a reading that is picked for its ends, or missing.
fn good(random: &mut Random, ends: &[Ends], reading: fn(&mut Random, Ends) -> Option<f32>) -> Vec<u8> {
    let entry = |ends: &Ends| match reading(random, *ends) {
        Some(reading) => entry(1, reading.to_bits()),
        None => entry(0, if random.once_in(2) { 0 } else { any_bits(random) }),
    };
    ends.iter().flat_map(entry).collect()
}

/// A log with another entry in the place of one; the only one where the run has none.
fn broken(random: &mut Random, ends: &[Ends], entry: impl Fn(&mut Random) -> Vec<u8>) -> Vec<u8> {
    let mut log = good(random, ends, any);
    let place = an_entry(random, ends) * ENTRY;
    let after = log.len().min(place + ENTRY);
    log.splice(place..after, entry(random));
    log
}

/// A log that ends after so many bytes of one of its entries.
fn up_to_an_entry(random: &mut Random, ends: &[Ends], kept: usize) -> Vec<u8> {
    let mut log = good(random, ends, any);
    log.truncate(an_entry(random, ends) * ENTRY + kept);
    log
}

/// The place of any entry, often of the first or the last one.
fn an_entry(random: &mut Random, ends: &[Ends]) -> usize {
    let last = ends.len().saturating_sub(1);
    match random.below(4) {
        0 => 0,
        1 => last,
        _ => random.below(last + 1),
    }
}

fn entry(first: u8, bits: u32) -> Vec<u8> {
    [&[first], &bits.to_le_bytes()[..]].concat()
}

/// A reading of any kind, or none.
fn any(random: &mut Random, ends: Ends) -> Option<f32> {
    let reading = match random.below(10) {
        0 | 1 => return at_end(random, ends),
        2 | 3 => between(random, ends),
        4 => beyond(random, ends),
        5 => *random.pick(&[0.0, -0.0]),
        6 => signed(random, |r| f32::from_bits(1 + r.below(SUBNORMALS - 1) as u32)),
        7 => signed(random, too_large),
        8 => Some(f32::from_bits(random.word() as u32)).filter(|reading| reading.is_finite())?,
        _ => return None,
    };
    Some(reading)
}

/// An end of a box, one of the floats next to it, or a unit in the last place of boxes beside it.
fn at_end(random: &mut Random, (low, high): Ends) -> Option<f32> {
    let end = *random.pick(&[low, high]);
    let reading = in_units(end);
    Some(match random.below(5) {
        0 => reading.next_up(),
        1 => reading.next_down(),
        2 => in_units(end + random.between(-1, 1)),
        _ => reading,
    })
}

/// A reading between the ends. The float nearest to a number between two floats is not outside them.
fn between(random: &mut Random, (low, high): Ends) -> f32 {
    let share = random.below(1 << 20) as f64 / f64::from(1 << 20);
    ((low as f64 + share * (high - low) as f64) / 4096.0) as f32
}

fn beyond(random: &mut Random, (low, high): Ends) -> f32 {
    let most = *random.pick(&[4, 4_096, 1 << 23]);
    let by = random.between(1, most);
    if random.once_in(2) {
        in_units(high + by)
    } else {
        in_units(low - by)
    }
}

/// A reading whose product with 4096 overflows, or is the largest that does not.
fn too_large(random: &mut Random) -> f32 {
    match random.below(4) {
        0 => OVERFLOW,
        1 => OVERFLOW.next_down(),
        2 => f32::MAX,
        _ => f32::from_bits(random.between(OVERFLOW.to_bits().into(), f32::MAX.to_bits().into()) as u32),
    }
}

/// A number of either sign.
fn signed(random: &mut Random, number: fn(&mut Random) -> f32) -> f32 {
    let number = number(random);
    if random.once_in(2) {
        number
    } else {
        -number
    }
}

/// A NaN of either sign with any payload, which is not 0.
fn nan(random: &mut Random) -> u32 {
    let payload = match random.below(4) {
        0 => 1,
        1 => 1 << 22,
        _ => 1 + random.below((1 << 23) - 1) as u32,
    };
    f32::INFINITY.to_bits() + payload + if random.once_in(2) { 1 << 31 } else { 0 }
}

/// What may stand behind a 0.
fn any_bits(random: &mut Random) -> u32 {
    match random.below(3) {
        0 => nan(random),
        1 => f32::INFINITY.to_bits(),
        _ => random.word() as u32,
    }
}

/// An end in the user's unit, which is exact: it has at most 24 bits.
fn in_units(end: i128) -> f32 {
    end as f32 / 4096.0
}
