//! Run files to try programs with, the same for a kind and seed on every machine, and laser logs for them.

mod aimed;
mod close;
mod damage;
mod faults;
mod limits;
pub mod logs;
mod parts;
mod plain;
mod ranges;
mod stored;
mod valid;

use run_file::MAX_FIELDS;

use crate::random::Random;

pub struct Kind {
    pub name: &'static str,
    pub about: &'static str,
    /// Its files have thousands of fields: fewer of them will do.
    pub long: bool,
    make: Make,
}

enum Make {
    Drawn(fn(&mut Random) -> Vec<u8>),
    /// The seed itself says which of several cases it is.
    InTurn(fn(&mut Random, u64) -> Vec<u8>),
}

/// The kinds whose files a run accepts to the end.
pub static VALID: [Kind; 20] = [
    kind("mixed", "valid: fields of all kinds", |r| valid::run(r, &valid::MIXED)),
    kind("sharp", "valid: terms alone, no generators or radii", |r| valid::run(r, &valid::SHARP)),
    kind("terms", "valid: steps on many terms, folding by size", |r| valid::run(r, &valid::TERMS)),
    kind("exponents", "valid: exponents near 63, folding by exponent", |r| valid::run(r, &valid::EXPONENTS)),
    kind("generators", "valid: many generators and their folding", |r| valid::run(r, &valid::GENERATORS)),
    kind("reductions", "valid: reductions to few terms and generators", |r| valid::run(r, &valid::REDUCTIONS)),
    kind("dimensions", "valid: steps that change the dimension", |r| valid::run(r, &valid::DIMENSIONS)),
    kind("sums", "valid: many independent sums, with factors dropped in between", |r| valid::run(r, &valid::SUMS)),
    kind("hulls", "valid: hulls, and steps and sums on what they leave", |r| valid::run(r, &valid::HULLS)),
    kind("odd-hulls", "valid: hulls of odd numbers, where every half is rounded", close::odd_hulls),
    kind("full-hulls", "valid: hulls of the fullest sets, of whose 161 terms 40 stay", limits::full_hulls),
    kind("ranges", "valid: steps whose entries are known within half-widths", |r| valid::run(r, &valid::RANGES)),
    kind("full-ranges", "valid: such a step with every entry and half-width, on the fullest set", ranges::full_ranges),
    kind("wide", "valid: spans near 1,048,576", |r| valid::run(r, &valid::WIDE)),
    kind("ties", "valid: reductions among equal sizes, where weights and places decide", close::ties),
    kind("halves", "valid: steps among powers of two and odd numbers, where many are exact halves", close::halves),
    kind("folds", "valid: odd folds in sets as wide as can be, which they don't widen", close::odd_folds),
    long("most-folded", "valid: 4,096 steps, each of which folds as much as there can be", limits::most_folded),
    long("long", "valid: 4,097 fields of all kinds, the most that a run may have", |r| valid::run(r, &valid::LONG)),
    long("plain-4097", "valid: as many fields that change little", |r| plain::little_changed(r, MAX_FIELDS)),
];

/// The kinds whose files are refused with the number in their name.
pub static REFUSED: [Kind; 12] = [
    kind("refusal-1", "input that ends inside a field, or is empty", |r| aimed::refused(r, 1)),
    kind("refusal-2", "an unknown or misplaced tag", |r| aimed::refused(r, 2)),
    kind("refusal-3", "a length that the counts don't give", |r| aimed::refused(r, 3)),
    kind("refusal-4", "a count or limit byte out of limits", |r| aimed::refused(r, 4)),
    kind("refusal-5", "another dimension than the set's", |r| aimed::refused(r, 5)),
    kind("refusal-6", "a number out of range", |r| aimed::refused(r, 6)),
    kind("refusal-7", "a broken ordering or zero rule", |r| aimed::refused(r, 7)),
    kind("refusal-8", "a given set that is too wide", |r| aimed::refused(r, 8)),
    kind("refusal-9", "a sum or hull with too many factors", |r| aimed::refused(r, 9)),
    kind("refusal-10", "a result that is too wide", |r| aimed::refused(r, 10)),
    kind("refusal-12", "a field after the last that may follow", |r| aimed::refused(r, 12)),
    kind("refusal-14", "a disturbance whose radii are all 0", |r| aimed::refused(r, 14)),
];

pub static OTHERS: [Kind; 11] = [
    long("plain-4098", "one field more than a run may have", |r| plain::little_changed(r, MAX_FIELDS + 1)),
    kind("order", "several causes of refusal in one field", aimed::several_causes),
    kind("zeros", "a disturbance of zeros, and what comes before its refusal", aimed::zeros),
    in_turn("limits", "a number at its limit, one below or one above", limits::number),
    in_turn("counts", "a count at its limit, one below or one above", limits::count),
    kind("fullest", "sets and a step with all counts at their limits", limits::fullest),
    kind("odd-ranges", "a ranged step with odd half-widths, another length or dimension", ranges::odd_ranges),
    kind("lengths", "a field that states up to 65,535 bytes, which are there or not quite", damage::long_field),
    kind("cut", "a valid file cut somewhere", damage::cut),
    kind("damaged", "a valid file with bytes changed, lost or added", damage::damaged),
    kind("bytes", "random bytes, or random bodies under good headers", damage::bytes),
];

/// The kinds whose files have disturbances of zeros, as stored files may, or what could be taken for such.
pub static STORED: [Kind; 7] = [
    kind("unfilled", "a valid run with disturbances of zeros put in", stored::unfilled),
    long("unfilled-4097", "4,097 fields, half of them or more disturbances of zeros", stored::most_fields),
    in_turn("unfilled-cut", "a disturbance of zeros cut after any of its bytes, alone or after fields", stored::cut),
    in_turn("unfilled-byte", "a disturbance of zeros with any one byte changed, among fields", stored::one_byte),
    kind("unfilled-mix", "disturbances of zeros, or nearly so, among fields of any tag and length", stored::mix),
    kind("unfilled-hurt", "a run with disturbances of zeros, and bytes changed, lost or added", stored::damaged),
    in_turn(
        "unfilled-64k",
        "hundreds of kilobytes, a disturbance of zeros across each multiple of 65,536",
        stored::across,
    ),
];

const fn kind(name: &'static str, about: &'static str, make: fn(&mut Random) -> Vec<u8>) -> Kind {
    Kind { name, about, long: false, make: Make::Drawn(make) }
}

const fn in_turn(name: &'static str, about: &'static str, make: fn(&mut Random, u64) -> Vec<u8>) -> Kind {
    Kind { name, about, long: false, make: Make::InTurn(make) }
}

const fn long(name: &'static str, about: &'static str, make: fn(&mut Random) -> Vec<u8>) -> Kind {
    Kind { long: true, ..kind(name, about, make) }
}

impl Kind {
    pub fn file(&self, seed: u64) -> Vec<u8> {
        let mut random = Random::new(mixed(self.name, seed));
        match self.make {
            Make::Drawn(make) => make(&mut random),
            Make::InTurn(make) => make(&mut random, seed),
        }
    }
}

/// A seed that a name has joined, so that kinds with the same seed differ in their picks too.
pub fn mixed(name: &str, seed: u64) -> u64 {
    name.bytes().fold(seed, |s, b| s.wrapping_mul(1_099_511_628_211) ^ u64::from(b))
}

pub fn kinds() -> impl Iterator<Item = &'static Kind> {
    VALID.iter().chain(&REFUSED).chain(&OTHERS).chain(&STORED)
}
