//! Files that went wrong on the way: cut, with bytes changed, or nothing but noise.

use run_file::Tag;

use super::parts::later_tag;
use super::valid::{prefix, run, MIXED};
use crate::random::Random;

pub fn cut(random: &mut Random) -> Vec<u8> {
    let mut bytes = run(random, &MIXED);
    bytes.truncate(random.below(bytes.len()));
    bytes
}

pub fn damaged(random: &mut Random) -> Vec<u8> {
    let mut bytes = run(random, &MIXED);
    damage(random, &mut bytes);
    bytes
}

/// Changes, loses or adds up to four of the bytes.
pub fn damage(random: &mut Random, bytes: &mut Vec<u8>) {
    for _ in 0..1 + random.below(4) {
        let place = random.below(bytes.len());
        match random.below(4) {
            0 => bytes[place] = random.word() as u8,
            1 => bytes[place] ^= 1 << random.below(8),
            2 => bytes.insert(place, random.word() as u8),
            _ => {
                bytes.remove(place);
            }
        }
    }
}

pub fn bytes(random: &mut Random) -> Vec<u8> {
    match random.below(4) {
        0 => return noise(random, 300),
        1 => return [vec![1], noise(random, 300)].concat(),
        _ => {}
    }
    let mut bytes = Vec::new();
    for number in 0..1 + random.below(4) {
        let tag = if number == 0 { Tag::Start } else { later_tag(random) };
        let mut body = vec![1 + random.below(3) as u8];
        body.extend((1..tag.counts().len()).map(|_| random.below(3) as u8));
        if random.once_in(3) {
            body.extend(noise(random, 60));
        } else {
            let length = tag.length(&body);
            body.extend((body.len()..length).map(|i| if i % 4 < 2 { random.below(3) as u8 } else { 0 }));
        }
        bytes.push(tag as u8);
        bytes.extend((body.len() as u16).to_le_bytes());
        bytes.extend(body);
    }
    bytes
}

/// After a short run a field with many more bytes than its counts, good or bad, can give; all of them or nearly all.
pub fn long_field(random: &mut Random) -> Vec<u8> {
    let fields = random.below(3);
    let mut bytes = prefix(random, &MIXED, fields).bytes;
    let length = *random.pick(&[2_113, 4_096, 8_192, 32_767, 32_768, 65_534, 65_535]) - random.below(4);
    bytes.push(if random.once_in(8) { random.word() as u8 } else { later_tag(random) as u8 });
    bytes.extend((length as u16).to_le_bytes());
    let there = length - if random.once_in(3) { 1 + random.below(3) } else { 0 };
    let bad = random.once_in(2);
    bytes.extend([0; 4].map(|_| if bad { *random.pick(&[0, 2, 7, 41, 255]) } else { 2 }));
    bytes.resize(bytes.len() - 4 + there, random.word() as u8);
    if there == length && random.once_in(3) {
        bytes.extend(noise(random, 9));
    }
    bytes
}

pub fn noise(random: &mut Random, limit: usize) -> Vec<u8> {
    (0..random.below(limit)).map(|_| random.word() as u8).collect()
}
