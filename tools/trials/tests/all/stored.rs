//! The reach of the kinds of stored files: they tell wrong rewriting programs apart, and have every cut and change.

use std::collections::BTreeSet;

use crate::common::{empty, whole_fields};
use peer::rewrite::{is_empty_disturbance, rewrite};
use run_file::{HEADER, MAX_DIMENSION};
use trials::generate::{Kind, STORED};

fn seeds(kind: &Kind) -> std::ops::Range<u64> {
    0..if kind.long { 2 } else { 120 }
}

/// How a rewriting program may go wrong: which fields it drops, where it stops, and what it does with a cut field.
struct Wrong {
    drops: fn(u8, &[u8]) -> bool,
    stops_at: fn(usize, u8) -> bool,
    drops_cut: bool,
}

const RIGHT: Wrong = Wrong { drops: is_empty_disturbance, stops_at: |_, _| false, drops_cut: false };

fn wrongly(wrong: &Wrong, input: &[u8]) -> Vec<u8> {
    let (fields, rest) = whole_fields(input);
    let stop = fields.iter().enumerate().position(|(number, field)| (wrong.stops_at)(number, field[0]));
    let stop = stop.unwrap_or(fields.len());
    let mut output: Vec<u8> = Vec::new();
    let stays = |field: &&&[u8]| !(wrong.drops)(field[0], &field[HEADER..]);
    fields[..stop].iter().filter(stays).for_each(|field| output.extend(*field));
    fields[stop..].iter().for_each(|field| output.extend(*field));
    let looks_empty = rest.len() > HEADER && rest[0] == 3 && rest[HEADER + 1..].iter().all(|byte| *byte == 0);
    if !(wrong.drops_cut && looks_empty) {
        output.extend(rest);
    }
    output
}

/// So that a comparison notices a wrong program: each wrong one differs on several generated files.
#[test]
fn the_files_tell_wrong_programs_apart() {
    fn disturbance(tag: u8, body: &[u8], is_count: fn(usize) -> bool, is_length: fn(usize, usize) -> bool) -> bool {
        match body {
            [n, radii @ ..] => {
                let n = usize::from(*n);
                tag == 3 && is_count(n) && is_length(n, body.len()) && radii.iter().all(|byte| *byte == 0)
            }
            [] => false,
        }
    }
    fn length(n: usize, length: usize) -> bool {
        length == 1 + 4 * n
    }
    fn count(n: usize) -> bool {
        (1..=6).contains(&n)
    }
    fn but_for(tag: u8, body: &[u8], from_end: usize) -> bool {
        tag == 3 && body.len() >= 5 && {
            let mut body = body.to_vec();
            let place = body.len() - from_end;
            body[place] = 0;
            is_empty_disturbance(tag, &body)
        }
    }
    let wrong: [(&str, Wrong); 14] = [
        ("none", Wrong { drops: |_, _| false, ..RIGHT }),
        ("any tag", Wrong { drops: |_, body| is_empty_disturbance(3, body), ..RIGHT }),
        ("any length", Wrong { drops: |tag, body| disturbance(tag, body, count, |_, _| true), ..RIGHT }),
        ("a longer body", Wrong { drops: |t, b| disturbance(t, b, count, |n, l| l > 4 * n), ..RIGHT }),
        (
            "the length's low byte",
            Wrong { drops: |t, b| disturbance(t, b, count, |n, l| l % 256 == 1 + 4 * n), ..RIGHT },
        ),
        ("no coordinates", Wrong { drops: |tag, body| disturbance(tag, body, |n| n <= 6, length), ..RIGHT }),
        ("seven coordinates", Wrong { drops: |t, b| disturbance(t, b, |n| n > 0 && n <= 7, length), ..RIGHT }),
        ("up to five", Wrong { drops: |t, b| disturbance(t, b, |n| n > 0 && n <= 5, length), ..RIGHT }),
        ("the last byte unseen", Wrong { drops: |tag, body| but_for(tag, body, 1), ..RIGHT }),
        ("a low byte unseen", Wrong { drops: |tag, body| but_for(tag, body, 4), ..RIGHT }),
        ("stops at an unknown tag", Wrong { stops_at: |_, tag| !(1..=9).contains(&tag), ..RIGHT }),
        ("stops where a run would", Wrong { stops_at: |number, tag| (number == 0) != (tag == 1), ..RIGHT }),
        ("stops after 4,097 fields", Wrong { stops_at: |number, _| number > 4_096, ..RIGHT }),
        ("drops a cut one", Wrong { drops_cut: true, ..RIGHT }),
    ];
    let files: Vec<Vec<u8>> =
        STORED.iter().flat_map(|kind| seeds(kind).map(|seed| kind.file(seed)).collect::<Vec<_>>()).collect();
    assert!(files.iter().all(|file| wrongly(&RIGHT, file) == rewrite(file)));
    for (name, wrong) in wrong {
        let different = files.iter().filter(|file| wrongly(&wrong, file) != rewrite(file)).count();
        assert!(different > 20, "{name}: {different}");
    }
}

fn kind(name: &str) -> &'static Kind {
    STORED.iter().find(|kind| kind.name == name).expect("a kind")
}

/// In `unfilled-cut` each cut of each empty disturbance, and in `unfilled-byte` each of their bytes changed.
#[test]
fn cuts_and_changed_bytes_are_all_there() {
    let ends: Vec<Vec<u8>> = (0..114).map(|seed| kind("unfilled-cut").file(seed)).collect();
    for n in 1..=MAX_DIMENSION {
        let field = empty(n);
        for kept in 1..=field.len() {
            assert!(ends.iter().any(|file| file.ends_with(&field[..kept])), "{kept} of {n}");
        }
    }
    let changed: Vec<Vec<u8>> = (0..108).map(|seed| kind("unfilled-byte").file(seed)).collect();
    for n in 1..=MAX_DIMENSION {
        for place in 0..empty(n).len() {
            let differs_there = |bytes: &[u8]| {
                let mut pairs = bytes.iter().zip(empty(n)).enumerate();
                pairs.all(|(i, (byte, zero))| (*byte != zero) == (i == place))
            };
            assert!(changed.iter().any(|file| file.windows(4 + 4 * n).any(differs_there)), "{place} of {n}");
        }
    }
}

/// In `unfilled-64k` an empty disturbance lies across a multiple of 65,536 by each of its bytes.
#[test]
fn long_files_have_empty_disturbances_across_every_piece() {
    let kind = kind("unfilled-64k");
    let mut across = BTreeSet::new();
    for seed in seeds(kind) {
        let file = kind.file(seed);
        assert!(file.len() > 3 * 65_536 && file.len() < 600_000);
        let mut place = 0;
        for field in whole_fields(&file).0 {
            let end = place + field.len();
            let is_empty = (1..=MAX_DIMENSION).any(|n| field == empty(n));
            if is_empty && place / 65_536 < (end - 1) / 65_536 {
                across.insert((field.len(), 65_536 - place % 65_536));
            }
            place = end;
        }
    }
    assert_eq!(across.len(), (1..=MAX_DIMENSION).map(|n| 3 + 4 * n).sum());
}
