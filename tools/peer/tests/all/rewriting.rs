//! Stored files rewritten: what goes and what stays.

use crate::common::{empty, encoded, whole_fields};
use peer::rewrite::rewrite;
use run_file::{HEADER, MAX_DIMENSION};
use trials::generate::kinds;

/// A file of fields that stay, for runs of one coordinate, and one of a tag that no run knows.
fn staying() -> [Vec<u8>; 5] {
    [
        encoded("start 1\ncentre 7"),
        encoded("disturbance 1\nradii 1"),
        encoded("reduce 0 0"),
        vec![200, 5, 0, 3, 5, 0, 1, 0],
        encoded("check 1\nhalfspace 0 : 0"),
    ]
}

#[test]
fn each_whole_empty_disturbance_goes() {
    for n in 1..=MAX_DIMENSION {
        let empty = empty(n);
        assert_eq!(rewrite(&empty), [], "alone");
        assert_eq!(rewrite(&empty.repeat(3)), [], "in a row");
        let fields = staying();
        for place in 0..=fields.len() {
            let (before, after) = (fields[..place].concat(), fields[place..].concat());
            for times in 0..4 {
                let file = [before.clone(), empty.repeat(times), after.clone()].concat();
                assert_eq!(rewrite(&file), fields.concat(), "{times} of {n} coordinates at place {place}");
            }
        }
    }
    let all: Vec<u8> = (1..=MAX_DIMENSION).flat_map(empty).collect();
    assert_eq!(rewrite(&all), []);
}

/// Also after what a run refuses, as long as the headers lead there.
#[test]
fn fields_after_a_refused_one_are_rewritten_too() {
    for refused in [
        &[][..],
        &[0, 0, 0],
        &[255, 1, 0, 3],
        &[1, 0, 0],
        &[6, 2, 0, 41, 0],
        &[6, 0, 0],
        &[3, 0, 0],
        &[3, 5, 0, 1, 255, 255, 255, 255],
        &[2, 2, 0, 7, 7],
    ] {
        for before in [Vec::new(), encoded("start 1"), encoded("start 2\nreduce 0 0")] {
            let stays = [before, refused.to_vec()].concat();
            let file = [stays.clone(), empty(1), empty(6), vec![9, 9]].concat();
            assert_eq!(rewrite(&file), [stays, vec![9, 9]].concat(), "{refused:?}");
        }
    }
    let many = [encoded("start 1"), encoded("reduce 0 0").repeat(5_000)].concat();
    assert_eq!(rewrite(&[many.clone(), empty(2), many.clone()].concat()), [many.clone(), many].concat());
}

/// Header or body cut by the end of the input: nothing of it goes, nor of what looks like a field behind it.
#[test]
fn what_is_not_whole_stays() {
    assert_eq!(rewrite(&[]), []);
    for n in 1..=MAX_DIMENSION {
        let field = empty(n);
        for kept in 0..field.len() {
            for before in [Vec::new(), encoded("start 1"), vec![77, 1, 0, 3]] {
                let stays = [before.clone(), field[..kept].to_vec()].concat();
                assert_eq!(rewrite(&[before, field.clone(), field[..kept].to_vec()].concat()), stays, "{kept} of {n}");
                assert_eq!(rewrite(&stays), stays, "{kept} of {n}");
            }
        }
        let longer = [vec![200, 255, 255], field.clone(), field.clone()].concat();
        assert_eq!(rewrite(&longer), longer, "inside another field");
    }
    let long = [vec![200, 255, 255], vec![0; 65_535]].concat();
    assert_eq!(rewrite(&[long.clone(), empty(4)].concat()), long);
}

#[test]
fn what_is_nearly_empty_stays() {
    let with_length = |length: usize, body: &[u8]| {
        [vec![3], (length as u16).to_le_bytes().to_vec(), body.to_vec(), vec![0; length - body.len()]].concat()
    };
    for n in 1..=MAX_DIMENSION {
        let body = 1 + 4 * n;
        for place in HEADER + 1..HEADER + body {
            for byte in [1, 2, 128, 255] {
                let mut field = empty(n);
                field[place] = byte;
                assert_eq!(rewrite(&field), field, "{byte} at {place}");
            }
        }
        for length in (1..40).chain([body + 256, body + 512, 65_280 + body]).filter(|length| *length != body) {
            let field = with_length(length, &[n as u8]);
            assert_eq!(rewrite(&field), field, "{n} coordinates in {length} bytes");
        }
        for tag in (0..=255).filter(|tag| *tag != 3) {
            let mut field = empty(n);
            field[0] = tag;
            assert_eq!(rewrite(&field), field, "tag {tag}");
        }
    }
    for n in [0, 7, 8, 63, 64, 65, 128, 255] {
        for length in [1, 5, 9, 25, 1 + 4 * n, 1 + 4 * n % 256] {
            let field = with_length(length, &[n as u8]);
            assert_eq!(rewrite(&field), field, "{n} coordinates in {length} bytes");
        }
    }
    assert_eq!(rewrite(&[3, 0, 0]), [3, 0, 0]);
}

/// Over all kinds: the fields of the rewritten file are the others in their order, with the same rest, so that rewriting
/// it again changes nothing.
#[test]
fn twice_is_once_and_no_empty_disturbance_is_left() {
    let is_empty = |field: &&[u8]| (1..=MAX_DIMENSION).any(|n| *field == empty(n));
    let (mut gone, mut with_none) = (0, 0);
    for kind in kinds() {
        for seed in 0..if kind.long { 1 } else { 20 } {
            let file = kind.file(seed);
            let rewritten = rewrite(&file);
            let (mut others, rest) = whole_fields(&file);
            let before = others.len();
            others.retain(|field| !is_empty(field));
            gone += before - others.len();
            with_none += usize::from(before == others.len());
            assert!(whole_fields(&rewritten) == (others, rest), "{} {seed}", kind.name);
            assert!(rewrite(&rewritten) == rewritten, "{} {seed}", kind.name);
        }
    }
    assert!(gone > 10_000 && with_none > 500, "{gone} {with_none}");
}
