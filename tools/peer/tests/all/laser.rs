//! Laser logs (document 02, A.6): numbers worked out by hand, and each refusal with its place.

use crate::common::encoded;
use peer::laser::{ends, laser};
use trials::generate::kinds;
use trials::generate::logs::SORTS;

/// A run of one field whose box in one coordinate has these ends, which are both even or both odd.
fn run_of_box(low: i32, high: i32) -> Vec<u8> {
    encoded(&format!("start 1\ncentre {}\nradii {}", (low + high) / 2, (high - low) / 2))
}

fn present(bits: u32) -> Vec<u8> {
    [&[1], &bits.to_le_bytes()[..]].concat()
}

/// A log of one reading with these bits.
fn held(low: i32, high: i32, bits: u32) -> &'static str {
    match laser(&run_of_box(low, high), &present(bits)).as_str() {
        "inside\n1 0 0\n" => "inside",
        "outside\n0 1 0\n" => "outside",
        "refused 15 0\n" => "refused",
        other => panic!("{other}"),
    }
}

#[test]
fn a_reading_on_an_end_is_inside_and_the_float_beyond_it_is_not() {
    // The box from 3/4096 to 4097/4096 in units: 3·2^-12 is 1.5·2^-11, and 4097/4096 is 1 + 2^-12.
    let (low, high) = (0x3a40_0000, 0x3f80_0800);
    assert_eq!((f32::from_bits(low), f32::from_bits(high)), (3.0 / 4096.0, 4097.0 / 4096.0));
    assert_eq!([low - 1, low, low + 1].map(|bits| held(3, 4097, bits)), ["outside", "inside", "inside"]);
    assert_eq!([high - 1, high, high + 1].map(|bits| held(3, 4097, bits)), ["inside", "inside", "outside"]);
    // Mirrored: the sign is the first bit, and the next number upwards has the next lower bits.
    let minus = 1 << 31;
    assert_eq!([low - 1, low, low + 1].map(|bits| held(-4097, -3, minus + bits)), ["outside", "inside", "inside"]);
    assert_eq!([high - 1, high, high + 1].map(|bits| held(-4097, -3, minus + bits)), ["inside", "inside", "outside"]);
    assert_eq!([low, high].map(|bits| held(-4097, -3, bits)), ["outside", "outside"], "of the other sign");
    assert_eq!([low, high].map(|bits| held(3, 4097, minus + bits)), ["outside", "outside"]);
    assert_eq!([low, minus + low].map(|bits| held(-4097, 4097, bits)), ["inside", "inside"], "around 0");
}

/// A box that is one point is met by one float alone.
#[test]
fn a_point_is_met_exactly() {
    for point in [1, 5, 4_096, 4_097, 65_535, 1_048_575, 1_048_576, -1, -77, -1_048_576] {
        let bits = (point as f32 / 4096.0).to_bits();
        assert_eq!([bits - 1, bits, bits + 1].map(|bits| held(point, point, bits)), ["outside", "inside", "outside"]);
    }
    let smallest = [1, 1 << 22, 1 << 23, (1 << 31) + 1].map(|bits| held(0, 0, bits));
    assert_eq!(smallest, ["outside"; 4], "nothing but the zeros is 0");
}

#[test]
fn both_zeros_are_0() {
    for (low, high, word) in
        [(0, 0, "inside"), (0, 2, "inside"), (-2, 0, "inside"), (1, 3, "outside"), (-3, -1, "outside")]
    {
        assert_eq!([0, 1 << 31].map(|bits| held(low, high, bits)), [word; 2], "{low} {high}");
    }
}

/// The smallest is 2^-149, the largest subnormal one has 23 ones, and the smallest normal one is 2^-126.
#[test]
fn subnormal_readings_beside_an_end_of_0() {
    for bits in [1, 2, 0x7f_ffff, 0x80_0000] {
        let minus = (1 << 31) + bits;
        assert_eq!([bits, minus].map(|bits| held(0, 2, bits)), ["inside", "outside"], "{bits:x}");
        assert_eq!([bits, minus].map(|bits| held(-2, 0, bits)), ["outside", "inside"], "{bits:x}");
        assert_eq!([bits, minus].map(|bits| held(-1, 1, bits)), ["inside", "inside"], "{bits:x}");
        assert_eq!([bits, minus].map(|bits| held(1, 3, bits)), ["outside", "outside"], "{bits:x}");
    }
}

/// 256 units are 1,048,576/4096, the widest box; 2^116·4096 is 2^128, which no 32-bit float is.
#[test]
fn large_readings_are_outside_also_where_the_product_overflows() {
    let widest = |bits| held(-1_048_576, 1_048_576, bits);
    let (end, overflow, largest) = (0x4380_0000, 0x7980_0000, 0x7f7f_ffff);
    assert_eq!([end, overflow, largest].map(f32::from_bits), [256.0, 2f32.powi(116), f32::MAX]);
    for minus in [0, 1 << 31] {
        assert_eq!([end - 1, end, end + 1].map(|bits| widest(minus + bits)), ["inside", "inside", "outside"]);
        assert_eq!([overflow - 1, overflow, overflow + 1].map(|bits| widest(minus + bits)), ["outside"; 3]);
        // 2^83, 2^84 and 2^115, whose products are 2^95, 2^96 and 2^127.
        assert_eq!([0x6900_0000, 0x6980_0000, 0x7900_0000].map(|bits| widest(minus + bits)), ["outside"; 3]);
        assert_eq!(widest(minus + largest), "outside");
    }
}

#[test]
fn nans_and_infinities_are_refused_whatever_their_payload_and_sign() {
    for minus in [0, 1 << 31] {
        for payload in [0, 1, 0x12_3456, 0x3f_ffff, 0x40_0000, 0x40_0001, 0x7f_ffff] {
            assert_eq!(held(-1_048_576, 1_048_576, minus + 0x7f80_0000 + payload), "refused", "{payload:x}");
        }
    }
}

const MISSING: [u8; 5] = [0; 5];

/// Two coordinates, a check, which has no entry, and one coordinate after a step.
fn three_boxes() -> Vec<u8> {
    encoded("start 2\ncentre 4096 0\nradii 4 8\ncheck 2\nhalfspace 1 1 : 0\nstep 1 from 2\nA 4096 0")
}

#[test]
fn counts_are_of_inside_outside_and_missing() {
    let log = [present(1f32.to_bits()), MISSING.to_vec(), present(2f32.to_bits())].concat();
    assert_eq!(laser(&three_boxes(), &log), "inside\nmissing\noutside\n1 1 1\n");
    let log = [present(1f32.to_bits()), present(0), present(1f32.to_bits())].concat();
    assert_eq!(laser(&three_boxes(), &log), "inside\ninside\ninside\n3 0 0\n");
    assert_eq!(laser(&three_boxes(), &MISSING.repeat(3)), "missing\nmissing\nmissing\n0 0 3\n");
    let log = [present(0), present(1f32.to_bits()), MISSING.to_vec()].concat();
    assert_eq!(laser(&three_boxes(), &log), "outside\noutside\nmissing\n0 2 1\n", "coordinates keep their order");
}

/// Also a NaN, which a missing reading may have behind its 0.
#[test]
fn what_stands_behind_a_0_is_ignored() {
    for bits in [0u32, 1, 0x3f80_0000, 0x7f80_0000, 0x7fc0_0000, u32::MAX] {
        let log = [&[0], &bits.to_le_bytes()[..], &MISSING, &MISSING].concat();
        assert_eq!(laser(&three_boxes(), &log), "missing\nmissing\nmissing\n0 0 3\n");
    }
}

/// In each entry, with the lines of those before it.
#[test]
fn each_refusal_has_the_place_of_its_entry() {
    let (good, infinity) = (present(1f32.to_bits()), present(0x7f80_0000));
    let lines = ["", "inside\n", "inside\noutside\n"];
    for (i, before) in lines.into_iter().enumerate() {
        let refused = format!("{before}refused 15 {}\n", 5 * i);
        let first = good.repeat(i);
        let mut wrong: Vec<Vec<u8>> = [2, 3, 127, 128, 255].map(|byte| [&[byte], &good[1..]].concat()).to_vec();
        wrong.extend([infinity.clone(), present(0xff80_0000), present(0x7fc0_0000), present(0xff80_0001)]);
        for entry in wrong {
            assert_eq!(laser(&three_boxes(), &[first.clone(), entry.clone(), good.repeat(2 - i)].concat()), refused);
            assert_eq!(laser(&three_boxes(), &[first.clone(), entry].concat()), refused, "it is the first that counts");
        }
        for entry in [good.clone(), MISSING.to_vec(), infinity.clone(), vec![9; 5]] {
            for kept in 0..5 {
                assert_eq!(laser(&three_boxes(), &[&first, &entry[..kept]].concat()), refused, "{kept} bytes of it");
            }
        }
    }
    let all = [good.repeat(2), MISSING.to_vec()].concat();
    for surplus in [&[0][..], &[1], &[2], &[255; 4], &MISSING, &infinity, &[0; 11]] {
        let log = [&all, surplus].concat();
        assert_eq!(laser(&three_boxes(), &log), "inside\noutside\nmissing\nrefused 15 15\n");
    }
}

/// The fields before the refused one have their entries, and nothing is said of it.
#[test]
fn a_refused_run_is_its_accepted_fields() {
    let refused = [three_boxes(), encoded("reduce 41 0\nreduce 1 1")].concat();
    let log = [present(1f32.to_bits()), MISSING.repeat(2)].concat();
    for log in [&log[..], &log[..12], &[log.clone(), MISSING.to_vec()].concat()] {
        assert_eq!(laser(&refused, log), laser(&three_boxes(), log));
    }
    assert_eq!(laser(&refused, &log), "inside\nmissing\nmissing\n1 0 2\n");
    for first_refused in [&[][..], &[1], &encoded("reduce 1 1"), &encoded("start 1\nradii -1")] {
        assert_eq!(laser(first_refused, &[]), "0 0 0\n");
        assert_eq!(laser(first_refused, &MISSING), "refused 15 0\n");
    }
}

/// Over all kinds of files and sorts of logs: the lines are as many as the entries, and the counts are of the lines.
#[test]
fn counts_match_the_lines() {
    let (mut counted, mut refused) = (0, 0);
    for kind in kinds().filter(|kind| !kind.long) {
        for (sort, seed) in SORTS.iter().zip(0..) {
            let run = kind.file(seed);
            let log = sort.log(&ends(&run), seed);
            let text = laser(&run, &log);
            let lines: Vec<&str> = text.lines().collect();
            let (last, entries) = lines.split_last().expect("a line");
            let count = |word: &str| entries.iter().filter(|line| **line == word).count();
            let counts = ["inside", "outside", "missing"].map(count);
            assert_eq!(counts.iter().sum::<usize>(), entries.len());
            if last.starts_with("refused") {
                assert_eq!(*last, format!("refused 15 {}", 5 * entries.len()));
                refused += 1;
            } else {
                let [inside, outside, missing] = counts;
                assert_eq!(*last, format!("{inside} {outside} {missing}"));
                assert_eq!(5 * entries.len(), log.len());
                counted += 1;
            }
        }
    }
    assert!(counted > 100 && refused > 100, "{counted} {refused}");
}
