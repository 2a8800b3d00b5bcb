//! Numbers in the user's unit, and under `grains` the file's own.

use crate::encoded;
use plan::number::{Form, BOUND, WORD};

fn radius(number: &str) -> Vec<u8> {
    encoded(&format!("disturbance 1\nradii {number}"))
}

fn grains(number: i32) -> Vec<u8> {
    encoded(&format!("grains\ndisturbance 1\nradii {number}"))
}

#[test]
fn a_number_is_in_the_users_unit_with_or_without_a_point() {
    for (number, whole) in [
        ("20", 81_920),
        ("20.0", 81_920),
        ("20.", 81_920),
        ("1", 4_096),
        ("-0.5", -2_048),
        (".25", 1_024),
        ("+0.000244140625", 1),
        ("2843/4096", 2_843),
        ("-9/4096", -9),
        ("+1/2", 2_048),
        ("6/4", 6_144),
        ("0/7", 0),
        ("-0", 0),
        ("524287.999755859375", i32::MAX),
        ("-524288", i32::MIN),
    ] {
        assert_eq!(radius(number), grains(whole), "{number}");
    }
}

#[test]
fn a_bound_is_in_the_users_unit_too() {
    let check = |bound: &str| encoded(&format!("check 1\nhalfspace 1 : {bound}"));
    let whole = |bound: i64| encoded(&format!("grains\ncheck 1\nhalfspace 4096 : {bound}"));
    for (bound, number) in [("-1", -16_777_216), ("-16777217/16777216", -16_777_217), ("0.00000011920928955078125", 2)]
    {
        assert_eq!(check(bound), whole(number), "{bound}");
    }
}

/// 20 mm with the end stop at 18 mm: taken for 20/4096 mm it would be safe.
#[test]
fn twenty_is_twenty() {
    let plan = "start 1\nradii 20\ncheck 1\nhalfspace -1 : -18";
    assert!(peer::text::motion(&encoded(plan)).contains("\n1 7 unknown\n"));
    assert!(peer::text::motion(&encoded(&format!("grains\n{plan}"))).contains("\n1 7 unknown\n"), "b is in grains too");
    let mixed = "grains\nstart 1\nradii 20\ncheck 1\nhalfspace -4096 : -301989888";
    assert!(peer::text::motion(&encoded(mixed)).contains("\n1 7 safe\n"), "20 grains are 0.005 mm");
}

#[test]
fn grains_stand_at_the_top() {
    let plan = |top: &str| encoded(&format!("{top}start 1\ncentre 5"));
    assert_eq!(plan("grains\n"), plan("\n# a comment\n\n  grains  # whole numbers\n"));
    assert_ne!(plan("grains\n"), plan(""));
}

/// Every number has a text in either form that states it.
#[test]
fn texts_state_their_numbers() {
    let all = [0, 1, -1, 63, 64, 65, 2_048, 4_095, 4_096, 40_960, -12_345, i32::MAX.into(), i32::MIN.into()];
    for (slot, more) in [(WORD, [3, -7]), (BOUND, [i64::MAX.into(), i64::MIN.into()])] {
        for value in all.into_iter().chain(more) {
            for form in [Form::Units, Form::Grains] {
                let text = slot.text(value, form);
                assert_eq!(slot.parse(&text, form), Ok(value), "{text}");
            }
        }
    }
    for (value, text) in [(81_920, "20"), (-2_048, "-0.5"), (128, "0.03125"), (2_843, "2843/4096"), (-9, "-9/4096")] {
        assert_eq!(WORD.text(value, Form::Units), text);
    }
    assert_eq!(BOUND.text(-16_777_217, Form::Units), "-16777217/16777216");
}
