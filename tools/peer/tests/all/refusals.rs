//! Each refusal with its number and place, the order in which causes are looked at, and the agreed
//! readings of both.

use crate::common::{encoded, last_line};

const START: &str = "start 2\nidentifiers 1\nterm 1 : 5 5\n";
/// Bytes of the field above.
const NEXT: usize = 3 + 4 + 4 + 8 + 9 + 8;

/// The last line for a field after the start set, as a plan.
fn after_start(plan: &str) -> String {
    last_line(&encoded(&format!("{START}{plan}")))
}

/// The same for bytes.
fn bytes_after_start(bytes: &[u8]) -> String {
    last_line(&[encoded(START), bytes.to_vec()].concat())
}

fn refused(number: u8) -> String {
    format!("1 refused {number} {NEXT}")
}

/// The last line for a plan and one more field, which lacks so many bytes at its end.
fn last_line_with(plan: &str, tag: u8, body: &[u8], cut: usize) -> String {
    let mut bytes = encoded(plan);
    bytes.push(tag);
    bytes.extend((body.len() as u16).to_le_bytes());
    bytes.extend(&body[..body.len() - cut]);
    last_line(&bytes)
}

#[test]
fn input_ends() {
    assert_eq!(last_line(&[]), "0 refused 1 0");
    assert_eq!(last_line(&[1]), "0 refused 1 0");
    let start = encoded(START);
    for cut in 1..start.len() {
        assert_eq!(last_line(&start[..cut]), "0 refused 1 0");
    }
    assert_eq!(last_line(&start), "end 0");
    assert_eq!(bytes_after_start(&[2]), refused(1));
    assert_eq!(bytes_after_start(&[3, 200, 255, 9, 9]), refused(1), "bad counts in a cut body");
}

#[test]
fn tags() {
    assert_eq!(last_line(&[2]), "0 refused 2 0");
    assert_eq!(last_line(&[8]), "0 refused 2 0");
    assert_eq!(last_line(&[0, 0, 0]), "0 refused 2 0");
    assert_eq!(bytes_after_start(&[8]), refused(1));
    assert_eq!(last_line(&[9]), "0 refused 2 0");
    assert_eq!(bytes_after_start(&[9]), refused(1));
    assert_eq!(bytes_after_start(&[10]), refused(2));
    assert_eq!(bytes_after_start(&[255, 255, 255]), refused(2), "an unknown tag with a huge length");
    assert_eq!(bytes_after_start(&[1]), refused(2), "a later start set");
}

#[test]
fn lengths() {
    for bytes in [
        &[3, 0, 0][..],
        &[2, 1, 0, 2],
        &[7, 1, 0, 2],
        &[6, 1, 0, 41],
        &[4, 3, 0, 99, 99, 99],
        &[8, 3, 0, 2, 0, 0],
        &[9, 0, 0],
        &[9, 1, 0, 7],
    ] {
        assert_eq!(bytes_after_start(bytes), refused(3), "too short for its counts: {bytes:?}");
    }
    assert_eq!(bytes_after_start(&[6, 3, 0, 40, 24, 0]), refused(3));
    assert_eq!(bytes_after_start(&[6, 3, 0, 41, 24, 0]), refused(4), "limits come before the whole length");
    assert_eq!(bytes_after_start(&[3, 8, 0, 2, 1, 0, 0, 0, 1, 0, 0]), refused(3));
    assert_eq!(bytes_after_start(&[3, 10, 0, 2, 1, 0, 0, 0, 1, 0, 0, 0, 0]), refused(3));
    // To 1 coordinate from 2: c, 6 entries, 6 half-widths; a plain step has no half-widths.
    for (tag, length) in [(2, 2 + 4 * 7), (9, 2 + 4 * 13)] {
        let zeros = |length: usize| [vec![tag, length as u8, 0, 1, 2], vec![0; length - 2]].concat();
        assert_eq!(bytes_after_start(&zeros(length)), "end 1");
        for other in [2, 2 + 4 * 7, 2 + 4 * 9, length - 1, length + 1, 2 + 4 * 13].iter().filter(|l| **l != length) {
            assert_eq!(bytes_after_start(&zeros(*other)), refused(3), "{tag} {other}");
        }
    }
}

#[test]
fn counts() {
    for body in [[0, 0, 0, 0], [7, 0, 0, 0], [2, 13, 0, 0], [2, 0, 41, 0], [2, 0, 0, 25]] {
        assert_eq!(last_line(&[&[1, 4, 0][..], &body].concat()), "0 refused 4 0");
        for tag in [4, 5, 8] {
            assert_eq!(bytes_after_start(&[&[tag, 4, 0][..], &body].concat()), refused(4));
        }
    }
    for body in [[0, 2], [7, 2], [2, 0], [2, 7]] {
        for tag in [2, 9] {
            assert_eq!(bytes_after_start(&[&[tag, 2, 0][..], &body].concat()), refused(4));
        }
    }
    for body in [[0, 1], [7, 1], [2, 0], [2, 9]] {
        assert_eq!(bytes_after_start(&[&[7, 2, 0][..], &body].concat()), refused(4));
    }
    assert_eq!(bytes_after_start(&[3, 1, 0, 0]), refused(4));
    assert_eq!(bytes_after_start(&[3, 1, 0, 7]), refused(4));
    assert_eq!(after_start("reduce 40 24"), "end 1");
    assert_eq!(after_start("reduce 41 0"), refused(4));
    assert_eq!(after_start("reduce 0 25"), refused(4));
}

#[test]
fn dimensions() {
    assert_eq!(after_start("disturbance 1"), refused(5));
    assert_eq!(after_start("tied 3"), refused(5));
    assert_eq!(after_start("independent 1"), refused(5));
    assert_eq!(after_start("hull 1"), refused(5));
    assert_eq!(after_start("hull 2"), "end 1");
    assert_eq!(after_start("check 1\nhalfspace 1 : 0"), refused(5));
    assert_eq!(after_start("step 2 from 1"), refused(5));
    assert_eq!(after_start("step 1 from 2\ndisturbance 1\nradii 1"), "end 2", "a step may change the dimension");
    assert_eq!(after_start("ranged 2 from 1"), refused(5));
    assert_eq!(after_start("ranged 1 from 2\ndisturbance 1\nradii 1"), "end 2");
}

#[test]
fn ranges() {
    for (good, bad) in [
        ("step 1 from 2\nc 1048576", "step 1 from 2\nc 1048577"),
        ("step 1 from 2\nc -1048576", "step 1 from 2\nc -1048577"),
        ("step 1 from 2\nA 32768 0", "step 1 from 2\nA 0 32769"),
        ("step 1 from 2\nA -32768 0", "step 1 from 2\nA 0 -32769"),
        ("step 1 from 2\nQ 1 : 0 32768 / 0 0", "step 1 from 2\nQ 1 : 0 0 / 32769 0"),
        ("step 1 from 2\nQ 1 : -32768 0 / 0 0", "step 1 from 2\nQ 1 : 0 0 / 0 -32769"),
        ("ranged 1 from 2\nc -1048576", "ranged 1 from 2\nc -1048577"),
        ("ranged 1 from 2\nA -32768 0", "ranged 1 from 2\nA 0 -32769"),
        ("ranged 1 from 2\nQ 1 : 0 32768 / 0 0", "ranged 1 from 2\nQ 1 : 0 0 / 32769 0"),
        ("ranged 1 from 2\nA+- 0 0", "ranged 1 from 2\nA+- 0 -1"),
        ("ranged 1 from 2\nA+- 0 32768", "ranged 1 from 2\nA+- 0 32769"),
        ("ranged 1 from 2\nA 1 4096\nA+- 32767 28672", "ranged 1 from 2\nA 1 4096\nA+- 0 28673"),
        ("ranged 1 from 2\nA -32767 0\nA+- 1 32768", "ranged 1 from 2\nA -32767 0\nA+- 2 0"),
        ("ranged 1 from 2\nA 32768 0\nA+- 0 1", "ranged 1 from 2\nA 32768 0\nA+- 1 0"),
        ("ranged 1 from 2\nQ+- 1 : 0 0 / 0 32768", "ranged 1 from 2\nQ+- 1 : 0 0 / 0 32769"),
        ("ranged 1 from 2\nQ+- 1 : 1 0 / 0 0", "ranged 1 from 2\nQ+- 1 : -1 0 / 0 0"),
        (
            "ranged 1 from 2\nQ 1 : 0 0 / -4096 0\nQ+- 1 : 0 0 / 28672 0",
            "ranged 1 from 2\nQ 1 : 0 0 / -4096 0\nQ+- 1 : 0 0 / 28673 0",
        ),
        ("ranged 1 from 2", "ranged 1 from 2\nA -2147483648 0\nA+- 2147483647 0"),
        ("ranged 1 from 2", "ranged 1 from 2\nA 32769 0\nA+- -1 0"),
        ("ranged 1 from 2", "ranged 1 from 2\nQ+- 1 : -2147483648 0 / 0 0"),
        ("disturbance 2\nradii 0 1", "disturbance 2\nradii 0 -1"),
        ("disturbance 2\nradii 1 0", "disturbance 2\nradii -2147483648 0"),
        ("disturbance 2\nradii 1048571 1048571", "disturbance 2\nradii 1048577 0"),
        ("check 2\nhalfspace 32768 -32768 : 0", "check 2\nhalfspace 0 32769 : 0"),
        ("check 2\nhalfspace 0 -32768 : 0", "check 2\nhalfspace 0 -32769 : 0"),
        ("check 2\nhalfspace 1 1 : 1099511627776", "check 2\nhalfspace 1 1 : 1099511627777"),
        ("check 2\nhalfspace 1 1 : -1099511627776", "check 2\nhalfspace 1 1 : -1099511627777"),
        ("tied 2\nradii 0 0", "tied 2\nradii 0 -1"),
        ("tied 2\nidentifiers 65535\nterm 63 : 1 0", "tied 2\nidentifiers 65536\nterm 63 : 1 0"),
        ("tied 2\nidentifiers 1\nterm 1 : 1 0", "tied 2\nidentifiers 0\nterm 1 : 1 0"),
        ("tied 2\nidentifiers 1\nterm 1 : 1 0", "tied 2\nidentifiers -1\nterm 1 : 1 0"),
        ("tied 2\nidentifiers 2\nterm 63 : 1 0", "tied 2\nidentifiers 2\nterm 64 : 1 0"),
        ("tied 2\nidentifiers 2\nterm 63 : 1 0", "tied 2\nidentifiers 2\nterm 255 : 1 0"),
    ] {
        for of in ["tied", "hull"] {
            let (good, bad) = (good.replace("tied", of), bad.replace("tied", of));
            assert_eq!(after_start(&good), "end 1", "{good}");
            assert_eq!(after_start(&bad), refused(6), "{bad}");
        }
    }
}

#[test]
fn rules() {
    for body in [
        "identifiers 2 1\nterm 1 1 : 1 1",
        "identifiers 1 1\nterm 1 1 : 1 1",
        "identifiers 1\nterm 2 : 1 1\nterm 1 : 1 1",
        "identifiers 1\nterm 1 : 1 1\nterm 1 : 1 1",
        "identifiers 1 2\nterm 1 0 : 1 1\nterm 0 1 : 1 1",
        "identifiers 1\nterm 0 : 1 1\nterm 1 : 1 1",
        "identifiers 1\nterm 1 : 0 0",
        "generator 0 0",
        "identifiers 1 2\nterm 1 0 : 1 1",
        "term : 1 1",
        "identifiers 1",
    ] {
        for of in ["independent", "tied", "hull"] {
            assert_eq!(after_start(&format!("{of} 2\n{body}")), refused(7), "{of} {body}");
        }
        assert_eq!(last_line(&encoded(&format!("start 2\n{body}"))), "0 refused 7 0", "{body}");
    }
    assert_eq!(after_start("tied 2\n"), "end 1", "no factors, terms or generators");
    assert_eq!(after_start("tied 2\ngenerator 0 1\ngenerator 0 1"), "end 1");
}

#[test]
fn spans() {
    let wide = "centre 0 -1000000\nidentifiers 1\nterm 1 : 0 -40000\ngenerator 0 -8575\nradii 0";
    assert_eq!(after_start(&format!("independent 2\n{wide} 2")), refused(8));
    assert_eq!(after_start(&format!("independent 2\n{wide} 1")), refused(10), "the sum is wider");
    assert_eq!(after_start(&format!("hull 2\n{wide} 2")), refused(8));
    assert_eq!(after_start(&format!("hull 2\n{wide} 1")), refused(10), "5 has inexact halves");
    assert_eq!(last_line(&encoded(&format!("start 2\n{wide} 1"))), "end 0");
    let extreme = "independent 2\ncentre -2147483648 2147483647\ngenerator -2147483648 0\nradii 2147483647 0";
    assert_eq!(after_start(extreme), refused(8));
    assert_eq!(after_start("disturbance 2\nradii 1048572 0"), refused(10));
    assert_eq!(after_start("step 2 from 2\nc 1048576 0\nA 4096 0 / 0 0"), refused(10));
    assert_eq!(after_start("step 2 from 2\nc 1048576 0"), "end 1");
    assert_eq!(after_start("ranged 2 from 2\nc 1048576 0"), "end 1");
    assert_eq!(after_start("ranged 2 from 2\nc 1048576 0\nA+- 0 0 / 1 0"), "end 1");
    assert_eq!(after_start("ranged 2 from 2\nc 1048576 0\nA+- 1 0 / 0 0"), refused(10));
    assert_eq!(after_start("ranged 2 from 2\nc 0 -1048576\nQ+- 2 : 0 1 / 0 0"), refused(10));
    assert_eq!(after_start("ranged 2 from 2\nc 0 -1048575\nQ+- 2 : 0 1 / 0 0"), "end 1");
}

#[test]
fn empty_disturbances() {
    assert_eq!(after_start("disturbance 2\nradii 0 0"), refused(14));
    assert_eq!(after_start("disturbance 2"), refused(14), "left out in the plan");
    assert_eq!(after_start("disturbance 2\nradii 1 0\ndisturbance 2"), format!("2 refused 14 {}", NEXT + 12));
    for n in 1..=6 {
        let start = format!("start {n}\n");
        let place = encoded(&start).len();
        let line = |radii: &[&str]| last_line(&encoded(&format!("{start}disturbance {n}\nradii {}", radii.join(" "))));
        assert_eq!(line(&vec!["0"; n]), format!("1 refused 14 {place}"));
        for i in 0..n {
            let with = |radius| [vec!["0"; i], vec![radius], vec!["0"; n - 1 - i]].concat();
            for radius in ["1", "256", "65536", "1048576"] {
                assert_eq!(line(&with(radius)), "end 1", "{radius} at {i} of {n}");
            }
            for radius in ["-1", "1048577", "16777216", "-2147483648"] {
                assert_eq!(line(&with(radius)), format!("1 refused 6 {place}"), "{radius} at {i} of {n}");
            }
        }
    }
}

#[test]
fn fields_after_the_last_that_may_follow() {
    let full = encoded("start 1\nrepeat 4096 {\nreduce 40 24\n}");
    assert_eq!(last_line(&full), "end 4096");
    for more in [&[0][..], &[1], &[6, 2, 0, 40, 24], &[255, 255, 255, 255]] {
        let bytes = [full.clone(), more.to_vec()].concat();
        assert_eq!(last_line(&bytes), format!("4097 refused 12 {}", full.len()));
    }
}

/// Each field below has all causes from one place of the order on, so that mending the first cause
/// uncovers the next. Four more factors are not too many in a sum, three in a hull.
#[test]
fn order_of_refusals() {
    let eight = "start 1\nidentifiers 1 2 3 4 5 6 7 8\nterm 1 1 1 1 1 1 1 1 : 1048576\n";
    let place = encoded(eight).len();
    for (tag, room) in [(5, 4), (8, 3)] {
        let field = |n: u8, identifier: u8, exponent: u8, coefficient: i32, factors: u8, cut: usize, more: usize| {
            let mut body = vec![n, factors, 1, 0];
            for k in 0..factors {
                body.extend([if k == 0 { identifier } else { 20 + k }, 0, 0, 0]);
            }
            body.extend(vec![0; 4 * usize::from(n)]);
            body.extend((0..factors).map(|k| if k == 0 { exponent } else { 1 }));
            body.extend(coefficient.to_le_bytes().repeat(usize::from(n)));
            body.extend(vec![0; 4 * usize::from(n) + more]);
            last_line_with(eight, tag, &body, cut)
        };
        let refused = |number: u8| format!("1 refused {number} {place}");
        assert_eq!(field(7, 0, 64, 0, 13, 1, 1), refused(1));
        assert_eq!(field(7, 0, 64, 0, 12, 0, 1), refused(4));
        assert_eq!(field(2, 0, 64, 0, 12, 0, 1), refused(3));
        assert_eq!(field(2, 0, 64, 0, 12, 0, 0), refused(5));
        assert_eq!(field(1, 0, 64, 0, 12, 0, 0), refused(6));
        assert_eq!(field(1, 20, 64, 0, 12, 0, 0), refused(6));
        assert_eq!(field(1, 30, 1, 1_048_577, 12, 0, 0), refused(7), "identifiers fall");
        assert_eq!(field(1, 20, 1, 1_048_577, 12, 0, 0), refused(8));
        assert_eq!(field(1, 20, 1, 1_048_576, 12, 0, 0), refused(9));
        assert_eq!(field(1, 20, 1, 1_048_576, room + 1, 0, 0), refused(9));
        assert_eq!(field(1, 20, 1, 1_048_576, room, 0, 0), refused(10));
        assert_eq!(field(1, 20, 1, 0, room, 0, 0), refused(7), "a zero term");
        assert_eq!(last_line(&[encoded(eight), vec![10]].concat()), refused(2));
    }
}

/// The same for a disturbance of zeros; what is too wide isn't empty, so that 14 and 10 are never both there.
#[test]
fn order_of_a_disturbances_refusals() {
    let start = "start 2\ncentre 1048576 0\n";
    let place = encoded(start).len();
    let refused = |number: u8| format!("1 refused {number} {place}");
    let field = |tag: u8, n: u8, radii: &[i32], cut: usize, more: usize| {
        let mut body = vec![n];
        body.extend(radii.iter().flat_map(|radius| radius.to_le_bytes()));
        body.extend(vec![0; more]);
        last_line_with(start, tag, &body, cut)
    };
    assert_eq!(field(10, 7, &[-1, 0], 1, 1), refused(2));
    assert_eq!(field(3, 7, &[-1, 0], 1, 1), refused(1));
    assert_eq!(field(3, 2, &[0, 0], 1, 0), refused(1));
    assert_eq!(last_line(&[encoded(start), vec![3, 0, 0]].concat()), refused(3));
    assert_eq!(field(3, 7, &[-1, 0], 0, 1), refused(4));
    assert_eq!(field(3, 0, &[], 0, 0), refused(4));
    assert_eq!(field(3, 7, &[0; 7], 0, 0), refused(4));
    assert_eq!(field(3, 1, &[-1], 0, 1), refused(3));
    assert_eq!(field(3, 2, &[0, 0], 0, 1), refused(3));
    assert_eq!(field(3, 2, &[0], 0, 0), refused(3));
    assert_eq!(field(3, 1, &[-1], 0, 0), refused(5));
    assert_eq!(field(3, 1, &[0], 0, 0), refused(5));
    assert_eq!(field(3, 6, &[0; 6], 0, 0), refused(5));
    assert_eq!(field(3, 2, &[-1, 0], 0, 0), refused(6));
    assert_eq!(field(3, 2, &[0, 1_048_577], 0, 0), refused(6));
    assert_eq!(field(3, 2, &[0, i32::MIN], 0, 0), refused(6));
    assert_eq!(field(3, 2, &[0, 0], 0, 0), refused(14), "in a set as wide as can be");
    assert_eq!(field(3, 2, &[1, 0], 0, 0), refused(10));
    assert_eq!(field(3, 2, &[0, 1], 0, 0), "end 1");
    assert_eq!(last_line(&encoded("disturbance 1")), "0 refused 2 0", "as the first field");
    let full = encoded("start 1\nrepeat 4096 {\nreduce 40 24\n}");
    let line = last_line(&[full.clone(), encoded("disturbance 1")].concat());
    assert_eq!(line, format!("4097 refused 12 {}", full.len()));
}

/// The same for a ranged step, whose half-width of -1 or of 32,769 is 6 and whose image is too wide.
#[test]
fn order_of_a_ranged_steps_refusals() {
    let start = "start 1\ncentre 1048576\n";
    let place = encoded(start).len();
    let field = |tag: u8, m: u8, n: u8, half_width: i32, cut: usize, more: usize| {
        let entries = usize::from(m) * usize::from(n) * (1 + usize::from(n));
        let mut body = vec![m, n];
        body.extend(vec![0; 4 * (usize::from(m) + 2 * entries - 1)]);
        body.extend(half_width.to_le_bytes());
        body.extend(vec![0; more]);
        last_line_with(start, tag, &body, cut)
    };
    let refused = |number: u8| format!("1 refused {number} {place}");
    assert_eq!(field(10, 7, 7, -1, 1, 1), refused(2));
    assert_eq!(field(9, 7, 7, -1, 1, 1), refused(1));
    assert_eq!(last_line(&[encoded(start), vec![9, 1, 0, 7]].concat()), refused(3));
    assert_eq!(field(9, 7, 2, -1, 0, 1), refused(4));
    assert_eq!(field(9, 2, 7, -1, 0, 1), refused(4));
    assert_eq!(field(9, 1, 2, -1, 0, 1), refused(3));
    assert_eq!(field(9, 1, 2, -1, 0, 0), refused(5));
    assert_eq!(field(9, 1, 1, -1, 0, 0), refused(6));
    assert_eq!(field(9, 1, 1, 32_769, 0, 0), refused(6));
    assert_eq!(field(9, 1, 1, 32_768, 0, 0), refused(10));
    // 1,048,576² and 16,777,216 are 65,536: a half-width of 16 is as wide as can be.
    assert_eq!(field(9, 1, 1, 17, 0, 0), refused(10));
    assert_eq!(field(9, 1, 1, 16, 0, 0), "end 1");
}
