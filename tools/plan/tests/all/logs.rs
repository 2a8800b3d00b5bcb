//! Laser logs as text.

use peer::laser::ends;
use plan::log::{log, show_log};
use trials::generate::kinds;
use trials::generate::logs::SORTS;

/// The bytes of one reading.
fn reading(word: &str) -> [u8; 4] {
    match log(word).expect(word)[..] {
        [1, a, b, c, d] => [a, b, c, d],
        ref other => panic!("{other:?}"),
    }
}

fn mistake(text: &str) -> (usize, String) {
    let mistake = log(text).expect_err(text);
    (mistake.line, mistake.message)
}

/// One bit of sign, eight of the exponent, 23 of the fraction, the last byte first.
#[test]
fn a_number_is_the_nearest_32_bit_float() {
    for (word, bits) in [
        ("0", 0),
        ("-0", 0x8000_0000u32),
        ("1", 0x3f80_0000),
        ("1.0", 0x3f80_0000),
        ("+1.", 0x3f80_0000),
        (".5", 0x3f00_0000),
        ("-9.125", 0xc112_0000),
        ("0.1", 0x3dcc_cccd),
        ("16777217", 0x4b80_0000),
        ("16777218", 0x4b80_0001),
        ("16777219", 0x4b80_0002),
        ("340282346638528859811704183484516925440", 0x7f7f_ffff),
        ("340282356000000000000000000000000000000", 0x7f7f_ffff),
        ("0.000000000000000000000000000000000000000000001", 1),
        ("-0.0000000000000000000000000000000000000000000001", 0x8000_0000),
    ] {
        assert_eq!(u32::from_le_bytes(reading(word)), bits, "{word}");
    }
}

#[test]
fn words_lines_and_comments() {
    let log = |text: &str| log(text).expect("a text");
    assert_eq!(log("missing"), [0; 5]);
    assert_eq!(log(""), []);
    assert_eq!(log("# nothing\n\n  # at all"), []);
    assert_eq!(log("raw:00"), [0]);
    assert_eq!(log("raw:01fFa0"), [1, 255, 160]);
    let whole = [log("1"), log("missing"), log("raw:0102"), log("-2.5")].concat();
    for text in
        ["1 missing raw:0102 -2.5", "1\nmissing # 7\n\n\traw:0102#8\n-2.5\n", "\u{feff}1\r\nmissing raw:0102\r\n-2.5"]
    {
        assert_eq!(log(text), whole, "{text:?}");
    }
    assert_eq!(log("raw:01 raw:0000 raw:803f"), log("1"), "bytes may stand in several words");
}

#[test]
fn mistakes_with_their_line() {
    let too_large = "340282366920938463463374607431768211456";
    for (text, line, message) in [
        ("mising", 1, "'mising' is not a number, nor 'missing', nor 'raw:' with bytes"),
        ("1 2\nMissing", 2, "'Missing' is not a number, nor 'missing', nor 'raw:' with bytes"),
        ("nan", 1, "'nan' is not a number, nor 'missing', nor 'raw:' with bytes"),
        ("inf", 1, "'inf' is not a number, nor 'missing', nor 'raw:' with bytes"),
        ("-inf", 1, "'-inf' is not a number"),
        (
            "1\n\n# 3\n0,5",
            4,
            "'0,5' is not a number: the decimal mark is '.', and nothing stands between digits or after a number",
        ),
        ("1e3", 1, "'1e3' is not a number: it is written out, as 0.001"),
        ("5mm", 1, "'5mm' is not a number: no unit stands after a number"),
        ("1/2", 1, "'1/2' is not a number: a reading is a decimal number and no fraction"),
        ("1.2.3", 1, "'1.2.3' is not a number"),
        ("-", 1, "'-' is not a number"),
        (".", 1, "'.' is not a number"),
        ("--1", 1, "'--1' is not a number"),
        ("raw:", 1, "'raw:' has to have two hexadecimal digits for each byte after 'raw:'"),
        ("raw:1", 1, "'raw:1' has to have two hexadecimal digits for each byte after 'raw:'"),
        ("raw:012", 1, "'raw:012' has to have two hexadecimal digits for each byte after 'raw:'"),
        ("raw:0g", 1, "'raw:0g' has to have two hexadecimal digits for each byte after 'raw:'"),
        ("raw: 01", 1, "'raw:' has to have two hexadecimal digits for each byte after 'raw:'"),
    ] {
        assert_eq!(mistake(text), (line, message.to_string()), "{text}");
    }
    for sign in ["", "-"] {
        let word = format!("{sign}{too_large}");
        assert_eq!(mistake(&word), (1, format!("{word} is larger than any 32-bit float")));
        // Halfway from the largest to 2^128, from where on it is the nearer of the two.
        assert!(log(&format!("{sign}340282356779733661637539395458142568448")).is_err());
        assert!(log(&format!("{sign}340282356779733661637539395458142568447")).is_ok());
    }
    assert!(log(&"9".repeat(10_000)).is_err());
    assert_eq!(reading(&format!("0.{}1", "0".repeat(10_000))), [0; 4]);
}

#[test]
fn a_log_shown() {
    let bytes = [
        &[1, 0, 0, 0, 0x80][..],
        &[0; 5],
        &[0, 0, 0, 0, 1],
        &[1, 0xcd, 0xcc, 0xcc, 0x3d],
        &[1, 0, 0, 0x80, 0x7f],
        &[1, 1, 0, 0x80, 0xff],
        &[2, 0, 0, 0, 0],
        &[1, 0, 0],
    ];
    let text = "-0  # byte 0\nmissing  # byte 5\nraw:0000000001  # byte 10: missing\n0.1  # byte 15\n\
                raw:010000807f  # byte 20: not an entry\nraw:01010080ff  # byte 25: not an entry\n\
                raw:0200000000  # byte 30: not an entry\nraw:010000  # byte 35: not an entry\n";
    assert_eq!(show_log(&bytes.concat()), text);
    assert_eq!(log(text).expect("a text"), bytes.concat());
    assert_eq!(show_log(&[]), "");
}

/// Logs of every sort, and run files, which are none.
#[test]
fn any_bytes_come_back_from_their_text() {
    let mut raw = 0;
    for kind in kinds().filter(|kind| !kind.long) {
        for seed in 0..4 {
            let ends = ends(&kind.file(seed));
            for sort in &SORTS {
                let bytes = sort.log(&ends, seed);
                let text = show_log(&bytes);
                assert_eq!(log(&text).expect("a text"), bytes, "{} {seed} {}", kind.name, sort.name);
                assert!(!text.contains("not an entry") || sort.wrong, "{} {seed} {}", kind.name, sort.name);
                raw += usize::from(text.contains("raw:"));
            }
            let bytes = kind.file(seed);
            assert_eq!(log(&show_log(&bytes)).expect("a text"), bytes, "{} {seed}", kind.name);
        }
    }
    assert!(raw > 500, "{raw}");
}
