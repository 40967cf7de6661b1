//! Right-to-left characters, code units and texts, and the checks for Latin1 before them, compared with rows and with
//! the ranges listed in `common`. And unpaired surrogates in UTF-16, by rows: how many code units are valid, and their
//! repair in place.

use crate::common::*;
use encoding_text::mem::*;

fn check(bytes: &[u8]) {
    let text = prefix(bytes);
    let is_bidi = text.chars().any(is_right_to_left);
    let is_latin1 = text.chars().all(|c| c <= '\u{FF}');
    let is_text = text.len() == bytes.len();
    assert_eq!(is_str_bidi(text), is_bidi, "{text:?}");
    assert_eq!(
        check_str_for_latin1_and_bidi(text),
        class_of(is_latin1, is_bidi),
        "{text:?}"
    );
    assert_eq!(is_utf8_bidi(bytes), !is_text || is_bidi, "{bytes:x?}");
    assert_eq!(
        check_utf8_for_latin1_and_bidi(bytes),
        class_of(is_text && is_latin1, !is_text || is_bidi),
        "{bytes:x?}"
    );
}

fn check_units(units: &[u16]) {
    let is_bidi = char::decode_utf16(units.iter().copied()).any(|it| match it {
        Ok(c) => is_right_to_left(c),
        Err(unpaired) => is_unit_right_to_left(unpaired.unpaired_surrogate()),
    });
    let is_latin1 = units.iter().all(|u| *u < 0x100);
    assert_eq!(is_utf16_bidi(units), is_bidi, "{units:x?}");
    assert_eq!(
        check_utf16_for_latin1_and_bidi(units),
        class_of(is_latin1, is_bidi),
        "{units:x?}"
    );
}

#[test]
fn every_character() {
    for c in '\0'..=char::MAX {
        assert_eq!(is_char_bidi(c), is_right_to_left(c), "{c:?}");
        let text = [' ', c, 'é'].iter().collect::<String>();
        check(text.as_bytes());
        check_units(&text.encode_utf16().collect::<Vec<u16>>());
    }
}

/// Each character by itself, with all checks: no low surrogate counts as right-to-left.
#[test]
fn every_character_separately() {
    for c in '\0'..=char::MAX {
        let text = c.to_string();
        let units: Vec<u16> = text.encode_utf16().collect();
        let is_bidi = is_right_to_left(c);
        assert_eq!(
            (is_str_bidi(&text), is_utf8_bidi(text.as_bytes())),
            (is_bidi, is_bidi),
            "{c:?}"
        );
        assert_eq!(
            (is_utf16_bidi(&units), is_utf16_code_unit_bidi(units[0])),
            (is_bidi, is_bidi),
            "{c:?}"
        );
        assert!(units[1..].iter().all(|unit| !is_utf16_code_unit_bidi(*unit)), "{c:?}");
    }
}

/// Code units at the ends of the ranges and of the surrogates, and a letter.
const ENDS: [u16; 39] = [
    0x0061, 0x058F, 0x0590, 0x08FF, 0x0900, 0x200E, 0x200F, 0x2010, 0x202A, 0x202B, 0x202C, 0x202D, 0x202E, 0x202F,
    0x2066, 0x2067, 0x2068, 0xD7FF, 0xD800, 0xD801, 0xD802, 0xD803, 0xD804, 0xD839, 0xD83A, 0xD83B, 0xD83C, 0xDBFF,
    0xDC00, 0xDFFF, 0xE000, 0xFB1C, 0xFB1D, 0xFDFF, 0xFE00, 0xFE6F, 0xFE70, 0xFEFE, 0xFEFF,
];

/// Returns whether two code units are valid, right-to-left and repaired as their parts are.
#[test]
fn every_two_ends() {
    for a in ENDS {
        for b in ENDS {
            let mut units = [a, b];
            check_units(&units);
            let repaired: Vec<u16> = String::from_utf16_lossy(&units).encode_utf16().collect();
            let prefix = units
                .iter()
                .zip(&repaired)
                .position(|(unit, repaired)| unit != repaired)
                .unwrap_or(2);
            assert_eq!(utf16_valid_up_to(&units), prefix, "{units:x?}");
            ensure_utf16_validity(&mut units);
            assert_eq!(units[..], repaired, "{a:x}, {b:x}");
        }
    }
}

#[test]
fn every_unit() {
    for u in 0..=u16::MAX {
        assert_eq!(is_utf16_code_unit_bidi(u), is_unit_right_to_left(u), "{u:x}");
        check_units(&[u]);
    }
}

#[test]
fn random_text() {
    let mut random = Random::new(11);
    for _ in 0..4000 {
        check(&random.bytes());
        check_units(&random.units());
    }
}

const RIGHT_TO_LEFT: [char; 15] = [
    '\u{590}',
    '\u{61C}',
    '\u{8FF}',
    '\u{200F}',
    '\u{202B}',
    '\u{202E}',
    '\u{2067}',
    '\u{FB50}',
    '\u{FDFF}',
    '\u{FE70}',
    '\u{FEFE}',
    '\u{10800}',
    '\u{10FFF}',
    '\u{1E800}',
    '\u{1EFFF}',
];

const LEFT_TO_RIGHT: [char; 7] = [
    '\u{61}',
    '\u{3B1}',
    '\u{3041}',
    '\u{1F4A9}',
    '\u{FE00}',
    '\u{202C}',
    '\u{FEFF}',
];

/// How many letters are on either side of a character.
const LETTERS: [usize; 8] = [0, 1, 7, 8, 15, 16, 17, 33];

/// Returns the text of the characters with this many letters on either side.
fn between_letters(letters: usize, characters: &str) -> String {
    let letters = "a".repeat(letters);
    format!("{letters}{characters}{letters}")
}

/// Asserts the result of all checks of the text.
fn assert_text(text: &str, is_bidi: bool, class: Latin1Bidi) {
    let bytes = text.as_bytes();
    let units: Vec<u16> = text.encode_utf16().collect();
    assert_eq!(is_str_bidi(text), is_bidi, "{text:?}");
    assert_eq!(is_utf8_bidi(bytes), is_bidi, "{text:?}");
    assert_eq!(is_utf16_bidi(&units), is_bidi, "{text:?}");
    assert_eq!(check_str_for_latin1_and_bidi(text), class, "{text:?}");
    assert_eq!(check_utf8_for_latin1_and_bidi(bytes), class, "{text:?}");
    assert_eq!(check_utf16_for_latin1_and_bidi(&units), class, "{text:?}");
}

/// Asserts the result of the checks of the character, and of texts that have it between letters.
fn assert_character(c: char, is_bidi: bool) {
    assert_eq!(is_char_bidi(c), is_bidi, "{c:?}");
    let class = class_of(c <= '\u{FF}', is_bidi);
    for letters in LETTERS {
        let text = between_letters(letters, c.encode_utf8(&mut [0; 4]));
        assert_text(&text, is_bidi, class);
    }
}

#[test]
fn characters_between_letters() {
    for c in RIGHT_TO_LEFT {
        assert_character(c, true);
    }
    for c in LEFT_TO_RIGHT {
        assert_character(c, false);
    }
}

/// Code units that are right-to-left characters, or high surrogates that may start one.
const RIGHT_TO_LEFT_UNITS: [u16; 16] = [
    0x0590, 0x061C, 0x08FF, 0x200F, 0x202B, 0x202E, 0x2067, 0xFB50, 0xFDFF, 0xFE70, 0xFEFE, 0xFB1D, 0xD802, 0xD803,
    0xD83A, 0xD83B,
];

const LEFT_TO_RIGHT_UNITS: [u16; 8] = [0x0061, 0x03B1, 0x3041, 0xFE00, 0x202C, 0xFEFF, 0x0062, 0xD801];

/// Asserts the result of the checks of the code unit, and of code units that have it among letters.
fn assert_unit(unit: u16, is_bidi: bool) {
    for at in 0..41 {
        let mut units = [0x61; 41];
        units[at] = unit;
        assert_eq!(is_utf16_bidi(&units), is_bidi, "{unit:x} at {at}");
        assert_eq!(is_utf16_bidi(&units[at..]), is_bidi, "{unit:x} from {at} on");
    }
    assert_eq!(is_utf16_code_unit_bidi(unit), is_bidi, "{unit:x}");
}

#[test]
fn units_between_letters() {
    for unit in RIGHT_TO_LEFT_UNITS {
        assert_unit(unit, true);
    }
    for unit in LEFT_TO_RIGHT_UNITS {
        assert_unit(unit, false);
    }
}

#[test]
fn one_of_several() {
    for letters in 0..40 {
        let text = between_letters(letters, "\u{590}\u{3041}");
        assert_text(&text, true, Latin1Bidi::Bidi);
    }
}

/// A high surrogate decides for its pair, and also if it is unpaired.
const HALVES: [(&[u16], bool); 4] = [
    (&[0xD802, 0xDC00], true),
    (&[0xD801, 0xDC00], false),
    (&[0xD802], true),
    (&[0xD801], false),
];

#[test]
fn halves_of_pairs() {
    for (units, is_bidi) in HALVES {
        assert_eq!(is_utf16_bidi(units), is_bidi, "{units:x?}");
    }
}

const ILL_FORMED: [[u8; 2]; 5] = [[0xC3, 0x61], [0x61, 0xC3], [0xED, 0xA0], [0x80, 0x61], [0x61, 0xFF]];

/// Bytes that aren't well-formed count as right-to-left, and so not as Latin1.
#[test]
fn ill_formed_bytes_are_right_to_left() {
    for bytes in ILL_FORMED {
        assert!(is_utf8_bidi(&bytes), "{bytes:x?}");
        assert_eq!(check_utf8_for_latin1_and_bidi(&bytes), Latin1Bidi::Bidi, "{bytes:x?}");
    }
    assert!(!is_utf8_bidi(&[]));
}

const CLASSES_OF_BYTES: [(&[u8], Latin1Bidi); 5] = [
    (&[0xC3], Latin1Bidi::Bidi),
    (&[0xC4, 0x80], Latin1Bidi::LeftToRight),
    (&[0xC3, 0xBF], Latin1Bidi::Latin1),
    (&[0xE2, 0x80, 0x8F], Latin1Bidi::Bidi),
    (&[], Latin1Bidi::Latin1),
];

const CLASSES_OF_UNITS: [(u16, Latin1Bidi); 4] = [
    (0x00FF, Latin1Bidi::Latin1),
    (0x0100, Latin1Bidi::LeftToRight),
    (0x05D0, Latin1Bidi::Bidi),
    (0xD800, Latin1Bidi::LeftToRight),
];

#[test]
fn classes() {
    for (bytes, class) in CLASSES_OF_BYTES {
        assert_eq!(check_utf8_for_latin1_and_bidi(bytes), class, "{bytes:x?}");
    }
    for (unit, class) in CLASSES_OF_UNITS {
        assert_eq!(check_utf16_for_latin1_and_bidi(&[unit]), class, "{unit:x}");
    }
}

/// Code units, and how many of them are valid.
const PREFIXES: [([u16; 16], usize); 4] = [
    ([0, 0, 0, 0, 0, 0, 0, 0, 0, 0, 0, 0, 0x2603, 0xD83D, 0xDCA9, 0x00B6], 16),
    ([0, 0, 0, 0, 0, 0, 0, 0, 0, 0, 0, 0, 0, 0x2603, 0xD83D, 0x00B6], 14),
    ([0, 0, 0, 0, 0, 0, 0, 0, 0, 0, 0, 0, 0, 0x2603, 0xDCA9, 0x00B6], 14),
    ([0, 0, 0, 0, 0, 0, 0, 0, 0, 0, 0, 0, 0, 0x2603, 0x00B6, 0xD83D], 15),
];

#[test]
fn finds_the_first_unpaired_surrogate() {
    for (units, valid) in PREFIXES {
        assert_eq!(utf16_valid_up_to(&units), valid, "{units:x?}");
    }
    assert_eq!(utf16_valid_up_to(&[]), 0);
}

/// Unpaired surrogates at indices 1 and 13, and a pair at 5.
#[test]
fn repairs_each_at_its_place() {
    let mut units = [0; 31];
    units[1] = 0xD83D;
    units[5] = 0xD83D;
    units[6] = 0xDCA9;
    units[13] = 0xDCA9;
    let mut wanted = units;
    wanted[1] = 0xFFFD;
    wanted[13] = 0xFFFD;
    ensure_utf16_validity(&mut units);
    assert_eq!(units, wanted);
}

/// Code units, and their repair.
const REPAIRS: [(&[u16], &[u16]); 3] = [
    (&[0xD83D, 0xD83D, 0xDCA9], &[0xFFFD, 0xD83D, 0xDCA9]),
    (&[0xDCA9, 0xD83D, 0x0061], &[0xFFFD, 0xFFFD, 0x0061]),
    (&[0xDCA9, 0xD83D], &[0xFFFD, 0xFFFD]),
];

#[test]
fn repairs_what_stands_in_no_pair() {
    for (units, wanted) in REPAIRS {
        let mut repaired = units.to_vec();
        ensure_utf16_validity(&mut repaired);
        assert_eq!(repaired, wanted, "{units:x?}");
    }
}
