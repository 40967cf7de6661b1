//! ASCII and Latin1: checks, prefixes, copies and conversions by rows, those of ASCII also compared with `std`. And
//! conversions into a text, by rows that list what they write and what they clear after it.

use crate::common::rows::{assert_written, fields, named};
use crate::common::text_destinations::{Calls, FROM_LATIN1, FROM_UTF16};
use crate::common::*;
use encoding_text::ascii::*;
use encoding_text::mem::*;
use std::fmt::Debug;

#[test]
fn prefixes() {
    let mut random = Random::new(21);
    for _ in 0..4000 {
        let bytes = random.bytes();
        let place = bytes.iter().position(|b| !b.is_ascii());
        assert_eq!(validate_ascii(&bytes), place.map(|at| (bytes[at], at)));
        assert_eq!(ascii_valid_up_to(&bytes), place.unwrap_or(bytes.len()));
        let escape = bytes
            .iter()
            .position(|b| !b.is_ascii() || matches!(b, 0x0E | 0x0F | 0x1B));
        assert_eq!(iso_2022_jp_ascii_valid_up_to(&bytes), escape.unwrap_or(bytes.len()));
    }
}

#[test]
fn copies() {
    let mut random = Random::new(22);
    for _ in 0..4000 {
        let (bytes, units) = (random.bytes(), random.units());
        let room = random.below(bytes.len() + 20);
        let seen = &bytes[..room.min(bytes.len())];
        let found = seen.iter().position(|b| !b.is_ascii()).map(|at| (bytes[at], at));
        let length = found.map_or(seen.len(), |(_, at)| at);
        let mut dst = bytes_of(&mut random, room);
        assert_eq!(ascii_to_ascii(&bytes, dst.dst()), found);
        assert_eq!(dst.written(length), &bytes[..length]);
        let mut dst = units_of(&mut random, room);
        assert_eq!(ascii_to_basic_latin(&bytes, dst.dst()), found);
        assert!(dst
            .written(length)
            .iter()
            .copied()
            .eq(bytes[..length].iter().map(|b| u16::from(*b))));

        let room = random.below(units.len() + 20);
        let seen = &units[..room.min(units.len())];
        let found = seen.iter().position(|u| *u >= 0x80).map(|at| (units[at], at));
        let length = found.map_or(seen.len(), |(_, at)| at);
        let mut dst = bytes_of(&mut random, room);
        assert_eq!(basic_latin_to_ascii(&units, dst.dst()), found);
        assert!(units[..length]
            .iter()
            .copied()
            .eq(dst.written(length).iter().map(|b| u16::from(*b))));
    }
}

#[test]
fn mask() {
    assert!(ASCII_MASK.to_ne_bytes().iter().all(|b| *b == 0x80));
}

#[test]
fn masks_each_byte() {
    assert_eq!(ASCII_MASK, 0x8080_8080_8080_8080);
}

/// Prefixes end before the first byte from 0x80 on.
#[test]
fn finds_the_ascii_prefix() {
    assert_eq!(ascii_valid_up_to(b""), 0);
    assert_eq!(ascii_valid_up_to(b"ab"), 2);
    assert_eq!(ascii_valid_up_to(&[0x61, 0x80]), 1);
    assert_eq!(ascii_valid_up_to(&[0xFF, 0x61]), 0);
    assert_eq!(validate_ascii(b"ab"), None);
    assert_eq!(validate_ascii(&[0x61, 0x80, 0xFF]), Some((0x80, 1)));
    assert!(is_ascii(b"ab"));
    assert!(!is_ascii(&[0x61, 0x80]));
    assert!(is_basic_latin(&[0x61, 0x7F]));
    assert!(!is_basic_latin(&[0x61, 0xA0]));
}

/// Prefixes of ISO-2022-JP also end before an escape byte and the two shift bytes.
#[test]
fn finds_the_prefix_of_iso_2022_jp() {
    assert_eq!(iso_2022_jp_ascii_valid_up_to(&[0x61, 0x1B, 0x62]), 1);
    assert_eq!(iso_2022_jp_ascii_valid_up_to(&[0x61, 0x62]), 2);
    assert_eq!(iso_2022_jp_ascii_valid_up_to(&[0x0E]), 0);
    assert_eq!(iso_2022_jp_ascii_valid_up_to(&[0x61, 0x0F]), 1);
    assert_eq!(iso_2022_jp_ascii_valid_up_to(&[0x80]), 0);
}

/// Each copy stops at the first unit that isn't ASCII, and the rest is unchanged.
#[test]
fn copies_the_prefix() {
    let mut bytes = [0; 3];
    assert_eq!(copy_ascii_to_ascii(&[0x61, 0x62, 0xE4], &mut bytes), 2);
    assert_eq!(bytes, [0x61, 0x62, 0]);
    let mut units = [0; 3];
    assert_eq!(copy_ascii_to_basic_latin(&[0x61, 0x62, 0xE4], &mut units), 2);
    assert_eq!(units, [0x61, 0x62, 0]);
    let mut narrow = [0; 3];
    assert_eq!(copy_basic_latin_to_ascii(&[0x61, 0x0162, 0x63], &mut narrow), 1);
    assert_eq!(narrow, [0x61, 0, 0]);
}

/// The copies end at the shorter of the two lengths.
#[test]
fn copies_what_there_is_room_for() {
    let mut bytes = [0; 2];
    assert_eq!(ascii_to_ascii(&[0x61, 0x62, 0xE4], &mut bytes), None);
    assert_eq!(bytes, [0x61, 0x62]);
    let mut units = [0; 4];
    assert_eq!(ascii_to_basic_latin(&[0x61, 0x62], &mut units), None);
    assert_eq!(units, [0x61, 0x62, 0, 0]);
    let mut narrow = [0; 3];
    let found = basic_latin_to_ascii(&[0x61, 0x62, 0xAA, 0x63], &mut narrow);
    assert_eq!(found, Some((0xAA, 2)));
    assert_eq!(narrow, [0x61, 0x62, 0]);
}

/// Bytes, and the length of their prefix that is the UTF-8 of Latin1 text; or bytes that are no text, so not Latin1.
const PREFIXES: &str = "\
| 0
61 C3 FF | 1
C3 A4 C4 80 | 2
61 C3 BF | 3
C3 | ill-formed
61 C3 | ill-formed
FF | ill-formed
61 FF | ill-formed
C3 FF | ill-formed
61 C3 FF | ill-formed";

#[test]
fn finds_the_latin1_prefix() {
    let mut count = 0;
    for row in PREFIXES.lines() {
        let (bytes, prefix) = fields(row);
        let bytes: Vec<u8> = named(bytes);
        match prefix.trim() {
            "ill-formed" => assert!(!is_utf8_latin1(&bytes), "{row}"),
            length => assert_eq!(utf8_latin1_up_to(&bytes), length.parse::<usize>().unwrap(), "{row}"),
        }
        count += 1;
    }
    assert_eq!(count, 10);
    assert_eq!(str_latin1_up_to("aäĀ"), 3);
    assert_eq!(str_latin1_up_to("aÿ"), 3);
    assert!(is_str_latin1("aÿ") && !is_str_latin1("aäĀ"));
    assert!(is_utf16_latin1(&[0x61, 0xFF]) && !is_utf16_latin1(&[0x61, 0x0100]));
}

/// Only whole characters are written.
#[test]
fn converts_what_fits() {
    let mut two = [0x00, 0x02];
    let answer = convert_latin1_to_utf8_partial(&[0x61, 0xFF], &mut two);
    assert_eq!((answer, two), ((1, 1), [0x61, 0x02]));
    let mut one = [0x71];
    let answer = convert_latin1_to_utf8_partial(&[0xE4], &mut one);
    assert_eq!((answer, one), ((0, 0), [0x71]));
}

/// The low eight bits of each code unit are written, and nothing after them.
#[test]
fn keeps_the_low_bits_of_units() {
    let mut three = [0x71; 3];
    convert_utf16_to_latin1_lossy(&[0x0100, 0x01E4], &mut three);
    assert_eq!(three, [0x00, 0xE4, 0x71]);
    let mut sixteen = [0x71; 16];
    convert_utf16_to_latin1_lossy(&[0x0100], &mut sixteen);
    assert_written(&[0x00], 0, &sixteen);
}

/// Returns the bytes from 0x00 to 0xFF.
fn latin1() -> [u8; 256] {
    std::array::from_fn(|byte| byte as u8)
}

/// Returns the UTF-8 of U+0000 to U+00FF, by the table of UTF-8.
fn latin1_in_utf8() -> Vec<u8> {
    let two_bytes = |byte: u8| [0xC0 + byte / 64, 0x80 + byte % 64];
    (0x00..0x80).chain((0x80..=0xFF).flat_map(two_bytes)).collect()
}

#[test]
fn converts_each_byte_to_a_unit_and_back() {
    let mut units = [0x71; 256];
    convert_latin1_to_utf16(&latin1(), &mut units);
    assert!(units.iter().copied().eq(0..256), "{units:x?}");
    let mut back = [0x71; 256];
    convert_utf16_to_latin1_lossy(&units, &mut back);
    assert_eq!(back, latin1());
}

#[test]
fn converts_each_byte_to_utf8() {
    let mut text = [0x71; 512];
    assert_eq!(convert_latin1_to_utf8(&latin1(), &mut text), 384);
    assert_written(&latin1_in_utf8(), 0, &text);
}

#[test]
fn converts_each_byte_back() {
    let utf8 = latin1_in_utf8();
    assert!(is_utf8_latin1(&utf8));
    let mut back = [0x71; 384];
    assert_eq!(convert_utf8_to_latin1_lossy(&utf8, &mut back), 256);
    assert_written(&latin1(), 0, &back);
}

/// Asserts how much the calls that stop at the end read and write, and what they leave of the text of these bytes.
fn assert_leaves<S: Debug>(calls: &[Calls<S>], src: &[S], text: &[u8], reported: (usize, usize), wanted: &[u8]) {
    for calls in calls {
        let mut dst = text.to_vec();
        assert_eq!(
            (calls.partial)(src, &mut dst),
            reported,
            "{src:x?} into {text:x?}, {}",
            calls.owner
        );
        assert_eq!(dst, wanted, "{src:x?} into {text:x?}, {}", calls.owner);
    }
}

/// Code units, the bytes of a text before, the numbers read and written, and the bytes of the text after.
type Row = (&'static [u16], &'static [u8], (usize, usize), &'static [u8]);

const UNITS: [Row; 3] = [
    (&[0x61], &[0xC3, 0xA4, 0x62], (1, 1), &[0x61, 0x00, 0x62]),
    (
        &[0x2603],
        &[0xF0, 0x9F, 0x92, 0xA9, 0x62],
        (1, 3),
        &[0xE2, 0x98, 0x83, 0x00, 0x62],
    ),
    (&[], &[0xC3, 0xA4], (0, 0), &[0xC3, 0xA4]),
];

#[test]
fn rows_of_units() {
    for (src, text, reported, wanted) in UNITS {
        assert_leaves(&FROM_UTF16, src, text, reported, wanted);
    }
    for calls in &FROM_UTF16 {
        let mut dst = [0xE2, 0x98, 0x83];
        assert_eq!((calls.whole)(&[0x61], &mut dst), 1, "{}", calls.owner);
        assert_eq!(dst, [0x61, 0x00, 0x00], "{}", calls.owner);
    }
}

/// Sixteen bytes after what is written become zero, or all if there are fewer, and what continues a character there.
#[test]
fn rows_of_latin1() {
    let mut after_two = [0x00; 20];
    after_two[..2].copy_from_slice(&[0xC3, 0xA4]);
    after_two[18..].fill(0x71);
    let mut text = [0x71; 19];
    text[15..18].copy_from_slice(&[0xE2, 0x98, 0x83]);
    let mut after_none = [0x00; 19];
    after_none[18] = 0x71;
    assert_leaves(&FROM_LATIN1, &[0xE4], &[0x71; 20], (1, 2), &after_two);
    assert_leaves(&FROM_LATIN1, &[], &[0x71; 4], (0, 0), &[0x00; 4]);
    assert_leaves(&FROM_LATIN1, &[], &text, (0, 0), &after_none);
}
