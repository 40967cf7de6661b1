//! Checks of bytes and texts compared with plain loops: one sequence among others of one kind at each index, over each
//! length, from each of sixteen offsets. And classes of Latin1 and right-to-left text at every length up to 256, with a
//! growing prefix above Latin1.

use crate::common::{class_of, is_right_to_left, prefix};
use encoding_text::mem::*;
use encoding_text::utf_8::utf8_valid_up_to;

/// The length of the array around the texts.
const ARRAY_LENGTH: usize = 232;

/// Returns the length of the longest prefix that is the UTF-8 of scalar values up to U+00FF.
fn latin1_prefix_len(src: &[u8]) -> usize {
    let mut prefix = 0;
    let mut is_open = false;
    for (i, byte) in src.iter().enumerate() {
        match (is_open, *byte) {
            (false, 0..0x80) | (true, 0x80..0xC0) => {
                prefix = i + 1;
                is_open = false;
            }
            (false, 0xC2 | 0xC3) => is_open = true,
            _ => return prefix,
        }
    }
    prefix
}

/// Returns whether the calls on Latin1 prefixes of bytes agree with a plain loop.
fn prefixes_agree(src: &[u8]) -> bool {
    let latin1 = latin1_prefix_len(src);
    utf8_latin1_up_to(src) == latin1 && is_utf8_latin1(src) == (latin1 == src.len())
}

/// Returns whether the calls on UTF-8 agree with `std` and a loop over its characters.
fn texts_agree(src: &[u8]) -> bool {
    match std::str::from_utf8(src) {
        Ok(text) => {
            let latin1 = latin1_prefix_len(src);
            let is_bidi = text.chars().any(is_right_to_left);
            let class = class_of(latin1 == src.len(), is_bidi);
            utf8_valid_up_to(src) == src.len()
                && is_utf8_bidi(src) == is_bidi
                && is_str_bidi(text) == is_bidi
                && str_latin1_up_to(text) == latin1
                && is_str_latin1(text) == (latin1 == src.len())
                && check_utf8_for_latin1_and_bidi(src) == class
                && check_str_for_latin1_and_bidi(text) == class
        }
        Err(fault) => {
            utf8_valid_up_to(src) == fault.valid_up_to()
                && is_utf8_bidi(src)
                && check_utf8_for_latin1_and_bidi(src) == Latin1Bidi::Bidi
        }
    }
}

/// Writes a sequence at an index.
fn put(room: &mut [u8], place: usize, sequence: &[u8]) {
    room[place..place + sequence.len()].copy_from_slice(sequence);
}

/// Returns whether all calls agree, with the sequence at each index of `length` bytes at which a character of `others`
/// starts.
fn agree_at_each_place(room: &[u8; ARRAY_LENGTH], from: usize, length: usize, step: usize, sequence: &[u8]) -> bool {
    (0..length).step_by(step).all(|place| {
        let mut seen = *room;
        put(&mut seen, from + place, sequence);
        let src = &seen[from..from + length];
        prefixes_agree(src) && texts_agree(src)
    })
}

/// Returns whether all calls agree, with the sequence at each index of each length below a bound, in an array that
/// repeats the others from an offset on.
fn agree_over_lengths(from: usize, bound: usize, others: char, sequence: &[u8]) -> bool {
    let mut room = [0; ARRAY_LENGTH];
    for part in room[from..].chunks_mut(others.len_utf8()) {
        let length = part.len();
        part.copy_from_slice(&others.encode_utf8(&mut [0; 4]).as_bytes()[..length]);
    }
    (0..bound).all(|length| agree_at_each_place(&room, from, length, others.len_utf8(), sequence))
}

/// U+0590, and a byte that is never leading, among letters, from each offset on.
#[test]
fn from_each_place_on() {
    for from in 0..16 {
        assert!(agree_over_lengths(from, 131, 'a', &[0xD6, 0x90]), "{from}");
        assert!(agree_over_lengths(from, 131, 'a', &[0x80]), "{from}");
    }
}

/// The ends of ASCII, Latin1 and the right-to-left ranges, and neighbours that share their first byte.
const CHARACTERS: [&str; 21] = [
    "\u{80}",
    "\u{FF}",
    "\u{100}",
    "\u{58F}",
    "\u{7FF}",
    "\u{800}",
    "\u{8FF}",
    "\u{900}",
    "\u{200F}",
    "\u{2014}",
    "\u{2067}",
    "\u{20AC}",
    "\u{D7FF}",
    "\u{FB1C}",
    "\u{FB1D}",
    "\u{FEFE}",
    "\u{FF0C}",
    "\u{10800}",
    "\u{1D400}",
    "\u{1EFFF}",
    "\u{1F000}",
];

#[test]
fn each_character_among_letters() {
    for (i, text) in CHARACTERS.iter().enumerate() {
        assert!(agree_over_lengths(i % 16, 131, 'a', text.as_bytes()), "{text}");
    }
}

#[test]
fn among_longer_characters() {
    for (i, text) in ["\u{E4}", "\u{5D0}", "\u{2014}", "\u{10800}"].iter().enumerate() {
        for others in ['\u{E4}', '\u{436}', '\u{6F22}', '\u{1F600}'] {
            assert!(agree_over_lengths(i % 16, 201, others, text.as_bytes()), "{text}");
        }
    }
    for others in ['\u{E4}', '\u{6F22}', '\u{1F600}'] {
        assert!(agree_over_lengths(5, 201, others, &[0xED, 0xA0]), "{others}");
    }
}

/// Returns whether the calls on UTF-8 agree, with the sequence at an index of a long text that starts with U+00E4.
fn agree_in_long_text(place: usize, sequence: &[u8]) -> bool {
    let mut text = [b'a'; 8300];
    put(&mut text, 0, &[0xC3, 0xA4]);
    put(&mut text, place, sequence);
    texts_agree(&text)
}

/// A text that is validated piece by piece.
#[test]
fn over_the_seam_of_pieces() {
    for place in 4088..4100 {
        for text in ["\u{5D0}", "\u{6F22}", "\u{202B}", "\u{1F600}", "\u{10800}"] {
            assert!(agree_in_long_text(place, text.as_bytes()), "{text}, {place}");
        }
        assert!(agree_in_long_text(place, &[0xE6, 0xBC]), "{place}");
        assert!(agree_in_long_text(place, &[0xFF]), "{place}");
    }
}

/// The length of a text that changes to letters and back.
const LONG: usize = 900;

/// Returns whether the longest prefix ends as with `std`, well-formed and with a malformed byte at each index:
/// characters of two bytes, then `letters` letters from an index on, then such characters again.
fn ends_at_each_break(from: usize, letters: usize) -> bool {
    let mut text = [0xA9; LONG];
    for place in (0..LONG).step_by(2) {
        text[place] = 0xC3;
    }
    text[from..from + letters].fill(0x61);
    utf8_valid_up_to(&text) == LONG
        && (0..LONG).all(|place| {
            let mut seen = text;
            seen[place] = 0xFF;
            utf8_valid_up_to(&seen) == prefix(&seen).len()
        })
}

#[test]
fn letters_among_others_with_each_break() {
    for from in [0, 64, 100] {
        for letters in [254, 320, 574] {
            assert!(ends_at_each_break(from, letters), "{from}, {letters}");
        }
    }
}

/// Asserts that the checks of the code units, of their text and of its bytes find this class.
fn assert_class(units: &[u16], class: Latin1Bidi) {
    let text = String::from_utf16(units).unwrap();
    assert_eq!(check_utf16_for_latin1_and_bidi(units), class, "{units:x?}");
    assert_eq!(check_str_for_latin1_and_bidi(&text), class, "{units:x?}");
    assert_eq!(check_utf8_for_latin1_and_bidi(text.as_bytes()), class, "{units:x?}");
}

/// The units from one on to 0xFF are Latin1, and no more once the first one, two and so on are 0x100, 0x101 and so on.
#[test]
fn classes_at_all_lengths() {
    for start in 0..256 {
        let mut units: Vec<u16> = (start..256).collect();
        assert_class(&units, Latin1Bidi::Latin1);
        for at in 0..units.len() {
            units[at] = 0x100 + at as u16;
            assert_class(&units, Latin1Bidi::LeftToRight);
        }
    }
}
