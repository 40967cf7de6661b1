//! Slices of every length at every alignment, with another unit at every index: scans and copies of ASCII, Latin1 to
//! UTF-16 and back, and the end of the well-formed prefix.

use encoding_text::ascii::*;
use encoding_text::mem::*;
use encoding_text::utf_8::utf8_valid_up_to;

/// The longest slice. It is between units that no call may read or write, at least 15 on either side.
const LONGEST: usize = 130;

/// The length of the array around a slice.
const ARRAY_LENGTH: usize = 160;

/// Returns the element at an index of the slice, from 0x20 to 0x5F.
fn letter(place: usize) -> u8 {
    0x20 + (place & 0x3F) as u8
}

/// Returns a slice of letters at a start, with one other unit, and such units around it.
fn with_other<T: Copy + From<u8>>(start: usize, length: usize, place: usize, other: T, around: T) -> [T; ARRAY_LENGTH] {
    let mut units = [around; ARRAY_LENGTH];
    for (at, unit) in units[start..start + length].iter_mut().enumerate() {
        *unit = if at == place { other } else { letter(at).into() };
    }
    units
}

/// Returns `count` letters at a start, and 0x71 everywhere else.
fn letters<T: Copy + From<u8>>(start: usize, count: usize) -> [T; ARRAY_LENGTH] {
    with_other(start, count, ARRAY_LENGTH, 0x71.into(), 0x71.into())
}

/// Returns whether the scans and copies of bytes stop at the other byte.
fn bytes_stop(start: usize, length: usize, other: usize) -> bool {
    let slice = start..start + length;
    let bytes = with_other(start, length, other, 0xAA, 0xC3);
    let src = &bytes[slice.clone()];
    let found = (other < length).then_some((0xAA, other));
    let mut narrow = [0x71; ARRAY_LENGTH];
    let copied = ascii_to_ascii(src, &mut narrow[slice.clone()]);
    let mut wide = [0x71; ARRAY_LENGTH];
    let widened = ascii_to_basic_latin(src, &mut wide[slice.clone()]);
    let mut also = [0x71; ARRAY_LENGTH];
    let mut also_wide = [0x71; ARRAY_LENGTH];
    let prefix = other.min(length);
    copy_ascii_to_ascii(src, &mut also[slice.clone()]) == prefix
        && copy_ascii_to_basic_latin(src, &mut also_wide[slice.clone()]) == prefix
        && also == narrow
        && also_wide == wide
        && validate_ascii(src) == found
        && ascii_valid_up_to(src) == prefix
        && is_ascii(src) == (other >= length)
        && copied == found
        && widened == found
        && narrow == letters::<u8>(start, prefix)
        && wide == letters::<u16>(start, prefix)
}

/// Bytes that end a prefix of ISO-2022-JP.
const ENDS: [u8; 4] = [0x0E, 0x0F, 0x1B, 0x80];

/// Returns whether a prefix of ISO-2022-JP stops at such a byte. Each of them is put at each index.
fn iso_2022_jp_stops(start: usize, length: usize, other: usize) -> bool {
    let bytes = with_other(start, length, other, ENDS[start & 3], 0xC3);
    iso_2022_jp_ascii_valid_up_to(&bytes[start..start + length]) == other.min(length)
}

/// Returns whether the scans and the copy of code units stop at the other one.
fn units_stop(start: usize, length: usize, other: usize) -> bool {
    let slice = start..start + length;
    let units = with_other(start, length, other, 0xAA, 0xDC00);
    let above = with_other(start, length, other, 0x100, 0xDC00);
    let single = with_other(start, length, other, 0xD83D, 0xDC00);
    let src = &units[slice.clone()];
    let found = (other < length).then_some((0xAA, other));
    let mut bytes = [0x71; ARRAY_LENGTH];
    let mut also = [0x71; ARRAY_LENGTH];
    let prefix = other.min(length);
    basic_latin_to_ascii(src, &mut bytes[slice.clone()]) == found
        && copy_basic_latin_to_ascii(src, &mut also[slice.clone()]) == prefix
        && also == bytes
        && is_basic_latin(src) == (other >= length)
        && is_utf16_latin1(src)
        && is_utf16_latin1(&above[slice.clone()]) == (other >= length)
        && utf16_valid_up_to(&single[slice]) == prefix
        && bytes == letters::<u8>(start, prefix)
}

/// Returns whether Latin1 to UTF-16 and back yields the same bytes, and the rest of each destination is unchanged.
fn latin1_comes_back(start: usize, length: usize, other: usize) -> bool {
    let slice = start..start + length;
    let bytes = with_other(start, length, other, 0xAA, 0xC3);
    let mut units = [0xDC00; ARRAY_LENGTH];
    convert_latin1_to_utf16(&bytes[slice.clone()], &mut units[slice.clone()]);
    let mut back = [0xC3; ARRAY_LENGTH];
    convert_utf16_to_latin1_lossy(&units[slice.clone()], &mut back[slice]);
    units == with_other::<u16>(start, length, other, 0xAA, 0xDC00) && back == bytes
}

#[test]
fn each_length_alignment_and_place() {
    for length in 0..=LONGEST {
        for start in 0..16 {
            for other in 0..=length {
                let holds = bytes_stop(start, length, other)
                    && iso_2022_jp_stops(start, length, other)
                    && units_stop(start, length, other)
                    && latin1_comes_back(start, length, other);
                assert!(holds, "{start}, {length}, {other}");
            }
        }
    }
}

/// Lengths around those that checks and scans cover with one test.
const LONG: [usize; 9] = [255, 256, 257, 511, 512, 513, 1023, 1024, 1025];

/// Returns whether the check and the scan of `length` letters, between bytes that are not ASCII, stop at the other
/// byte.
fn long_letters_stop(length: usize, other: usize) -> bool {
    let mut bytes = [0xC3; 1040];
    for (at, byte) in bytes.iter_mut().enumerate().skip(1).take(length) {
        *byte = if at - 1 == other { 0xAA } else { letter(at) };
    }
    let src = &bytes[1..=length];
    is_ascii(src) == (other >= length) && ascii_valid_up_to(src) == other.min(length)
}

#[test]
fn each_place_of_long_letters() {
    for length in LONG {
        for other in 0..=length {
            assert!(long_letters_stop(length, other), "{length}, {other}");
        }
    }
}

/// A character of each length.
const CHARACTERS: [&[u8]; 4] = [&[0x61], &[0xC3, 0xA4], &[0xE2, 0x98, 0x83], &[0xF0, 0x9F, 0x92, 0xA9]];

/// Returns whether `letters` letters, then such characters, are valid up to the malformed byte.
fn is_valid_up_to_break(letters: usize, character: &[u8], length: usize, malformed: usize) -> bool {
    let mut text = [0; ARRAY_LENGTH];
    for (place, byte) in text.iter_mut().enumerate() {
        *byte = match place.checked_sub(letters) {
            _ if place == malformed => 0xFF,
            None => 0x61,
            Some(following) if place < length => character[following % character.len()],
            Some(_) => 0xC3,
        };
    }
    let end = malformed.min(length);
    let left = end.saturating_sub(letters) % character.len();
    utf8_valid_up_to(&text[..length]) == end - left
}

#[test]
fn each_length_of_text_and_break() {
    for length in 0..=LONGEST {
        for letters in 0..20 {
            for malformed in 0..=length {
                for character in CHARACTERS {
                    let holds = is_valid_up_to_break(letters, character, length, malformed);
                    assert!(holds, "{length}, {letters}, {malformed}, {character:x?}");
                }
            }
        }
    }
}

/// The units from one on to 0x7F are ASCII, and no more once the first one, two and so on are 0xA0.
#[test]
fn each_end_of_ascii() {
    for start in 0..0x80 {
        for end in start..=0x80 {
            let units: Vec<u16> = (start..0x80).map(|unit| if unit < end { 0xA0 } else { unit }).collect();
            let bytes: Vec<u8> = units.iter().map(|unit| *unit as u8).collect();
            assert_eq!(is_ascii(&bytes), end == start, "{start}, {end}");
            assert_eq!(is_basic_latin(&units), end == start, "{start}, {end}");
        }
    }
}

/// The units from one on to 0xFF are Latin1, and no more once the first ones are 0x100, 0x101 and so on: as units, as a
/// text and as its bytes.
#[test]
fn each_end_of_latin1() {
    for start in 0..0x100 {
        for end in start..=0x100 {
            let other = |unit| 0x100 | (unit - start + 0x100) & 0x1FF;
            let units: Vec<u16> = (start..0x100)
                .map(|unit| if unit < end { other(unit) } else { unit })
                .collect();
            let text = String::from_utf16(&units).unwrap();
            let prefix = if end == start { text.len() } else { 0 };
            let seen = (
                is_utf16_latin1(&units),
                is_str_latin1(&text),
                is_utf8_latin1(text.as_bytes()),
            );
            assert_eq!(seen, (end == start, end == start, end == start), "{start}, {end}");
            assert_eq!(str_latin1_up_to(&text), prefix, "{start}, {end}");
            assert_eq!(utf8_latin1_up_to(text.as_bytes()), prefix, "{start}, {end}");
        }
    }
}
