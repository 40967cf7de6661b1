//! The conversions with U+FFFD into destinations of any length, compared with `std`, on random and damaged text.

use crate::common::*;
use encoding_text::mem::convert_utf8_to_utf16_partial;
use encoding_text::{repair_slice_partial, repaired_utf8_length};

const ROUNDS: usize = 4000;

/// Returns the characters of the bytes by `std`, each with the number of bytes that it takes, and U+FFFD for each
/// malformed sequence.
fn parts(bytes: &[u8]) -> Vec<(usize, char)> {
    let mut parts = Vec::new();
    let mut rest = bytes;
    while !rest.is_empty() {
        let text = prefix(rest);
        parts.extend(text.chars().map(|c| (c.len_utf8(), c)));
        if let Err(error) = std::str::from_utf8(rest) {
            let malformed = error.error_len().unwrap_or(rest.len() - text.len());
            parts.push((malformed, '\u{FFFD}'));
            rest = &rest[text.len() + malformed..];
        } else {
            rest = &[];
        }
    }
    parts
}

/// Returns the first parts whose output fits: how many there are, and how many bytes they take.
fn fitting(parts: &[(usize, char)], room: usize, length: impl Fn(char) -> usize) -> (usize, usize) {
    let (mut count, mut read, mut written) = (0, 0, 0);
    for (bytes, character) in parts {
        written += length(*character);
        if written > room {
            break;
        }
        count += 1;
        read += bytes;
    }
    (count, read)
}

#[test]
fn to_utf16_into_any_room() {
    let mut random = Random::new(11);
    for _ in 0..ROUNDS {
        let bytes = random.bytes();
        let parts = parts(&bytes);
        let repaired: Vec<u16> = String::from_utf8_lossy(&bytes).encode_utf16().collect();
        assert_eq!(repaired.len(), parts.iter().map(|(_, c)| c.len_utf16()).sum::<usize>());
        for room in [repaired.len(), random.below(repaired.len() + 1)] {
            let (count, read) = fitting(&parts, room, char::len_utf16);
            let text: String = parts[..count].iter().map(|(_, c)| c).collect();
            let units: Vec<u16> = text.encode_utf16().collect();
            let mut dst = units_of(&mut random, room);
            assert_eq!(convert_utf8_to_utf16_partial(&bytes, dst.dst()), (read, units.len()));
            assert_eq!(dst.written(units.len()), units);
            assert_eq!(room == repaired.len(), read == bytes.len());
        }
    }
}

#[test]
fn repairs_into_any_room() {
    let mut random = Random::new(12);
    for _ in 0..ROUNDS {
        let bytes = random.bytes();
        let parts = parts(&bytes);
        let repaired = String::from_utf8_lossy(&bytes);
        assert_eq!(repaired_utf8_length(&bytes), Some(repaired.len()));
        for room in [repaired.len(), random.below(repaired.len() + 1)] {
            let (count, read) = fitting(&parts, room, char::len_utf8);
            let text: String = parts[..count].iter().map(|(_, c)| c).collect();
            let mut at = 0;
            let replaced = parts[..count]
                .iter()
                .filter(|(length, _)| {
                    let source = &bytes[at..at + length];
                    at += length;
                    std::str::from_utf8(source).is_err()
                })
                .count();
            let mut dst = bytes_of(&mut random, room);
            assert_eq!(repair_slice_partial(&bytes, dst.dst()), (read, text.len(), replaced));
            assert_eq!(dst.written(text.len()), text.as_bytes());
            assert_eq!(room == repaired.len(), read == bytes.len());
        }
    }
}
