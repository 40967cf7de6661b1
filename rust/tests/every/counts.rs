//! Counts of characters, and lengths of repaired text, compared with `std`.

use crate::lengths::{for_each_text, BYTE_EDGES, BYTE_FILLERS, UNIT_EDGES, UNIT_FILLERS};
use encoding_text::{repaired_utf8_length, str_count, utf16_count, utf16_length_from_str, utf8_count};

/// Characters and malformed sequences at each index among others.
#[test]
fn of_bytes() {
    let count = for_each_text(BYTE_FILLERS, BYTE_EDGES, |bytes, _, made_of| {
        let text = String::from_utf8_lossy(bytes);
        assert_eq!(utf8_count(bytes), text.chars().count(), "{made_of}");
        assert_eq!(repaired_utf8_length(bytes), Some(text.len()), "{made_of}");
        assert_eq!(str_count(&text), text.chars().count(), "{made_of}");
        assert_eq!(utf16_length_from_str(&text), text.encode_utf16().count(), "{made_of}");
    });
    assert_eq!(count, 4 * 19);
    assert_eq!((str_count(""), utf16_length_from_str("")), (0, 0));
    assert_eq!((utf8_count(&[]), repaired_utf8_length(&[])), (0, Some(0)));
}

/// Characters and unpaired surrogates at each index among others.
#[test]
fn of_code_units() {
    let count = for_each_text(UNIT_FILLERS, UNIT_EDGES, |units, _, made_of| {
        let characters = char::decode_utf16(units.iter().copied()).count();
        assert_eq!(utf16_count(units), characters, "{made_of}");
    });
    assert_eq!(count, 4 * 11);
    assert_eq!(utf16_count(&[]), 0);
}

/// A first malformed sequence, and random bytes after it: with few valid sequences, and with many.
#[test]
fn of_random_bytes() {
    let mut state = 0x9E37_79B9_7F4A_7C15_u64;
    for length in 0..600 {
        for mask in [0xFF, 0xBF, 0x9F] {
            let mut bytes = vec![0xFF; 1];
            for _ in 0..length {
                state = state
                    .wrapping_mul(6_364_136_223_846_793_005)
                    .wrapping_add(1_442_695_040_888_963_407);
                bytes.push((state >> 56) as u8 & mask);
            }
            let text = String::from_utf8_lossy(&bytes);
            assert_eq!(utf8_count(&bytes), text.chars().count(), "{bytes:x?}");
            assert_eq!(repaired_utf8_length(&bytes), Some(text.len()), "{bytes:x?}");
            assert_eq!(str_count(&text), text.chars().count(), "{bytes:x?}");
            assert_eq!(utf16_length_from_str(&text), text.encode_utf16().count(), "{bytes:x?}");
        }
    }
}

/// Each character by itself, and 200 of it: of one, two, three and four bytes.
#[test]
fn of_each_character() {
    for character in '\0'..=char::MAX {
        let one = character.to_string();
        assert_eq!(str_count(&one), 1, "{one:?}");
        assert_eq!(utf16_length_from_str(&one), character.len_utf16(), "{one:?}");
        if u32::from(character) % 97 == 0 {
            let many = one.repeat(200);
            assert_eq!(str_count(&many), 200, "{one:?}");
            assert_eq!(utf16_length_from_str(&many), 200 * character.len_utf16(), "{one:?}");
        }
    }
}
