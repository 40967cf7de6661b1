//! Calls on long buffers: into a destination that is just long enough, and into one that is an element shorter. And the
//! checks, lengths and counts of long texts.

use crate::common::long_texts::{assert_fills, assert_needs, long_texts, LongText, COUNT};
use encoding_text::ascii::*;
use encoding_text::mem::*;
use encoding_text::utf_16::{decode_utf16_bytes, encode_utf16_bytes, ByteOrder};
use encoding_text::utf_8::*;
use encoding_text::{
    next_malformation, next_malformed, repair_slice_partial, repaired_utf8_length, str_count, utf16_count,
    utf16_length_from_str, utf8_count, Malformation,
};
use std::str::{from_utf8, from_utf8_mut};

/// The destination as the text that it is.
fn text_of(dst: &mut [u8]) -> &mut str {
    from_utf8_mut(dst).unwrap()
}

#[test]
fn ascii() {
    let text = &long_texts()[0];
    let (utf8, utf16) = (text.utf8.as_bytes(), &text.utf16);
    // all is copied, as far as it fits, so no element ends the prefix
    assert_fills(utf8, (1, 1), |dst| {
        assert_eq!(ascii_to_ascii(utf8, dst), None);
        (dst.len(), dst.len())
    });
    assert_fills(utf16, (1, 1), |dst| {
        assert_eq!(ascii_to_basic_latin(utf8, dst), None);
        (dst.len(), dst.len())
    });
    assert_fills(utf8, (1, 1), |dst| {
        assert_eq!(basic_latin_to_ascii(utf16, dst), None);
        (dst.len(), dst.len())
    });
    assert_needs(utf8, COUNT, |dst| copy_ascii_to_ascii(utf8, dst));
    assert_needs(utf16, COUNT, |dst| copy_ascii_to_basic_latin(utf8, dst));
    assert_needs(utf8, COUNT, |dst| copy_basic_latin_to_ascii(utf16, dst));
}

#[test]
fn latin1() {
    for text in long_texts() {
        let Some(latin1) = text.latin1() else {
            continue;
        };
        let (utf8, utf16) = (text.utf8.as_bytes(), &text.utf16);
        assert_needs(utf16, COUNT, |dst| {
            convert_latin1_to_utf16(&latin1, dst);
            COUNT
        });
        assert_needs(&latin1, COUNT, |dst| {
            convert_utf16_to_latin1_lossy(utf16, dst);
            COUNT
        });
        assert_needs(&latin1, utf8.len(), |dst| convert_utf8_to_latin1_lossy(utf8, dst));
        assert_needs(utf8, 2 * COUNT, |dst| convert_latin1_to_utf8(&latin1, dst));
        assert_fills(utf8, (1, text.bytes), |dst| {
            convert_latin1_to_utf8_partial(&latin1, dst)
        });
    }
}

/// The two conversions of Latin1 into a text, which clear the next sixteen bytes.
#[test]
fn latin1_into_texts() {
    for text in &long_texts()[..2] {
        let (latin1, length) = (text.latin1().unwrap(), text.utf8.len());
        let mut dst = "Q".repeat(2 * COUNT);
        assert_eq!(convert_latin1_to_str(&latin1, &mut dst), length);
        assert!(dst[..length] == text.utf8);
        assert!(dst[length..].bytes().take(16).all(|byte| byte == 0));
        let mut short = "Q".repeat(2 * COUNT - 1);
        assert!(std::panic::catch_unwind(move || convert_latin1_to_str(&latin1, &mut short)).is_err());
        let latin1 = text.latin1().unwrap();
        for missing in [0, 1] {
            let mut dst = "Q".repeat(length - missing);
            let done = convert_latin1_to_str_partial(&latin1, &mut dst);
            assert_eq!(done, (COUNT - missing, (COUNT - missing) * text.bytes));
            assert!(dst[..done.1] == text.utf8[..done.1]);
        }
    }
}

#[test]
fn to_utf16() {
    for text in long_texts() {
        let (utf8, utf16, of_one) = (text.utf8.as_bytes(), &text.utf16, (text.bytes, text.units));
        assert_needs(utf16, utf8.len() + 1, |dst| convert_utf8_to_utf16(utf8, dst));
        assert_needs(utf16, utf8.len(), |dst| convert_str_to_utf16(&text.utf8, dst));
        assert_needs(utf16, utf8.len(), |dst| {
            convert_utf8_to_utf16_without_replacement(utf8, dst).unwrap()
        });
        assert_fills(utf16, of_one, |dst| convert_utf8_to_utf16_partial(utf8, dst));
        assert_fills(utf16, of_one, |dst| convert_utf8_to_utf16_up_to_invalid(utf8, dst));
    }
}

/// The result of a call that also counts what it replaces: nothing, in these texts.
fn uncounted((read, written, replaced): (usize, usize, usize)) -> (usize, usize) {
    assert_eq!(replaced, 0);
    (read, written)
}

#[test]
fn from_utf16() {
    for text in long_texts() {
        let (utf8, utf16, of_one) = (text.utf8.as_bytes(), &text.utf16, (text.units, text.bytes));
        let most = 3 * utf16.len();
        assert_needs(utf8, most, |dst| convert_utf16_to_utf8(utf16, dst));
        assert_needs(utf8, most, |dst| convert_utf16_to_str(utf16, text_of(dst)));
        assert_fills(utf8, of_one, |dst| convert_utf16_to_utf8_partial(utf16, dst));
        assert_fills(utf8, of_one, |dst| convert_utf16_to_str_partial(utf16, text_of(dst)));
        assert_fills(utf8, of_one, |dst| {
            uncounted(convert_utf16_to_utf8_partial_with_count(utf16, dst))
        });
        assert_fills(utf8, of_one, |dst| {
            uncounted(convert_utf16_to_str_partial_with_count(utf16, text_of(dst)))
        });
    }
}

/// One part of the conversion leaves at most three bytes free, and the other one fills at most three.
#[test]
fn parts_from_utf16() {
    for text in long_texts() {
        let (length, utf16) = (text.utf8.len(), &text.utf16);
        for room in [length - 1, length, length + 3] {
            let mut dst = vec![0; room];
            let (read, written) = convert_utf16_to_utf8_partial_inner(utf16, &mut dst);
            assert!(read == utf16.len() || room - written <= 3);
            assert_eq!(written, read / text.units * text.bytes);
            assert!(dst[..written] == text.utf8.as_bytes()[..written]);
        }
        for room in [2, 3] {
            let mut dst = vec![0; room];
            let whole = room / text.bytes;
            let done = convert_utf16_to_utf8_partial_tail(utf16, &mut dst);
            assert_eq!(done, (whole * text.units, whole * text.bytes));
        }
        let result = std::panic::catch_unwind(|| convert_utf16_to_utf8_partial_tail(utf16, &mut [0; 4]));
        assert!(result.is_err());
    }
}

/// Code units are cut anywhere, so each is a character here.
#[test]
fn bytes_of_utf_16() {
    for text in long_texts() {
        for (order, is_big) in [(ByteOrder::LittleEndian, false), (ByteOrder::BigEndian, true)] {
            let (bytes, units) = (text.bytes_of_units(is_big), &text.utf16);
            for missing in [0, 1] {
                let whole = units.len() - missing;
                let mut dst = vec![0; whole];
                assert_eq!(decode_utf16_bytes(order, &bytes, &mut dst), (2 * whole, whole));
                assert!(dst == units[..whole]);
                let mut dst = vec![0; bytes.len() - missing];
                assert_eq!(encode_utf16_bytes(order, units, &mut dst), (whole, 2 * whole));
                assert!(dst[..2 * whole] == bytes[..2 * whole]);
            }
        }
    }
}

/// A repair of malformed bytes, and of texts.
#[test]
fn repairs() {
    let replaced = "\u{FFFD}".repeat(COUNT);
    let mut count = 0;
    assert_fills(replaced.as_bytes(), (1, 3), |dst| {
        let (read, written, replaced) = repair_slice_partial(&[0xFF; COUNT], dst);
        count += replaced;
        (read, written)
    });
    assert_eq!(count, 2 * COUNT - 1);
    for text in long_texts() {
        let utf8 = text.utf8.as_bytes();
        assert_fills(utf8, (text.bytes, text.bytes), |dst| {
            uncounted(repair_slice_partial(utf8, dst))
        });
    }
}

/// The bytes of a text, and FF after them.
fn ended(text: &LongText) -> Vec<u8> {
    [text.utf8.as_bytes(), b"\xFF"].concat()
}

#[test]
fn prefixes() {
    for text in long_texts() {
        let (utf8, length, bytes) = (text.utf8.as_bytes(), text.utf8.len(), ended(&text));
        let ascii = if text.bytes == 1 { length } else { 0 };
        let latin1 = if text.latin1().is_some() { length } else { 0 };
        assert_eq!(validate_ascii(&bytes), Some((bytes[ascii], ascii)));
        assert_eq!(validate_ascii(utf8).is_none(), ascii == length);
        assert_eq!(ascii_valid_up_to(&bytes), ascii);
        assert_eq!(iso_2022_jp_ascii_valid_up_to(&bytes), ascii);
        assert_eq!(utf8_latin1_up_to(&bytes), latin1);
        assert_eq!(str_latin1_up_to(&text.utf8), latin1);
        assert_eq!(utf8_valid_up_to(&bytes), length);
        assert_eq!(next_malformed(&bytes), Some(length..length + 1));
        let found = (length..length + 1, Malformation::DisallowedByte);
        assert_eq!(next_malformation(&bytes), Some(found));
        assert_eq!(next_malformed(utf8), None);
        let units = [&text.utf16[..], &[0xDC00]].concat();
        assert_eq!(utf16_valid_up_to(&units), text.utf16.len());
        let mut repaired = units;
        ensure_utf16_validity(&mut repaired);
        assert!(repaired == [&text.utf16[..], &[0xFFFD]].concat());
    }
}

#[test]
fn checks() {
    for text in long_texts() {
        let (utf8, utf16) = (text.utf8.as_bytes(), &text.utf16);
        let (is_short, is_narrow) = (text.bytes == 1, text.latin1().is_some());
        assert_eq!((is_ascii(utf8), is_basic_latin(utf16)), (is_short, is_short));
        assert!(!is_ascii(&ended(&text)));
        assert_eq!(
            (is_utf8_latin1(utf8), is_str_latin1(&text.utf8)),
            (is_narrow, is_narrow)
        );
        assert_eq!(is_utf16_latin1(utf16), is_narrow);
        let kind = if is_narrow {
            Latin1Bidi::Latin1
        } else {
            Latin1Bidi::LeftToRight
        };
        assert_eq!(check_utf8_for_latin1_and_bidi(utf8), kind);
        assert_eq!(check_str_for_latin1_and_bidi(&text.utf8), kind);
        assert_eq!(check_utf16_for_latin1_and_bidi(utf16), kind);
        assert_eq!(
            (is_utf8_bidi(utf8), is_str_bidi(&text.utf8), is_utf16_bidi(utf16)),
            (false, false, false)
        );
        // with a Hebrew letter at the end
        let right = text.utf8.clone() + "א";
        let units: Vec<u16> = right.encode_utf16().collect();
        let are = (
            is_utf8_bidi(right.as_bytes()),
            is_str_bidi(&right),
            is_utf16_bidi(&units),
        );
        assert_eq!(are, (true, true, true));
        assert_eq!(check_utf8_for_latin1_and_bidi(right.as_bytes()), Latin1Bidi::Bidi);
        assert_eq!(check_str_for_latin1_and_bidi(&right), Latin1Bidi::Bidi);
        assert_eq!(check_utf16_for_latin1_and_bidi(&units), Latin1Bidi::Bidi);
    }
}

#[test]
fn counts() {
    for text in long_texts() {
        let bytes = ended(&text);
        assert_eq!(utf8_count(&bytes), COUNT + 1);
        assert_eq!(str_count(&text.utf8), COUNT);
        assert_eq!(utf16_length_from_str(&text.utf8), text.utf16.len());
        assert_eq!(utf16_count(&text.utf16), COUNT);
        assert_eq!(utf16_count(&[0xD800; COUNT]), COUNT);
        assert_eq!(repaired_utf8_length(&bytes), Some(text.utf8.len() + 3));
        assert!(from_utf8(&bytes).is_err());
    }
}
