//! What programs written for the original expect: the type of each function, and the derived traits of the types. Every
//! condition at its bound: if it is met a call returns, and one short of it the call panics and writes nothing. The
//! crate and the library have one version.
#![allow(clippy::type_complexity)]

use encoding_text::mem::*;
use encoding_text::utf_8::convert_utf16_to_utf8_partial_tail;
use encoding_text::{ascii, mem, utf_8};
use std::fmt::Debug;
use std::ops::Range;
use std::panic::{catch_unwind, AssertUnwindSafe};

type Check<T> = fn(&[T]) -> bool;
type Prefix<T> = fn(&[T]) -> usize;
type Convert<S, D, R> = fn(&[S], &mut [D]) -> R;
type Counts = (usize, usize);
type Found<T> = Option<(T, usize)>;

#[test]
fn ascii_functions() {
    let _: usize = ascii::ASCII_MASK;
    let _: usize = ascii::MAX_STRIDE_SIZE;
    let _: fn(&[u8]) -> Found<u8> = ascii::validate_ascii;
    let _: [Prefix<u8>; 2] = [ascii::ascii_valid_up_to, ascii::iso_2022_jp_ascii_valid_up_to];
    let _: Convert<u8, u8, Found<u8>> = ascii::ascii_to_ascii;
    let _: Convert<u8, u16, Found<u8>> = ascii::ascii_to_basic_latin;
    let _: Convert<u16, u8, Found<u16>> = ascii::basic_latin_to_ascii;
}

#[test]
fn utf_8_functions() {
    let _: &'static utf_8::Utf8Data = &utf_8::UTF8_DATA;
    let _: &[u8; 384] = &utf_8::UTF8_DATA.table;
    let _: Prefix<u8> = utf_8::utf8_valid_up_to;
    let _: Convert<u8, u16, Counts> = utf_8::convert_utf8_to_utf16_up_to_invalid;
    let _: [Convert<u16, u8, Counts>; 2] = [
        utf_8::convert_utf16_to_utf8_partial_inner,
        utf_8::convert_utf16_to_utf8_partial_tail,
    ];
}

#[test]
fn checks_of_mem() {
    let _: [Check<u8>; 3] = [mem::is_ascii, mem::is_utf8_latin1, mem::is_utf8_bidi];
    let _: [Check<u16>; 3] = [mem::is_basic_latin, mem::is_utf16_latin1, mem::is_utf16_bidi];
    let _: [fn(&str) -> bool; 2] = [mem::is_str_latin1, mem::is_str_bidi];
    let _: fn(char) -> bool = mem::is_char_bidi;
    let _: fn(u16) -> bool = mem::is_utf16_code_unit_bidi;
    let _: fn(&[u8]) -> mem::Latin1Bidi = mem::check_utf8_for_latin1_and_bidi;
    let _: fn(&str) -> mem::Latin1Bidi = mem::check_str_for_latin1_and_bidi;
    let _: fn(&[u16]) -> mem::Latin1Bidi = mem::check_utf16_for_latin1_and_bidi;
    let _: Prefix<u16> = mem::utf16_valid_up_to;
    let _: Prefix<u8> = mem::utf8_latin1_up_to;
    let _: fn(&str) -> usize = mem::str_latin1_up_to;
    let _: fn(&mut [u16]) = mem::ensure_utf16_validity;
}

#[test]
fn conversions_of_mem() {
    let _: [Convert<u8, u16, usize>; 2] = [mem::convert_utf8_to_utf16, mem::copy_ascii_to_basic_latin];
    let _: fn(&str, &mut [u16]) -> usize = mem::convert_str_to_utf16;
    let _: Convert<u8, u16, Option<usize>> = mem::convert_utf8_to_utf16_without_replacement;
    let _: Convert<u8, u16, Counts> = mem::convert_utf8_to_utf16_partial;
    let _: Convert<u16, u8, Counts> = mem::convert_utf16_to_utf8_partial;
    let _: [Convert<u16, u8, usize>; 2] = [mem::convert_utf16_to_utf8, mem::copy_basic_latin_to_ascii];
    let _: fn(&[u16], &mut str) -> Counts = mem::convert_utf16_to_str_partial;
    let _: fn(&[u16], &mut str) -> usize = mem::convert_utf16_to_str;
    let _: Convert<u8, u16, ()> = mem::convert_latin1_to_utf16;
    let _: Convert<u8, u8, Counts> = mem::convert_latin1_to_utf8_partial;
    let _: [Convert<u8, u8, usize>; 3] = [
        mem::convert_latin1_to_utf8,
        mem::convert_utf8_to_latin1_lossy,
        mem::copy_ascii_to_ascii,
    ];
    let _: fn(&[u8], &mut str) -> Counts = mem::convert_latin1_to_str_partial;
    let _: fn(&[u8], &mut str) -> usize = mem::convert_latin1_to_str;
    let _: Convert<u16, u8, ()> = mem::convert_utf16_to_latin1_lossy;
}

#[cfg(feature = "alloc")]
#[test]
fn owned_results_of_mem() {
    use std::borrow::Cow;
    let _: for<'a> fn(&'a [u8]) -> Cow<'a, str> = mem::decode_latin1;
    let _: for<'a> fn(&'a str) -> Cow<'a, [u8]> = mem::encode_latin1_lossy;
}

#[test]
fn states() {
    use encoding_text::{DecoderResult, EncoderResult, Utf8Decoder, Utf8Encoder};
    type Query<S> = fn(&S, usize) -> Option<usize>;
    let _: fn() -> Utf8Decoder = utf_8::Utf8Decoder::new_inner;
    let _: fn(&Utf8Decoder) -> bool = Utf8Decoder::in_neutral_state;
    let _: [Query<Utf8Decoder>; 3] = [
        Utf8Decoder::max_utf16_buffer_length,
        Utf8Decoder::max_utf8_buffer_length_without_replacement,
        Utf8Decoder::max_utf8_buffer_length,
    ];
    let _: fn(&mut Utf8Decoder, &[u8], &mut [u16], bool) -> (DecoderResult, usize, usize) =
        Utf8Decoder::decode_to_utf16_raw;
    let _: fn(&mut Utf8Decoder, &[u8], &mut [u8], bool) -> (DecoderResult, usize, usize) =
        Utf8Decoder::decode_to_utf8_raw;
    let _: [Query<Utf8Encoder>; 2] = [
        Utf8Encoder::max_buffer_length_from_utf16_without_replacement,
        Utf8Encoder::max_buffer_length_from_utf8_without_replacement,
    ];
    let _: fn(&mut Utf8Encoder, &[u16], &mut [u8], bool) -> (EncoderResult, usize, usize) =
        utf_8::Utf8Encoder::encode_from_utf16_raw;
    let _: fn(&mut Utf8Encoder, &str, &mut [u8], bool) -> (EncoderResult, usize, usize) =
        utf_8::Utf8Encoder::encode_from_utf8_raw;
    let _: fn(&mut Utf8Encoder, &[u16], &mut [u8], bool) -> (EncoderResult, usize, usize, usize) =
        Utf8Encoder::encode_from_utf16_with_count;
    let _: fn(&mut Utf8Encoder, &str, &mut [u8], bool) -> (EncoderResult, usize, usize, usize) =
        Utf8Encoder::encode_from_utf8_with_count;
}

/// Numbers, so that a `Latin1Bidi` may be passed to C. Results may be compared, printed and sent to other threads.
#[test]
fn derived() {
    use encoding_text::{DecoderResult, EncoderResult, Utf8Decoder, Utf8Encoder};
    fn is_result<T: std::fmt::Debug + Eq + Send + Sync>(_: &T) {}
    fn is_state<T: Send + Sync>(_: T) {}
    let classes = [
        mem::Latin1Bidi::Latin1,
        mem::Latin1Bidi::LeftToRight,
        mem::Latin1Bidi::Bidi,
    ];
    is_result(&classes[0]);
    assert_eq!(classes.map(|class| class as u8), [0, 1, 2]);
    is_result(&DecoderResult::Malformed(3, 0));
    is_result(&EncoderResult::Unmappable('\u{2603}'));
    is_state(Utf8Decoder::new_inner());
    is_state(Utf8Encoder::new_inner());
}

/// Returns lengths of destinations: up to twenty shorter than `needed`, and two longer.
fn lengths_around(needed: usize) -> Range<usize> {
    needed.saturating_sub(20)..needed + 3
}

/// Makes calls with destinations about as long as needed. Those shorter than `needed` panic and leave them unchanged.
#[track_caller]
fn bound<T: Copy + Debug + PartialEq, R>(element: T, needed: usize, call: impl Fn(&mut [T]) -> R) {
    for length in lengths_around(needed) {
        let mut dst = vec![element; length];
        let result = catch_unwind(AssertUnwindSafe(|| drop(call(&mut dst))));
        assert_eq!(result.is_err(), length < needed, "{length} of {needed}");
        assert!(result.is_ok() || dst == vec![element; length]);
    }
}

/// The same over texts.
#[track_caller]
fn text_bound<R>(needed: usize, call: impl Fn(&mut str) -> R) {
    for length in lengths_around(needed) {
        let mut dst = "x".repeat(length);
        let result = catch_unwind(AssertUnwindSafe(|| drop(call(&mut dst))));
        assert_eq!(result.is_err(), length < needed, "{length} of {needed}");
        assert!(result.is_ok() || dst == "x".repeat(length));
    }
}

/// Sources of a few elements, and of more than any block has.
#[test]
fn lengths() {
    const UNITS: [u16; 5] = [0x61, 0xE9, 0x2603, 0xD83D, 0xDE00];
    let (ascii, units) = (b"abcde".repeat(220), UNITS.repeat(220));
    for n in [0, 1, 2, 3, 4, 5, 1100] {
        let (bytes, units) = (&ascii[..n], &units[..n]);
        let text = std::str::from_utf8(bytes).unwrap();
        bound(7u8, n, |dst| copy_ascii_to_ascii(bytes, dst));
        bound(7u16, n, |dst| copy_ascii_to_basic_latin(bytes, dst));
        bound(7u8, n, |dst| copy_basic_latin_to_ascii(units, dst));
        bound(7u16, n + 1, |dst| convert_utf8_to_utf16(bytes, dst));
        bound(7u16, n, |dst| convert_str_to_utf16(text, dst));
        bound(7u16, n, |dst| convert_utf8_to_utf16_without_replacement(bytes, dst));
        bound(7u8, 3 * n, |dst| convert_utf16_to_utf8(units, dst));
        text_bound(3 * n, |dst| convert_utf16_to_str(units, dst));
        bound(7u16, n, |dst| convert_latin1_to_utf16(bytes, dst));
        bound(7u8, 2 * n, |dst| convert_latin1_to_utf8(bytes, dst));
        text_bound(2 * n, |dst| convert_latin1_to_str(bytes, dst));
        bound(7u8, n, |dst| convert_utf8_to_latin1_lossy(bytes, dst));
        bound(7u8, n, |dst| convert_utf16_to_latin1_lossy(units, dst));
    }
}

#[test]
fn tail() {
    for length in [0, 1, 2, 3, 4, 5, 1100] {
        let mut dst = vec![7; length];
        assert!(catch_unwind(AssertUnwindSafe(|| convert_utf16_to_utf8_partial_tail(&[], &mut dst))).is_err());
        let result = catch_unwind(AssertUnwindSafe(|| {
            convert_utf16_to_utf8_partial_tail(&[0x61], &mut dst)
        }));
        assert_eq!(result.is_err(), length > 3);
        assert!(result.is_ok() || dst == vec![7; length]);
    }
}

/// A source that is not Latin1: a panic with debug assertions, else the longest prefix of Latin1.
#[test]
fn beyond_latin1() {
    let letters = [b'a'; 1100];
    let long = [&letters[..], "\u{100}".as_bytes()].concat();
    for (bytes, latin1) in [
        ("aé\u{100}é".as_bytes(), &b"a\xE9"[..]),
        (b"a\xC3\xA9\xC3", b"a\xE9"),
        (b"\xFF", b""),
        (&long, &letters),
    ] {
        let mut dst = vec![7; bytes.len()];
        let result = catch_unwind(AssertUnwindSafe(|| convert_utf8_to_latin1_lossy(bytes, &mut dst)));
        if cfg!(debug_assertions) {
            assert!(result.is_err());
            assert_eq!(dst, vec![7; bytes.len()]);
        } else {
            assert_eq!(&dst[..result.unwrap()], latin1);
        }
    }
}

#[cfg(feature = "alloc")]
#[test]
fn beyond_latin1_owned() {
    let long = format!("{}é\u{100}", "a".repeat(1100));
    let latin1 = [&[b'a'; 1100][..], b"\xE9"].concat();
    for (text, latin1) in [
        ("aé\u{100}é", &b"a\xE9"[..]),
        ("a☃", b"a"),
        ("☃", b""),
        (&long, &latin1),
    ] {
        let result = catch_unwind(|| encode_latin1_lossy(text));
        if cfg!(debug_assertions) {
            assert!(result.is_err());
        } else {
            assert_eq!(result.unwrap(), latin1);
        }
    }
}

extern "C" {
    fn encoding_text_version() -> u32;
}

#[test]
fn version_is_the_library_s() {
    // the crate is linked for its library
    assert!(encoding_text::mem::is_ascii(b""));
    let numbers: Vec<u32> = env!("CARGO_PKG_VERSION")
        .split('.')
        .map(|number| number.parse().unwrap())
        .collect();
    // SAFETY: it takes nothing and touches no memory.
    let version = unsafe { encoding_text_version() };
    assert_eq!(numbers, [version / 10_000, version / 100 % 100, version % 100]);
}
