//! The rows that check a whole buffer.

use super::{in_turn, rows, std_valid_up_to, Reads, Row, CRATE, OURS, SIMD, STD};
use crate::call::one;
use crate::ffi::{self, INVALID_ARGUMENT, INVALID_ARGUMENT_U8};
use crate::simdutf;
#[cfg(feature = "peers")]
use encoding_rs::{mem, Encoding};
use std::str;

/// Returns what a function without a check of its own returns for a text, or `INVALID_ARGUMENT_U8`.
fn checked(src: &[u8], unchecked: fn(&[u8]) -> bool) -> u8 {
    if ffi::encoding_text_utf8_valid_up_to(src) == src.len() {
        unchecked(src).into()
    } else {
        INVALID_ARGUMENT_U8
    }
}

/// Returns the length of the longest well-formed prefix.
#[cfg(feature = "peers")]
fn simd_valid_up_to(src: &[u8]) -> usize {
    simdutf8::compat::from_utf8(src).map_or_else(|error| error.valid_up_to(), str::len)
}

pub const ROWS: &[Row] = rows! {
    "is_ascii", Bytes:
        OURS => |s, r| r.reported[0] = ffi::encoding_text_mem_is_ascii(&s.bytes).into(),
        STD => |s, r| r.reported[0] = one(<[u8]>::is_ascii, &s.bytes).into(),
        CRATE => |s, r| r.reported[0] = one(mem::is_ascii, &s.bytes).into();
        simdutf: PLAIN => |s, r| r.reported[0] = simdutf::validate_ascii(&s.bytes).into();
    "is_basic_latin", Units:
        OURS => |s, r| r.reported[0] = ffi::encoding_text_mem_is_basic_latin(&s.units).into(),
        CRATE => |s, r| r.reported[0] = one(mem::is_basic_latin, &s.units).into();
    "is_utf8_latin1", Bytes:
        OURS => |s, r| r.reported[0] = ffi::encoding_text_mem_is_utf8_latin1(&s.bytes).into(),
        CRATE => |s, r| r.reported[0] = one(mem::is_utf8_latin1, &s.bytes).into();
    "is_str_latin1", Text:
        OURS => |s, r| r.reported[0] = checked(&s.bytes, ffi::encoding_text_mem_is_str_latin1_unchecked).into(),
        CRATE => |s, r| r.reported[0] = one(|src| match str::from_utf8(src) {
            Ok(text) => mem::is_str_latin1(text).into(),
            Err(_) => INVALID_ARGUMENT_U8,
        }, &s.bytes).into();
    "is_utf16_latin1", Units:
        OURS => |s, r| r.reported[0] = ffi::encoding_text_mem_is_utf16_latin1(&s.units).into(),
        CRATE => |s, r| r.reported[0] = one(mem::is_utf16_latin1, &s.units).into();
    "utf8_latin1_up_to", Bytes:
        OURS => |s, r| r.reported[0] = ffi::encoding_text_mem_utf8_latin1_up_to(&s.bytes),
        CRATE => |s, r| r.reported[0] = one(mem::utf8_latin1_up_to, &s.bytes);
    "str_latin1_up_to", Text:
        OURS => |s, r| r.reported[0] = ffi::encoding_text_mem_str_latin1_up_to(&s.bytes),
        CRATE => |s, r| r.reported[0] = one(|src| match str::from_utf8(src) {
            Ok(text) => mem::str_latin1_up_to(text),
            Err(_) => INVALID_ARGUMENT,
        }, &s.bytes);
    "utf16_valid_up_to", Units:
        OURS => |s, r| r.reported[0] = ffi::encoding_text_mem_utf16_valid_up_to(&s.units),
        CRATE => |s, r| r.reported[0] = one(mem::utf16_valid_up_to, &s.units);
        simdutf: PLAIN => |s, r| r.reported[0] = simdutf::utf16_valid_up_to(&s.units),
        ERRORS => |s, r| r.reported[0] = simdutf::validate_utf16le_with_errors(&s.units).count;
    "is_utf8_bidi", Bytes:
        OURS => |s, r| r.reported[0] = ffi::encoding_text_mem_is_utf8_bidi(&s.bytes).into(),
        CRATE => |s, r| r.reported[0] = one(mem::is_utf8_bidi, &s.bytes).into();
    "is_str_bidi", Text:
        OURS => |s, r| r.reported[0] = checked(&s.bytes, ffi::encoding_text_mem_is_str_bidi_unchecked).into(),
        CRATE => |s, r| r.reported[0] = one(|src| match str::from_utf8(src) {
            Ok(text) => mem::is_str_bidi(text).into(),
            Err(_) => INVALID_ARGUMENT_U8,
        }, &s.bytes).into();
    "is_utf16_bidi", Units:
        OURS => |s, r| r.reported[0] = ffi::encoding_text_mem_is_utf16_bidi(&s.units).into(),
        CRATE => |s, r| r.reported[0] = one(mem::is_utf16_bidi, &s.units).into();
    "check_utf8_for_latin1_and_bidi", Bytes:
        OURS => |s, r| r.reported[0] = ffi::encoding_text_mem_check_utf8_for_latin1_and_bidi(&s.bytes).into(),
        CRATE => |s, r| r.reported[0] = one(mem::check_utf8_for_latin1_and_bidi, &s.bytes) as usize;
    "check_str_for_latin1_and_bidi", Text:
        OURS => |s, r| r.reported[0] = ffi::encoding_text_mem_check_str_for_latin1_and_bidi(&s.bytes).into(),
        CRATE => |s, r| r.reported[0] = one(|src| match str::from_utf8(src) {
            Ok(text) => mem::check_str_for_latin1_and_bidi(text) as u8,
            Err(_) => INVALID_ARGUMENT_U8,
        }, &s.bytes).into();
    "check_utf16_for_latin1_and_bidi", Units:
        OURS => |s, r| r.reported[0] = ffi::encoding_text_mem_check_utf16_for_latin1_and_bidi(&s.units).into(),
        CRATE => |s, r| r.reported[0] = one(mem::check_utf16_for_latin1_and_bidi, &s.units) as usize;
    "utf8_valid_up_to", Bytes:
        OURS => |s, r| r.reported[0] = ffi::encoding_text_utf8_valid_up_to(&s.bytes),
        STD => |s, r| r.reported[0] = one(std_valid_up_to, &s.bytes),
        CRATE => |s, r| r.reported[0] = one(Encoding::utf8_valid_up_to, &s.bytes),
        SIMD => |s, r| r.reported[0] = one(simd_valid_up_to, &s.bytes);
        simdutf: PLAIN => |s, r| r.reported[0] = simdutf::valid_up_to(&s.bytes),
        ERRORS => |s, r| r.reported[0] = simdutf::validate_utf8_with_errors(&s.bytes).count;
};
