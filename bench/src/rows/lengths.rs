//! The rows that count what a conversion or a repair writes, and characters.
//!
//! Ours are exact for any source. simdutf's trust theirs, so they are compared both after its validation and, in a row
//! of its own, alone. If the source is malformed this is std's.

use super::{in_turn, rows, Reads, Row, CRATE, OURS, STD};
use crate::call::one;
use crate::ffi::{self, INVALID_ARGUMENT};
use crate::simdutf;
#[cfg(feature = "peers")]
use encoding_rs::mem;

fn std_utf8_length_from_latin1(src: &[u8]) -> usize {
    src.len() + src.iter().filter(|b| !b.is_ascii()).count()
}

/// Returns the number of characters of a Latin1 text.
#[cfg(feature = "peers")]
fn crate_latin1_length(src: &[u8]) -> usize {
    if mem::utf8_latin1_up_to(src) < src.len() {
        return INVALID_ARGUMENT;
    }
    src.iter().filter(|b| !(0x80..0xC0).contains(*b)).count()
}

fn std_utf16_length(src: &[u8]) -> usize {
    String::from_utf8_lossy(src).encode_utf16().count()
}

fn std_utf8_length(src: &[u16]) -> usize {
    char::decode_utf16(src.iter().copied()).map(|c| c.map_or(3, char::len_utf8)).sum()
}

fn std_repaired_length(src: &[u8]) -> usize {
    String::from_utf8_lossy(src).len()
}

fn std_count(src: &[u8]) -> usize {
    String::from_utf8_lossy(src).chars().count()
}

fn std_utf16_count(src: &[u16]) -> usize {
    char::decode_utf16(src.iter().copied()).count()
}

pub const ROWS: &[Row] = rows! {
    "utf8_length_from_latin1", Latin1:
        OURS => |s, r| r.reported[0] = ffi::encoding_text_mem_utf8_length_from_latin1(&s.latin1),
        STD => |s, r| r.reported[0] = one(std_utf8_length_from_latin1, &s.latin1);
        simdutf: PLAIN => |s, r| r.reported[0] = simdutf::utf8_length_from_latin1(&s.latin1);
    "latin1_length_from_utf8", Latin1Text:
        OURS => |s, r| r.reported[0] = ffi::encoding_text_mem_latin1_length_from_utf8(&s.latin1_text),
        CRATE => |s, r| r.reported[0] = one(crate_latin1_length, &s.latin1_text);
    "latin1_length_from_utf8, trusting", Latin1Text:
        OURS => |s, r| r.reported[0] = ffi::encoding_text_mem_latin1_length_from_utf8_unchecked(&s.latin1_text);
        simdutf: PLAIN => |s, r| r.reported[0] = simdutf::latin1_length_from_utf8(&s.latin1_text);
    "utf16_length_from_utf8", Bytes:
        OURS => |s, r| r.reported[0] = ffi::encoding_text_mem_utf16_length_from_utf8(&s.bytes),
        STD => |s, r| r.reported[0] = one(std_utf16_length, &s.bytes);
        simdutf: PLAIN => |s, r| r.reported[0] = if simdutf::validate_utf8(&s.bytes) {
            simdutf::utf16_length_from_utf8(&s.bytes)
        } else {
            std_utf16_length(&s.bytes)
        };
    "utf16_length_from_utf8, trusting", Bytes:
        OURS => |s, r| r.reported[0] = if s.well_formed {
            ffi::encoding_text_mem_utf16_length_from_utf8_unchecked(&s.bytes)
        } else {
            ffi::encoding_text_mem_utf16_length_from_utf8(&s.bytes)
        };
        simdutf: PLAIN => |s, r| r.reported[0] = if s.well_formed {
            simdutf::utf16_length_from_utf8(&s.bytes)
        } else {
            std_utf16_length(&s.bytes)
        };
    "utf8_length_from_utf16", Units:
        OURS => |s, r| r.reported[0] = ffi::encoding_text_mem_utf8_length_from_utf16(&s.units),
        STD => |s, r| r.reported[0] = one(std_utf8_length, &s.units);
        simdutf: PLAIN => |s, r| r.reported[0] = if simdutf::validate_utf16le(&s.units) {
            simdutf::utf8_length_from_utf16le(&s.units)
        } else {
            std_utf8_length(&s.units)
        };
    "utf8_length_from_utf16, trusting", Units:
        OURS => |s, r| r.reported[0] = ffi::encoding_text_mem_utf8_length_from_utf16(&s.units);
        simdutf: PLAIN => |s, r| r.reported[0] = if s.is_valid_utf16 {
            simdutf::utf8_length_from_utf16le(&s.units)
        } else {
            std_utf8_length(&s.units)
        };
    "repaired_utf8_length", Bytes:
        OURS => |s, r| r.reported[0] = ffi::encoding_text_repaired_utf8_length(&s.bytes),
        STD => |s, r| r.reported[0] = one(std_repaired_length, &s.bytes);
    "utf8_count", Bytes:
        OURS => |s, r| r.reported[0] = ffi::encoding_text_utf8_count(&s.bytes),
        STD => |s, r| r.reported[0] = one(std_count, &s.bytes);
        simdutf: PLAIN => |s, r| r.reported[0] = if simdutf::validate_utf8(&s.bytes) {
            simdutf::count_utf8(&s.bytes)
        } else {
            std_count(&s.bytes)
        };
    "utf8_count, trusting", Bytes:
        OURS => |s, r| r.reported[0] = if s.well_formed {
            ffi::encoding_text_utf8_count_unchecked(&s.bytes)
        } else {
            ffi::encoding_text_utf8_count(&s.bytes)
        };
        simdutf: PLAIN => |s, r| r.reported[0] = if s.well_formed {
            simdutf::count_utf8(&s.bytes)
        } else {
            std_count(&s.bytes)
        };
    "utf16_count", Units:
        OURS => |s, r| r.reported[0] = ffi::encoding_text_utf16_count(&s.units),
        STD => |s, r| r.reported[0] = one(std_utf16_count, &s.units);
        simdutf: PLAIN => |s, r| r.reported[0] = if simdutf::validate_utf16le(&s.units) {
            simdutf::count_utf16le(&s.units)
        } else {
            std_utf16_count(&s.units)
        };
    "utf16_count, trusting", Units:
        OURS => |s, r| r.reported[0] = ffi::encoding_text_utf16_count(&s.units);
        simdutf: PLAIN => |s, r| r.reported[0] = if s.is_valid_utf16 {
            simdutf::count_utf16le(&s.units)
        } else {
            std_utf16_count(&s.units)
        };
};
