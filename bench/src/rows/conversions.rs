//! The rows that convert a whole buffer.

use super::{in_turn, put, rows, std_valid_up_to, Reads, Row, CRATE, OURS, STD};
use crate::call::{in_place, two};
use crate::ffi::{self, INVALID_ARGUMENT};
use crate::simdutf;
#[cfg(feature = "peers")]
use encoding_rs::{mem, Encoding};
use std::str;

/// Writes as UTF-16 as many characters of the longest well-formed prefix as fit, and returns how much was read and
/// written.
fn std_prefix_to_utf16(src: &[u8], dst: &mut [u16]) -> (usize, usize) {
    let prefix = str::from_utf8(&src[..std_valid_up_to(src)]).unwrap();
    let (mut read, mut written) = (0, 0);
    for character in prefix.chars() {
        if dst.len() - written < character.len_utf16() {
            break;
        }
        written += character.encode_utf16(&mut dst[written..]).len();
        read += character.len_utf8();
    }
    (read, written)
}

/// The same. The crate's call requires a longer destination and returns no index: if it is too short this is std's.
#[cfg(feature = "peers")]
fn crate_prefix_to_utf16(src: &[u8], dst: &mut [u16]) -> (usize, usize) {
    if dst.len() < src.len() {
        return std_prefix_to_utf16(src, dst);
    }
    match mem::convert_utf8_to_utf16_without_replacement(src, dst) {
        Some(written) => (src.len(), written),
        None => {
            let read = Encoding::utf8_valid_up_to(src);
            (read, mem::convert_utf8_to_utf16(&src[..read], &mut dst[..=read]))
        }
    }
}

// What simdutf has no call for, on ill-formed texts, the crate does after it has refused: it is the fastest there.

/// A call to UTF-16, which returns how much it wrote if it found no error.
type ToUtf16 = fn(&[u8], &mut [u16]) -> Option<usize>;

/// Converts the prefix to UTF-16. simdutf requires a longer destination and returns no index: if it is too short this
/// is std's.
#[cfg(feature = "peers")]
fn simdutf_prefix_to_utf16(src: &[u8], dst: &mut [u16], convert: ToUtf16) -> (usize, usize) {
    if dst.len() < src.len() {
        return std_prefix_to_utf16(src, dst);
    }
    convert(src, dst).map_or_else(|| crate_prefix_to_utf16(src, dst), |written| (src.len(), written))
}

pub const ROWS: &[Row] = rows! {
    "ensure_utf16_validity", Units:
        OURS => |s, r| {
            r.written = s.units.len();
            r.units[..s.units.len()].copy_from_slice(&s.units);
            ffi::ensure_utf16_validity(&mut r.units[..s.units.len()]);
        },
        CRATE => |s, r| {
            r.written = s.units.len();
            r.units[..s.units.len()].copy_from_slice(&s.units);
            in_place(mem::ensure_utf16_validity, &mut r.units[..s.units.len()]);
        };
    "convert_latin1_to_utf16", Latin1:
        OURS => |s, r| r.written = ffi::encoding_text_mem_convert_latin1_to_utf16(&s.latin1, &mut r.units),
        CRATE => |s, r| {
            two(mem::convert_latin1_to_utf16, &s.latin1, &mut r.units);
            r.written = s.latin1.len();
        };
        simdutf: PLAIN => |s, r| r.written = simdutf::convert_latin1_to_utf16le(&s.latin1, &mut r.units);
    "convert_latin1_to_utf8_partial", Latin1:
        OURS => |s, r| {
            let counts = ffi::encoding_text_mem_convert_latin1_to_utf8_partial(&s.latin1, r.bounded_bytes());
            r.tell_counts(counts)
        },
        CRATE => |s, r| {
            let counts = two(mem::convert_latin1_to_utf8_partial, &s.latin1, r.bounded_bytes());
            r.tell_counts(counts)
        };
    "convert_latin1_to_utf8", Latin1:
        OURS => |s, r| r.written = ffi::encoding_text_mem_convert_latin1_to_utf8(&s.latin1, &mut r.bytes),
        CRATE => |s, r| r.written = two(mem::convert_latin1_to_utf8, &s.latin1, &mut r.bytes);
        simdutf: PLAIN => |s, r| r.written = simdutf::convert_latin1_to_utf8(&s.latin1, &mut r.bytes);
    "convert_utf8_to_latin1_lossy", Latin1Text:
        OURS => |s, r| r.written = ffi::encoding_text_mem_convert_utf8_to_latin1_lossy(&s.latin1_text, &mut r.bytes),
        CRATE => |s, r| r.written = two(mem::convert_utf8_to_latin1_lossy, &s.latin1_text, &mut r.bytes);
        simdutf: PLAIN => |s, r| r.written = simdutf::convert_utf8_to_latin1(&s.latin1_text, &mut r.bytes),
        ERRORS => |s, r| {
            r.written = simdutf::convert_utf8_to_latin1_with_errors(&s.latin1_text, &mut r.bytes).count;
        };
    "convert_utf16_to_latin1_lossy", Latin1Units:
        OURS => |s, r| r.written = ffi::encoding_text_mem_convert_utf16_to_latin1_lossy(&s.latin1_units, &mut r.bytes),
        CRATE => |s, r| {
            two(mem::convert_utf16_to_latin1_lossy, &s.latin1_units, &mut r.bytes);
            r.written = s.latin1_units.len();
        };
        simdutf: PLAIN => |s, r| r.written = simdutf::convert_utf16le_to_latin1(&s.latin1_units, &mut r.bytes);
    "convert_utf8_to_utf16", Bytes:
        OURS => |s, r| r.written = ffi::encoding_text_mem_convert_utf8_to_utf16(&s.bytes, &mut r.units),
        CRATE => |s, r| r.written = two(mem::convert_utf8_to_utf16, &s.bytes, &mut r.units);
        simdutf: PLAIN => |s, r| {
            let written = simdutf::to_utf16(&s.bytes, &mut r.units);
            r.written = written.unwrap_or_else(|| mem::convert_utf8_to_utf16(&s.bytes, &mut r.units));
        },
        ERRORS => |s, r| {
            let written = simdutf::to_utf16_with_errors(&s.bytes, &mut r.units);
            r.written = written.unwrap_or_else(|| mem::convert_utf8_to_utf16(&s.bytes, &mut r.units));
        };
    "convert_str_to_utf16", Text:
        OURS => |s, r| r.written = ffi::encoding_text_mem_convert_str_to_utf16(&s.bytes, &mut r.units),
        STD => |s, r| r.written = two(|src, dst: &mut [u16]| {
            let Ok(text) = str::from_utf8(src) else {
                return INVALID_ARGUMENT;
            };
            let mut written = 0;
            for unit in text.encode_utf16() {
                dst[written] = unit;
                written += 1;
            }
            written
        }, &s.bytes, &mut r.units),
        CRATE => |s, r| r.written = two(|src, dst| match str::from_utf8(src) {
            Ok(text) => mem::convert_str_to_utf16(text, dst),
            Err(_) => INVALID_ARGUMENT,
        }, &s.bytes, &mut r.units);
        simdutf: PLAIN => |s, r| {
            let written = simdutf::to_utf16(&s.bytes, &mut r.units);
            r.written = written.unwrap_or(INVALID_ARGUMENT);
        },
        ERRORS => |s, r| {
            let written = simdutf::to_utf16_with_errors(&s.bytes, &mut r.units);
            r.written = written.unwrap_or(INVALID_ARGUMENT);
        };
    "convert_utf8_to_utf16_without_replacement", Text:
        OURS => |s, r| {
            let counts = ffi::encoding_text_mem_convert_utf8_to_utf16_without_replacement(&s.bytes, &mut r.units);
            r.tell_counts(counts)
        },
        CRATE => |s, r| {
            let counts = two(crate_prefix_to_utf16, &s.bytes, &mut r.units);
            r.tell_counts(counts)
        };
        simdutf: PLAIN => |s, r| {
            let counts = simdutf_prefix_to_utf16(&s.bytes, &mut r.units, simdutf::to_utf16);
            r.tell_counts(counts)
        },
        ERRORS => |s, r| {
            let counts = simdutf_prefix_to_utf16(&s.bytes, &mut r.units, simdutf::to_utf16_with_errors);
            r.tell_counts(counts)
        };
    "convert_utf16_to_utf8_partial", Units:
        OURS => |s, r| {
            let counts = ffi::encoding_text_mem_convert_utf16_to_utf8_partial(&s.units, r.bounded_bytes());
            r.tell_counts(counts)
        },
        CRATE => |s, r| {
            let counts = two(mem::convert_utf16_to_utf8_partial, &s.units, r.bounded_bytes());
            r.tell_counts(counts)
        };
    "convert_utf16_to_utf8", Units:
        OURS => |s, r| r.written = ffi::encoding_text_mem_convert_utf16_to_utf8(&s.units, &mut r.bytes),
        STD => |s, r| r.written = two(|src, dst| put(&String::from_utf16_lossy(src), dst), &s.units, &mut r.bytes),
        CRATE => |s, r| r.written = two(mem::convert_utf16_to_utf8, &s.units, &mut r.bytes);
        simdutf: PLAIN => |s, r| {
            let written = simdutf::to_utf8(&s.units, &mut r.bytes);
            r.written = written.unwrap_or_else(|| mem::convert_utf16_to_utf8(&s.units, &mut r.bytes));
        },
        ERRORS => |s, r| {
            let written = simdutf::to_utf8_with_errors(&s.units, &mut r.bytes);
            r.written = written.unwrap_or_else(|| mem::convert_utf16_to_utf8(&s.units, &mut r.bytes));
        };
    "convert_utf16_to_str_partial", Units:
        OURS => |s, r| {
            let counts = ffi::encoding_text_mem_convert_utf16_to_str_partial(&s.units, r.text(3 * s.units.len()));
            r.tell_counts(counts)
        },
        CRATE => |s, r| {
            let counts = two(|src, dst| match str::from_utf8_mut(dst) {
                Ok(text) => mem::convert_utf16_to_str_partial(src, text),
                Err(_) => (INVALID_ARGUMENT, INVALID_ARGUMENT),
            }, &s.units, r.text(3 * s.units.len()));
            r.tell_counts(counts)
        };
    "convert_latin1_to_str_partial", Latin1:
        OURS => |s, r| {
            let counts = ffi::encoding_text_mem_convert_latin1_to_str_partial(&s.latin1, r.text(2 * s.latin1.len()));
            r.tell_counts(counts)
        },
        CRATE => |s, r| {
            let counts = two(|src, dst| match str::from_utf8_mut(dst) {
                Ok(text) => mem::convert_latin1_to_str_partial(src, text),
                Err(_) => (INVALID_ARGUMENT, INVALID_ARGUMENT),
            }, &s.latin1, r.text(2 * s.latin1.len()));
            r.tell_counts(counts)
        };
    "convert_utf8_to_utf16_up_to_invalid", Text:
        OURS => |s, r| {
            let counts = ffi::encoding_text_convert_utf8_to_utf16_up_to_invalid(&s.bytes, r.bounded_units());
            r.tell_counts(counts)
        },
        STD => |s, r| {
            let counts = two(std_prefix_to_utf16, &s.bytes, r.bounded_units());
            r.tell_counts(counts)
        },
        CRATE => |s, r| {
            let counts = two(crate_prefix_to_utf16, &s.bytes, r.bounded_units());
            r.tell_counts(counts)
        };
        simdutf: PLAIN => |s, r| {
            let counts = simdutf_prefix_to_utf16(&s.bytes, r.bounded_units(), simdutf::to_utf16);
            r.tell_counts(counts)
        },
        ERRORS => |s, r| {
            let counts = simdutf_prefix_to_utf16(&s.bytes, r.bounded_units(), simdutf::to_utf16_with_errors);
            r.tell_counts(counts)
        };
};
