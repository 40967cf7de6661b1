//! The rows that find or copy an ASCII prefix.

use super::{in_turn, rows, Reads, Row, CRATE, OURS, STD};
use crate::call::{one, two};
use crate::ffi::{self, Prefix};
use crate::simdutf;
#[cfg(feature = "peers")]
use encoding_rs::{mem, Encoding};

pub const ROWS: &[Row] = rows! {
    "validate_ascii", Bytes:
        OURS => |s, r| r.tell_prefix(ffi::encoding_text_validate_ascii(&s.bytes)),
        STD => |s, r| r.tell_prefix(one(|src| {
            Prefix::of(src, src.iter().position(|b| *b >= 0x80).unwrap_or(src.len()))
        }, &s.bytes)),
        CRATE => |s, r| r.tell_prefix(one(|src| Prefix::of(src, Encoding::ascii_valid_up_to(src)), &s.bytes));
        simdutf: PLAIN => |s, r| r.tell_prefix(Prefix::of(&s.bytes, simdutf::validate_ascii_with_errors(&s.bytes).count));
    "ascii_valid_up_to", Bytes:
        OURS => |s, r| r.reported[0] = ffi::encoding_text_ascii_valid_up_to(&s.bytes),
        CRATE => |s, r| r.reported[0] = one(Encoding::ascii_valid_up_to, &s.bytes);
        simdutf: PLAIN => |s, r| r.reported[0] = simdutf::validate_ascii_with_errors(&s.bytes).count;
    "iso_2022_jp_ascii_valid_up_to", Bytes:
        OURS => |s, r| r.reported[0] = ffi::encoding_text_iso_2022_jp_ascii_valid_up_to(&s.bytes),
        CRATE => |s, r| r.reported[0] = one(Encoding::iso_2022_jp_ascii_valid_up_to, &s.bytes);
    "ascii_to_ascii", Bytes:
        OURS => |s, r| {
            let prefix = ffi::encoding_text_ascii_to_ascii(&s.bytes, r.bounded_bytes());
            r.tell_copied(prefix)
        },
        CRATE => |s, r| {
            let prefix = two(|src, dst| {
                let src = &src[..src.len().min(dst.len())];
                Prefix::of(src, mem::copy_ascii_to_ascii(src, dst))
            }, &s.bytes, r.bounded_bytes());
            r.tell_copied(prefix)
        };
    "ascii_to_basic_latin", Bytes:
        OURS => |s, r| {
            let prefix = ffi::encoding_text_ascii_to_basic_latin(&s.bytes, r.bounded_units());
            r.tell_copied(prefix)
        },
        CRATE => |s, r| {
            let prefix = two(|src, dst| {
                let src = &src[..src.len().min(dst.len())];
                Prefix::of(src, mem::copy_ascii_to_basic_latin(src, dst))
            }, &s.bytes, r.bounded_units());
            r.tell_copied(prefix)
        };
    "basic_latin_to_ascii", Units:
        OURS => |s, r| {
            let prefix = ffi::encoding_text_basic_latin_to_ascii(&s.units, r.bounded_bytes());
            r.tell_copied(prefix)
        },
        CRATE => |s, r| {
            let prefix = two(|src, dst| {
                let src = &src[..src.len().min(dst.len())];
                Prefix::of(src, mem::copy_basic_latin_to_ascii(src, dst))
            }, &s.units, r.bounded_bytes());
            r.tell_copied(prefix)
        };
    "copy_ascii_to_ascii", Bytes:
        OURS => |s, r| r.written = ffi::encoding_text_mem_copy_ascii_to_ascii(&s.bytes, &mut r.bytes),
        CRATE => |s, r| r.written = two(mem::copy_ascii_to_ascii, &s.bytes, &mut r.bytes);
    "copy_ascii_to_basic_latin", Bytes:
        OURS => |s, r| r.written = ffi::encoding_text_mem_copy_ascii_to_basic_latin(&s.bytes, &mut r.units),
        CRATE => |s, r| r.written = two(mem::copy_ascii_to_basic_latin, &s.bytes, &mut r.units);
    "copy_basic_latin_to_ascii", Units:
        OURS => |s, r| r.written = ffi::encoding_text_mem_copy_basic_latin_to_ascii(&s.units, &mut r.bytes),
        CRATE => |s, r| r.written = two(mem::copy_basic_latin_to_ascii, &s.units, &mut r.bytes);
};
