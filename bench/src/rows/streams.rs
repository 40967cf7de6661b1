//! The rows of the streaming calls and of the repair.

use super::{put, rows, in_turn, Reads, Row, CRATE, OURS, STD};
use crate::call::two;
use crate::ffi;
use crate::simdutf;
use crate::streams;
#[cfg(feature = "peers")]
use encoding_rs::UTF_8;

pub const ROWS: &[Row] = rows! {
    "decode_to_utf16, 4 KiB a call", Bytes:
        OURS => streams::decode_to_utf16,
        CRATE => streams::crate_decode_to_utf16;
    "decode_to_utf8, 4 KiB a call", Bytes:
        OURS => streams::decode_to_utf8,
        CRATE => streams::crate_decode_to_utf8;
    "encode_from_utf16, 4 KiB a call", Units:
        OURS => streams::encode_from_utf16,
        CRATE => streams::crate_encode_from_utf16;
    "encode_from_utf8, 4 KiB a call", Text:
        OURS => streams::encode_from_utf8,
        CRATE => streams::crate_encode_from_utf8;
    "repair_slice", Bytes:
        OURS => |s, r| r.written = ffi::encoding_text_repair_slice(&s.bytes, &mut r.bytes).written,
        STD => |s, r| r.written = two(|src, dst| put(&String::from_utf8_lossy(src), dst), &s.bytes, &mut r.bytes),
        CRATE => |s, r| r.written = two(|src, dst| {
            put(&UTF_8.decode_without_bom_handling(src).0, dst)
        }, &s.bytes, &mut r.bytes);
        simdutf: PLAIN => |s, r| r.written = if simdutf::validate_utf8(&s.bytes) {
            r.bytes[..s.bytes.len()].copy_from_slice(&s.bytes);
            s.bytes.len()
        } else {
            put(&UTF_8.decode_without_bom_handling(&s.bytes).0, &mut r.bytes)
        };
};
