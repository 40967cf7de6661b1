//! The functions of `encoding_text.h`, and each of them over slices. Those that take only slices are called through an
//! address, as their peers are (module `call`).

use std::hint::black_box;

#[repr(C)]
pub struct Progress {
    pub read: usize,
    pub written: usize,
}

impl From<(usize, usize)> for Progress {
    fn from((read, written): (usize, usize)) -> Progress {
        Progress { read, written }
    }
}

#[repr(C)]
pub struct Prefix {
    pub length: usize,
    pub other: u16,
}

impl Prefix {
    /// Returns the prefix of this length of the slice.
    pub fn of<T: Copy + Into<u16>>(slice: &[T], length: usize) -> Prefix {
        Prefix { length, other: slice.get(length).map_or(0, |it| (*it).into()) }
    }
}

#[repr(C)]
#[derive(Default)]
pub struct Decoder {
    pending: [u8; 3],
    count: u8,
}

#[repr(C)]
pub struct DecodeResult {
    pub read: usize,
    pub written: usize,
    pub result: u8,
    pub malformed_length: u8,
}

#[repr(C)]
pub struct Utf16Decoder {
    pending: [u8; 3],
    count: u8,
    big_endian: u8,
}

#[repr(C)]
pub struct Utf16DecodeResult {
    pub read: usize,
    pub written: usize,
    pub result: u8,
    pub malformed_length: u8,
    pub read_after: u8,
}

#[repr(C)]
#[derive(Default)]
pub struct Encoder {
    surrogate: u16,
}

#[repr(C)]
pub struct EncodeResult {
    pub read: usize,
    pub written: usize,
    pub result: u8,
}

#[repr(C)]
pub struct RepairResult {
    pub written: usize,
    pub replaced: u64,
}

pub const INVALID_ARGUMENT: usize = usize::MAX;
pub const INVALID_ARGUMENT_U8: u8 = u8::MAX;
pub const INPUT_EMPTY: u8 = 0;
pub const MALFORMED: u8 = 2;

/// Declares functions of the library that take one slice, or a source and a destination, and wraps each over slices.
macro_rules! calls {
    (one { $($one:ident($kind:ty) -> $result:ty;)* } two { $($two:ident($from:ty, $to:ty) -> $counts:ty;)* }) => {
        mod raw {
            use super::*;
            extern "C" {
                $(pub fn $one(buffer: *const $kind, length: usize) -> $result;)*
                $(pub fn $two(src: *const $from, src_length: usize, dst: *mut $to, dst_length: usize) -> $counts;)*
            }
        }
        $(pub fn $one(buffer: &[$kind]) -> $result {
            type Call = unsafe extern "C" fn(*const $kind, usize) -> $result;
            unsafe { black_box(raw::$one as Call)(buffer.as_ptr(), buffer.len()) }
        })*
        $(pub fn $two(src: &[$from], dst: &mut [$to]) -> $counts {
            type Call = unsafe extern "C" fn(*const $from, usize, *mut $to, usize) -> $counts;
            unsafe { black_box(raw::$two as Call)(src.as_ptr(), src.len(), dst.as_mut_ptr(), dst.len()) }
        })*
    };
}

calls! {
    one {
    encoding_text_validate_ascii(u8) -> Prefix;
    encoding_text_ascii_valid_up_to(u8) -> usize;
    encoding_text_iso_2022_jp_ascii_valid_up_to(u8) -> usize;
    encoding_text_mem_is_ascii(u8) -> bool;
    encoding_text_mem_is_basic_latin(u16) -> bool;
    encoding_text_mem_is_utf8_latin1(u8) -> bool;
    encoding_text_mem_is_utf16_latin1(u16) -> bool;
    encoding_text_mem_is_str_latin1_unchecked(u8) -> bool;
    encoding_text_mem_utf8_latin1_up_to(u8) -> usize;
    encoding_text_mem_str_latin1_up_to(u8) -> usize;
    encoding_text_mem_utf16_valid_up_to(u16) -> usize;
    encoding_text_mem_is_utf8_bidi(u8) -> bool;
    encoding_text_mem_is_str_bidi_unchecked(u8) -> bool;
    encoding_text_mem_is_utf16_bidi(u16) -> bool;
    encoding_text_mem_check_utf8_for_latin1_and_bidi(u8) -> u8;
    encoding_text_mem_check_str_for_latin1_and_bidi(u8) -> u8;
    encoding_text_mem_check_utf16_for_latin1_and_bidi(u16) -> u8;
    encoding_text_utf8_valid_up_to(u8) -> usize;
    encoding_text_mem_utf8_length_from_latin1(u8) -> usize;
    encoding_text_mem_latin1_length_from_utf8(u8) -> usize;
    encoding_text_mem_utf16_length_from_utf8(u8) -> usize;
    encoding_text_mem_latin1_length_from_utf8_unchecked(u8) -> usize;
    encoding_text_mem_utf16_length_from_utf8_unchecked(u8) -> usize;
    encoding_text_utf8_count_unchecked(u8) -> usize;
    encoding_text_mem_utf8_length_from_utf16(u16) -> usize;
    encoding_text_utf8_count(u8) -> usize;
    encoding_text_utf16_count(u16) -> usize;
    encoding_text_repaired_utf8_length(u8) -> usize;
    }
    two {
    encoding_text_ascii_to_ascii(u8, u8) -> Prefix;
    encoding_text_ascii_to_basic_latin(u8, u16) -> Prefix;
    encoding_text_basic_latin_to_ascii(u16, u8) -> Prefix;
    encoding_text_mem_copy_ascii_to_ascii(u8, u8) -> usize;
    encoding_text_mem_copy_ascii_to_basic_latin(u8, u16) -> usize;
    encoding_text_mem_copy_basic_latin_to_ascii(u16, u8) -> usize;
    encoding_text_mem_convert_latin1_to_utf16(u8, u16) -> usize;
    encoding_text_mem_convert_latin1_to_utf8_partial(u8, u8) -> Progress;
    encoding_text_mem_convert_latin1_to_utf8(u8, u8) -> usize;
    encoding_text_mem_convert_utf8_to_latin1_lossy(u8, u8) -> usize;
    encoding_text_mem_convert_utf16_to_latin1_lossy(u16, u8) -> usize;
    encoding_text_mem_convert_utf8_to_utf16(u8, u16) -> usize;
    encoding_text_mem_convert_str_to_utf16(u8, u16) -> usize;
    encoding_text_mem_convert_utf8_to_utf16_without_replacement(u8, u16) -> Progress;
    encoding_text_mem_convert_utf16_to_utf8_partial(u16, u8) -> Progress;
    encoding_text_mem_convert_utf16_to_utf8(u16, u8) -> usize;
    encoding_text_mem_convert_utf16_to_str_partial(u16, u8) -> Progress;
    encoding_text_mem_convert_latin1_to_str_partial(u8, u8) -> Progress;
    encoding_text_convert_utf8_to_utf16_up_to_invalid(u8, u16) -> Progress;
    encoding_text_repair_slice(u8, u8) -> RepairResult;
    }
}

extern "C" {
    fn encoding_text_mem_ensure_utf16_validity(buffer: *mut u16, length: usize);
    fn encoding_text_utf8_decoder_decode_to_utf16(
        decoder: &mut Decoder, src: *const u8, src_length: usize, dst: *mut u16, dst_length: usize, last: bool,
    ) -> DecodeResult;
    fn encoding_text_utf8_decoder_decode_to_utf8(
        decoder: &mut Decoder, src: *const u8, src_length: usize, dst: *mut u8, dst_length: usize, last: bool,
    ) -> DecodeResult;
    fn encoding_text_utf16_decoder_decode_to_utf16(
        decoder: &mut Utf16Decoder, src: *const u8, src_length: usize, dst: *mut u16, dst_length: usize, last: bool,
    ) -> Utf16DecodeResult;
    fn encoding_text_utf16_decoder_decode_to_utf8(
        decoder: &mut Utf16Decoder, src: *const u8, src_length: usize, dst: *mut u8, dst_length: usize, last: bool,
    ) -> Utf16DecodeResult;
    fn encoding_text_utf8_encoder_encode_from_utf16(
        encoder: &mut Encoder, src: *const u16, src_length: usize, dst: *mut u8, dst_length: usize, last: bool,
    ) -> EncodeResult;
    fn encoding_text_utf8_encoder_encode_from_utf8(
        encoder: &mut Encoder, src: *const u8, src_length: usize, dst: *mut u8, dst_length: usize, last: bool,
    ) -> EncodeResult;
}

pub fn ensure_utf16_validity(buffer: &mut [u16]) {
    unsafe { encoding_text_mem_ensure_utf16_validity(buffer.as_mut_ptr(), buffer.len()) }
}

impl Decoder {
    pub fn to_utf16(&mut self, src: &[u8], dst: &mut [u16], last: bool) -> DecodeResult {
        unsafe {
            encoding_text_utf8_decoder_decode_to_utf16(self, src.as_ptr(), src.len(), dst.as_mut_ptr(), dst.len(), last)
        }
    }

    pub fn to_utf8(&mut self, src: &[u8], dst: &mut [u8], last: bool) -> DecodeResult {
        unsafe {
            encoding_text_utf8_decoder_decode_to_utf8(self, src.as_ptr(), src.len(), dst.as_mut_ptr(), dst.len(), last)
        }
    }
}

impl Utf16Decoder {
    /// Returns what `encoding_text_utf16_decoder_new` stores.
    pub fn new(big_endian: bool) -> Utf16Decoder {
        Utf16Decoder { pending: [0; 3], count: 0, big_endian: big_endian.into() }
    }

    pub fn to_utf16(&mut self, src: &[u8], dst: &mut [u16], last: bool) -> Utf16DecodeResult {
        unsafe {
            encoding_text_utf16_decoder_decode_to_utf16(self, src.as_ptr(), src.len(), dst.as_mut_ptr(), dst.len(), last)
        }
    }

    pub fn to_utf8(&mut self, src: &[u8], dst: &mut [u8], last: bool) -> Utf16DecodeResult {
        unsafe {
            encoding_text_utf16_decoder_decode_to_utf8(self, src.as_ptr(), src.len(), dst.as_mut_ptr(), dst.len(), last)
        }
    }
}

impl Encoder {
    pub fn from_utf16(&mut self, src: &[u16], dst: &mut [u8], last: bool) -> EncodeResult {
        unsafe {
            let (to, room) = (dst.as_mut_ptr(), dst.len());
            encoding_text_utf8_encoder_encode_from_utf16(self, src.as_ptr(), src.len(), to, room, last)
        }
    }

    pub fn from_utf8(&mut self, src: &[u8], dst: &mut [u8], last: bool) -> EncodeResult {
        unsafe {
            let (to, room) = (dst.as_mut_ptr(), dst.len());
            encoding_text_utf8_encoder_encode_from_utf8(self, src.as_ptr(), src.len(), to, room, last)
        }
    }
}
