//! The functions of `c/include/encoding_text.h` over slices and texts. All unsafe code of the crate is in this module and
//! in `c::texts`: the calls themselves, and what follows directly from their promises.
#![allow(unsafe_code)]

mod texts;

use core::sync::atomic::{AtomicU8, Ordering};
pub(crate) use texts::*;

/// The number of elements read, and of elements written.
#[repr(C)]
pub(crate) struct Progress {
    pub(crate) read: usize,
    pub(crate) written: usize,
}

impl From<Progress> for (usize, usize) {
    #[inline]
    fn from(progress: Progress) -> (usize, usize) {
        (progress.read, progress.written)
    }
}

/// The number of elements read, of elements written, and of unpaired surrogates that were replaced.
#[repr(C)]
pub(crate) struct CountedProgress {
    pub(crate) read: usize,
    pub(crate) written: usize,
    pub(crate) replaced: usize,
}

impl From<CountedProgress> for (usize, usize, usize) {
    #[inline]
    fn from(progress: CountedProgress) -> (usize, usize, usize) {
        (progress.read, progress.written, progress.replaced)
    }
}

/// The length of an ASCII prefix, and the element after it, or 0 if there is none.
#[repr(C)]
pub(crate) struct Prefix {
    pub(crate) length: usize,
    pub(crate) other: u16,
}

/// A decoder between two calls: the pending bytes and their number.
#[repr(C)]
#[derive(Clone, Debug, Default)]
pub(crate) struct Decoder {
    pending: [u8; 3],
    count: u8,
}

#[repr(C)]
pub(crate) struct DecodeResult {
    pub(crate) read: usize,
    pub(crate) written: usize,
    result: AtomicU8,
    pub(crate) malformed_length: u8,
}

impl DecodeResult {
    /// Returns why the call ended. The field is read as the one byte that the library has just written. A plain read is
    /// compiled to a load of four bytes here, which waits some 4 ns for the store to reach the cache.
    #[inline]
    pub(crate) fn result(&self) -> u8 {
        self.result.load(Ordering::Relaxed)
    }
}

/// A decoder of UTF-16 between two calls: the pending bytes, their number, and 1 for UTF-16BE.
#[repr(C)]
#[derive(Clone, Debug)]
pub(crate) struct Utf16State {
    pending: [u8; 3],
    count: u8,
    big_endian: u8,
}

impl Utf16State {
    /// Returns the state with nothing pending.
    #[inline]
    pub(crate) fn new(is_big_endian: bool) -> Utf16State {
        Utf16State {
            pending: [0; 3],
            count: 0,
            big_endian: u8::from(is_big_endian),
        }
    }
}

#[repr(C)]
pub(crate) struct DecoderCallResult {
    pub(crate) read: usize,
    pub(crate) written: usize,
    pub(crate) result: u8,
    pub(crate) malformed_length: u8,
    pub(crate) read_after: u8,
}

/// A decoder of any of the encodings between two calls: the pending bytes, their number, and the numbers of the encoding and
/// of the marks that are looked for.
#[repr(C)]
#[derive(Clone, Debug)]
pub(crate) struct StreamDecoder {
    pending: [u8; 3],
    count: u8,
    encoding: u8,
    bom: u8,
}

impl StreamDecoder {
    /// Returns the state with nothing pending.
    #[inline]
    pub(crate) fn new(encoding: u8, bom: u8) -> StreamDecoder {
        StreamDecoder {
            pending: [0; 3],
            count: 0,
            encoding,
            bom,
        }
    }
}

#[repr(C)]
pub(crate) struct CoderResult {
    pub(crate) read: usize,
    pub(crate) written: usize,
    pub(crate) replaced: usize,
    pub(crate) result: u8,
}

/// The length of a byte order mark, 0 if there is none, and the number of its encoding.
#[repr(C)]
pub(crate) struct Bom {
    pub(crate) length: usize,
    pub(crate) encoding: u8,
}

#[repr(C)]
pub(crate) struct Piece {
    pub(crate) read: usize,
    pub(crate) character: u32,
    pub(crate) kind: u8,
    pub(crate) malformed_length: u8,
}

/// An encoder between two calls: the pending high surrogate, or 0.
#[repr(C)]
#[derive(Clone, Debug, Default)]
pub(crate) struct Encoder {
    surrogate: u16,
}

impl Encoder {
    /// Returns whether a surrogate may be pending: 0 is none.
    #[inline]
    pub(crate) fn may_hold(&self) -> bool {
        self.surrogate != 0
    }
}

#[repr(C)]
pub(crate) struct EncodeResult {
    pub(crate) read: usize,
    pub(crate) written: usize,
    pub(crate) result: u8,
}

/// The index of the first malformed sequence and its length, 0 if there is none.
#[repr(C)]
pub(crate) struct MalformedSequence {
    pub(crate) place: usize,
    pub(crate) length: usize,
}

/// The index of the first malformed sequence, its length, 0 if there is none, and the number of its kind.
#[repr(C)]
pub(crate) struct Malformation {
    pub(crate) place: usize,
    pub(crate) length: usize,
    pub(crate) kind: u8,
}

/// How much a repair into a destination of any length did.
#[repr(C)]
pub(crate) struct RepairBlockResult {
    pub(crate) read: usize,
    pub(crate) written: usize,
    pub(crate) replaced: usize,
    finished: bool,
}

#[cfg(feature = "alloc")]
#[repr(C)]
pub(crate) struct RepairResult {
    written: usize,
    replaced: u64,
}

/// Returned instead of a length if a precondition is violated.
pub(crate) const INVALID_ARGUMENT: usize = usize::MAX;
pub(crate) const LATIN1: u8 = 0;
pub(crate) const LEFT_TO_RIGHT: u8 = 1;
pub(crate) const INPUT_EMPTY: u8 = 0;
pub(crate) const OUTPUT_FULL: u8 = 1;
pub(crate) const UTF_8: u8 = 0;
pub(crate) const UTF_16LE: u8 = 1;
pub(crate) const UTF_16BE: u8 = 2;
pub(crate) const BOM_OFF: u8 = 0;
pub(crate) const BOM_REMOVE: u8 = 1;
pub(crate) const BOM_SNIFF: u8 = 2;
pub(crate) const PIECE_TEXT: u8 = 0;
pub(crate) const PIECE_CHAR: u8 = 1;
pub(crate) const PIECE_MALFORMED: u8 = 2;
pub(crate) const UNEXPECTED_CONTINUATION: u8 = 1;
pub(crate) const DISALLOWED_BYTE: u8 = 2;
pub(crate) const OVERLONG: u8 = 3;
pub(crate) const SURROGATE: u8 = 4;
pub(crate) const TOO_LARGE: u8 = 5;
pub(crate) const TRUNCATED: u8 = 6;

/// Returns the length that a query reports for `length` elements, each of which adds `step`. The library reports
/// `usize::MAX` both for that number and for any greater one; these become `Some` and `None`.
#[inline]
pub(crate) fn room(length: usize, step: usize, query: impl Fn(usize) -> usize) -> Option<usize> {
    let room = query(length);
    let is_met = room != usize::MAX || (length > 0 && query(length - 1) == usize::MAX - step);
    is_met.then_some(room)
}

/// Returns a length that is never `usize::MAX`, which the library returns for any greater one.
#[inline]
pub(crate) fn below_max(length: usize) -> Option<usize> {
    (length != usize::MAX).then_some(length)
}

/// Declares functions by the types of their arguments, and wraps each over references under its own name.
macro_rules! functions {
    (
        value { $($value:ident($number:ty) -> $property:ty;)* }
        slice { $($slice:ident($unit:ty) -> $answer:ty;)* }
        text { $($text:ident() -> $reported:ty;)* }
        conversion { $($conversion:ident($from:ty, $to:ty) -> $counts:ty;)* }
        query { $($query:ident($queried:ty);)* }
        state { $($state:ident($stated:ty) -> $told:ty;)* }
        step { $($step:ident($stepped:ty, $read:ty, $write:ty) -> $ended:ty;)* }
    ) => {
        mod raw {
            use super::*;
            extern "C" {
                $(pub(super) fn $value(number: $number) -> $property;)*
                $(pub(super) fn $slice(src: *const $unit, src_length: usize) -> $answer;)*
                $(pub(super) fn $text(src: *const u8, src_length: usize) -> $reported;)*
                $(pub(super) fn $conversion(
                    src: *const $from, src_length: usize, dst: *mut $to, dst_length: usize,
                ) -> $counts;)*
                $(pub(super) fn $query(state: *const $queried, length: usize) -> usize;)*
                $(pub(super) fn $state(state: *const $stated) -> $told;)*
                $(pub(super) fn $step(
                    state: *mut $stepped, src: *const $read, src_length: usize, dst: *mut $write, dst_length: usize, last: bool,
                ) -> $ended;)*
                pub(super) fn encoding_text_layout_0_1();
                pub(super) fn encoding_text_mem_convert_str_to_utf16_unchecked(
                    src: *const u8, src_length: usize, dst: *mut u16, dst_length: usize,
                ) -> usize;
                pub(super) fn encoding_text_mem_ensure_utf16_validity(buffer: *mut u16, buffer_length: usize);
                pub(super) fn encoding_text_decoder_latin1_byte_compatible_up_to(
                    decoder: *const StreamDecoder, src: *const u8, src_length: usize,
                ) -> usize;
                pub(super) fn encoding_text_utf8_decoder_decode_borrowed(
                    decoder: *mut Decoder, src: *const u8, src_length: usize, last: bool,
                ) -> Piece;
                #[cfg(feature = "alloc")]
                pub(super) fn encoding_text_repair_slice(
                    src: *const u8, src_length: usize, dst: *mut u8, dst_length: usize,
                ) -> RepairResult;
            }
        }
        $(#[inline]
        pub(crate) fn $value(number: $number) -> $property {
            // SAFETY: it takes any number, and touches no memory.
            unsafe { raw::$value(number) }
        })*
        $(#[inline]
        pub(crate) fn $slice(src: &[$unit]) -> $answer {
            // SAFETY: it reads `src_length` elements from the pointer on, which are those of the slice.
            unsafe { raw::$slice(src.as_ptr(), src.len()) }
        })*
        $(#[inline]
        pub(crate) fn $text(src: &str) -> $reported {
            // SAFETY: it reads `src_length` bytes from the pointer on, which are those of the text. It requires them to
            // be well-formed, and those of a `str` are.
            unsafe { raw::$text(src.as_ptr(), src.len()) }
        })*
        $(#[inline]
        pub(crate) fn $conversion(src: &[$from], dst: &mut [$to]) -> $counts {
            // SAFETY: it reads the elements of the first slice, and reads and writes those of the second, whose borrow
            // is unique and so overlaps nothing. Any elements that it writes are valid.
            unsafe { raw::$conversion(src.as_ptr(), src.len(), dst.as_mut_ptr(), dst.len()) }
        })*
        $(#[inline]
        pub(crate) fn $query(state: &$queried, length: usize) -> usize {
            // SAFETY: it reads the state, which is laid out as the header says, and takes any length.
            unsafe { raw::$query(state, length) }
        })*
        $(#[inline]
        pub(crate) fn $state(state: &$stated) -> $told {
            // SAFETY: it reads the state, which is laid out as the header says.
            unsafe { raw::$state(state) }
        })*
        $(#[inline]
        pub(crate) fn $step(state: &mut $stepped, src: &[$read], dst: &mut [$write], last: bool) -> $ended {
            // SAFETY: the borrows of state and destination are unique, so no two of the three overlap. The state is
            // laid out as the header says. It reads and writes elements within the slices, and any values of these are
            // valid.
            unsafe { raw::$step(state, src.as_ptr(), src.len(), dst.as_mut_ptr(), dst.len(), last) }
        })*
    };
}

functions! {
    value {
        encoding_text_mem_is_utf16_code_unit_bidi(u16) -> bool;
    }
    slice {
        encoding_text_validate_ascii(u8) -> Prefix;
        encoding_text_ascii_valid_up_to(u8) -> usize;
        encoding_text_iso_2022_jp_ascii_valid_up_to(u8) -> usize;
        encoding_text_mem_is_ascii(u8) -> bool;
        encoding_text_mem_is_basic_latin(u16) -> bool;
        encoding_text_mem_is_utf8_latin1(u8) -> bool;
        encoding_text_mem_is_utf16_latin1(u16) -> bool;
        encoding_text_mem_utf8_latin1_up_to(u8) -> usize;
        encoding_text_mem_utf16_valid_up_to(u16) -> usize;
        encoding_text_mem_is_utf8_bidi(u8) -> bool;
        encoding_text_mem_is_utf16_bidi(u16) -> bool;
        encoding_text_mem_check_utf8_for_latin1_and_bidi(u8) -> u8;
        encoding_text_mem_check_utf16_for_latin1_and_bidi(u16) -> u8;
        encoding_text_utf8_valid_up_to(u8) -> usize;
        encoding_text_next_malformed(u8) -> MalformedSequence;
        encoding_text_next_malformation(u8) -> Malformation;
        encoding_text_utf8_count(u8) -> usize;
        encoding_text_utf16_count(u16) -> usize;
        encoding_text_repaired_utf8_length(u8) -> usize;
        encoding_text_for_bom(u8) -> Bom;
    }
    text {
        encoding_text_mem_is_str_latin1_unchecked() -> bool;
        encoding_text_mem_str_latin1_up_to_unchecked() -> usize;
        encoding_text_mem_is_str_bidi_unchecked() -> bool;
        encoding_text_mem_check_str_for_latin1_and_bidi_unchecked() -> u8;
        encoding_text_mem_utf16_length_from_utf8_unchecked() -> usize;
        encoding_text_utf8_count_unchecked() -> usize;
    }
    conversion {
        encoding_text_ascii_to_ascii(u8, u8) -> Prefix;
        encoding_text_ascii_to_basic_latin(u8, u16) -> Prefix;
        encoding_text_basic_latin_to_ascii(u16, u8) -> Prefix;
        encoding_text_mem_copy_ascii_to_ascii(u8, u8) -> usize;
        encoding_text_mem_copy_ascii_to_basic_latin(u8, u16) -> usize;
        encoding_text_mem_copy_basic_latin_to_ascii(u16, u8) -> usize;
        encoding_text_mem_convert_latin1_to_utf16(u8, u16) -> usize;
        encoding_text_mem_convert_latin1_to_utf8_partial(u8, u8) -> Progress;
        encoding_text_mem_convert_latin1_to_utf8(u8, u8) -> usize;
        encoding_text_mem_convert_utf8_to_latin1_lossy(u8, u8) -> usize;
        encoding_text_mem_convert_utf16_to_latin1_lossy(u16, u8) -> usize;
        encoding_text_mem_convert_utf8_to_utf16(u8, u16) -> usize;
        encoding_text_mem_convert_utf8_to_utf16_partial(u8, u16) -> Progress;
        encoding_text_mem_convert_utf8_to_utf16_without_replacement(u8, u16) -> Progress;
        encoding_text_repair_slice_partial(u8, u8) -> RepairBlockResult;
        encoding_text_mem_convert_utf16_to_utf8_partial(u16, u8) -> Progress;
        encoding_text_mem_convert_utf16_to_utf8_partial_with_count(u16, u8) -> CountedProgress;
        encoding_text_mem_convert_utf16_to_utf8(u16, u8) -> usize;
        encoding_text_convert_utf8_to_utf16_up_to_invalid(u8, u16) -> Progress;
        encoding_text_decode_utf16le(u8, u16) -> Progress;
        encoding_text_decode_utf16be(u8, u16) -> Progress;
        encoding_text_encode_utf16le(u16, u8) -> Progress;
        encoding_text_encode_utf16be(u16, u8) -> Progress;
        encoding_text_convert_utf16_to_utf8_partial_inner(u16, u8) -> Progress;
        encoding_text_convert_utf16_to_utf8_partial_tail(u16, u8) -> Progress;
    }
    query {
        encoding_text_utf8_decoder_max_utf16_buffer_length(Decoder);
        encoding_text_utf8_decoder_max_utf8_buffer_length_without_replacement(Decoder);
        encoding_text_utf8_decoder_max_utf8_buffer_length(Decoder);
        encoding_text_utf16_decoder_max_utf16_buffer_length(Utf16State);
        encoding_text_utf16_decoder_max_utf8_buffer_length_without_replacement(Utf16State);
        encoding_text_utf16_decoder_max_utf8_buffer_length(Utf16State);
        encoding_text_decoder_max_utf16_buffer_length(StreamDecoder);
        encoding_text_decoder_max_utf8_buffer_length_without_replacement(StreamDecoder);
        encoding_text_decoder_max_utf8_buffer_length(StreamDecoder);
        encoding_text_utf8_encoder_max_buffer_length_from_utf16_without_replacement(Encoder);
        encoding_text_utf8_encoder_max_buffer_length_from_utf8_without_replacement(Encoder);
    }
    state {
        encoding_text_utf8_decoder_in_neutral_state(Decoder) -> bool;
        encoding_text_utf16_decoder_in_neutral_state(Utf16State) -> bool;
        encoding_text_decoder_encoding(StreamDecoder) -> u8;
    }
    step {
        encoding_text_utf8_decoder_decode_to_utf16(Decoder, u8, u16) -> DecodeResult;
        encoding_text_utf8_decoder_decode_to_utf8(Decoder, u8, u8) -> DecodeResult;
        encoding_text_utf16_decoder_decode_to_utf16(Utf16State, u8, u16) -> DecoderCallResult;
        encoding_text_utf16_decoder_decode_to_utf8(Utf16State, u8, u8) -> DecoderCallResult;
        encoding_text_decoder_decode_to_utf16(StreamDecoder, u8, u16) -> CoderResult;
        encoding_text_decoder_decode_to_utf8(StreamDecoder, u8, u8) -> CoderResult;
        encoding_text_decoder_decode_to_utf16_without_replacement(StreamDecoder, u8, u16) -> DecoderCallResult;
        encoding_text_decoder_decode_to_utf8_without_replacement(StreamDecoder, u8, u8) -> DecoderCallResult;
        encoding_text_utf8_encoder_encode_from_utf16(Encoder, u16, u8) -> EncodeResult;
        encoding_text_utf8_encoder_encode_from_utf16_with_count(Encoder, u16, u8) -> CoderResult;
    }
}

/// Linked into each program, so that a library with other layouts is an error of the linker.
#[used]
static LAYOUT: unsafe extern "C" fn() = raw::encoding_text_layout_0_1;

#[inline]
pub(crate) fn encoding_text_mem_convert_str_to_utf16_unchecked(src: &str, dst: &mut [u16]) -> usize {
    // SAFETY: it reads the bytes of the text, which are well-formed as it requires, and reads and writes the elements
    // of the slice, whose borrow is unique and so overlaps nothing. Any code units are valid.
    unsafe {
        raw::encoding_text_mem_convert_str_to_utf16_unchecked(src.as_ptr(), src.len(), dst.as_mut_ptr(), dst.len())
    }
}

#[inline]
pub(crate) fn encoding_text_mem_ensure_utf16_validity(buffer: &mut [u16]) {
    // SAFETY: it reads and writes the elements of the slice, whose borrow is unique. Any code units are valid.
    unsafe { raw::encoding_text_mem_ensure_utf16_validity(buffer.as_mut_ptr(), buffer.len()) }
}

#[inline]
pub(crate) fn encoding_text_decoder_latin1_byte_compatible_up_to(decoder: &StreamDecoder, src: &[u8]) -> usize {
    // SAFETY: it reads the decoder, which is laid out as the header says, and the slice.
    unsafe { raw::encoding_text_decoder_latin1_byte_compatible_up_to(decoder, src.as_ptr(), src.len()) }
}

#[inline]
pub(crate) fn encoding_text_utf8_decoder_decode_borrowed(decoder: &mut Decoder, src: &[u8], last: bool) -> Piece {
    // SAFETY: it reads the slice, and reads and writes the decoder, whose borrow is unique and which is laid out as the
    // header says.
    unsafe { raw::encoding_text_utf8_decoder_decode_borrowed(decoder, src.as_ptr(), src.len(), last) }
}
