//! What the promises of the library allow without another check: bytes that it found well-formed are a `&str`, and
//! bytes that it wrote are text, or extend a vector.

use super::*;
use crate::decoder::Piece as Decodable;
#[cfg(feature = "alloc")]
use alloc::{string::String, vec::Vec};

/// Returns the longest well-formed prefix.
#[cfg(feature = "alloc")]
#[inline]
pub(crate) fn utf8_prefix(src: &[u8]) -> &str {
    let prefix = &src[..encoding_text_utf8_valid_up_to(src)];
    // SAFETY: `encoding_text_utf8_valid_up_to` returns the length of a prefix that is well-formed UTF-8.
    unsafe { core::str::from_utf8_unchecked(prefix) }
}

/// Returns the text before the first malformed sequence, and that sequence, which is empty if all is text.
#[inline]
pub(crate) fn first_chunk(src: &[u8]) -> (&str, &[u8]) {
    let part = encoding_text_next_malformed(src);
    let (prefix, rest) = src.split_at(part.place);
    // SAFETY: what `encoding_text_next_malformed` finds before a malformed sequence, or if there is none, is
    // well-formed UTF-8.
    (unsafe { core::str::from_utf8_unchecked(prefix) }, &rest[..part.length])
}

/// Returns the longest ASCII prefix.
#[cfg(feature = "alloc")]
#[inline]
pub(crate) fn ascii_prefix_len(src: &[u8]) -> &str {
    let prefix = &src[..encoding_text_ascii_valid_up_to(src)];
    // SAFETY: `encoding_text_ascii_valid_up_to` returns the length of a prefix of bytes below 0x80, each a character.
    unsafe { core::str::from_utf8_unchecked(prefix) }
}

/// Decodes without a destination. Returns what it found and the number of bytes read.
#[inline]
pub(crate) fn decode_borrowed<'a>(decoder: &mut Decoder, src: &'a [u8], last: bool) -> (Decodable<'a>, usize) {
    let piece = encoding_text_utf8_decoder_decode_borrowed(decoder, src, last);
    let found = match piece.kind {
        PIECE_TEXT => {
            let prefix = &src[..piece.read];
            // SAFETY: a call of this kind reads a well-formed prefix of the source, and nothing else.
            Decodable::Text(unsafe { core::str::from_utf8_unchecked(prefix) })
        }
        PIECE_CHAR => {
            // SAFETY: a call of this kind returns the scalar value of a character.
            Decodable::Char(unsafe { char::from_u32_unchecked(piece.character) })
        }
        PIECE_MALFORMED => Decodable::Malformed(piece.malformed_length),
        _ => Decodable::InputEmpty,
    };
    (found, piece.read)
}

/// Converts into a prefix of a text, and sets the continuation bytes that have lost their first byte to zero.
#[inline]
pub(crate) fn convert_utf16_to_str_partial(src: &[u16], dst: &mut str) -> (usize, usize) {
    // SAFETY: the conversion writes the UTF-8 of whole characters and leaves the rest unchanged. What is left of a cut
    // character there are continuation bytes, and these become zero before the borrow ends.
    let bytes = unsafe { dst.as_bytes_mut() };
    let counts = encoding_text_mem_convert_utf16_to_utf8_partial(src, bytes);
    clear(&mut bytes[counts.written..], 0);
    counts.into()
}

/// Does the same, and counts the unpaired surrogates that it replaces.
#[inline]
pub(crate) fn convert_utf16_to_str_partial_with_count(src: &[u16], dst: &mut str) -> (usize, usize, usize) {
    // SAFETY: as in the function above.
    let bytes = unsafe { dst.as_bytes_mut() };
    let counts = encoding_text_mem_convert_utf16_to_utf8_partial_with_count(src, bytes);
    clear(&mut bytes[counts.written..], 0);
    counts.into()
}

/// Converts into a prefix of a text, and sets the sixteen bytes after that, and the continuation bytes that follow, to
/// zero.
#[inline]
pub(crate) fn convert_latin1_to_str_partial(src: &[u8], dst: &mut str) -> (usize, usize) {
    // SAFETY: the conversion writes the UTF-8 of whole characters and leaves the rest unchanged. What is left of a cut
    // character after the bytes set to zero are continuation bytes, and these become zero before the borrow ends.
    let bytes = unsafe { dst.as_bytes_mut() };
    let counts = encoding_text_mem_convert_latin1_to_utf8_partial(src, bytes);
    clear(&mut bytes[counts.written..], crate::ascii::MAX_STRIDE_SIZE);
    counts.into()
}

/// Decodes into a prefix of a text, and sets the continuation bytes that have lost their first byte to zero.
#[inline]
pub(crate) fn decode_to_str(state: &mut StreamDecoder, src: &[u8], dst: &mut str, last: bool) -> CoderResult {
    // SAFETY: the decoder writes the UTF-8 of whole characters and leaves the rest unchanged. What is left of a cut
    // character there are continuation bytes, and these become zero before the borrow ends.
    let bytes = unsafe { dst.as_bytes_mut() };
    let done = encoding_text_decoder_decode_to_utf8(state, src, bytes, last);
    clear(&mut bytes[done.written..], 0);
    done
}

/// Decodes into a prefix of a text, and sets the continuation bytes that have lost their first byte to zero. Stops after a
/// malformed sequence, for which nothing is written, and returns its length.
#[inline]
pub(crate) fn decode_to_str_without_replacement(
    state: &mut StreamDecoder,
    src: &[u8],
    dst: &mut str,
    last: bool,
) -> DecoderCallResult {
    // SAFETY: as in `decode_to_str`.
    let bytes = unsafe { dst.as_bytes_mut() };
    let done = encoding_text_decoder_decode_to_utf8_without_replacement(state, src, bytes, last);
    clear(&mut bytes[done.written..], 0);
    done
}

/// A call of the decoder that writes UTF-8.
#[cfg(feature = "alloc")]
type Decoding<R> = unsafe extern "C" fn(*mut StreamDecoder, *const u8, usize, *mut u8, usize, bool) -> R;

/// Decodes into the spare capacity of a text, which grows by what is written.
///
/// # Safety
///
/// The call is a function of the library that writes whole characters, and `length` returns the number of bytes that it
/// wrote.
#[cfg(feature = "alloc")]
#[inline]
unsafe fn decode_into<R>(
    state: &mut StreamDecoder,
    src: &[u8],
    text: &mut String,
    last: bool,
    decode: Decoding<R>,
    length: impl Fn(&R) -> usize,
) -> R {
    // SAFETY: only whole characters are appended.
    let to = unsafe { text.as_mut_vec() };
    let spare = to.spare_capacity_mut();
    // SAFETY: it reads the elements of the slice, and works within the spare capacity and the state, which are borrowed
    // uniquely. What it returns and writes is promised for any bytes that were there before.
    let done = unsafe {
        decode(
            state,
            src.as_ptr(),
            src.len(),
            spare.as_mut_ptr().cast(),
            spare.len(),
            last,
        )
    };
    // SAFETY: the first bytes of the spare capacity, as many as it wrote, are initialized now.
    unsafe { to.set_len(to.len() + length(&done)) };
    done
}

/// Decodes into the spare capacity of a text.
#[cfg(feature = "alloc")]
#[inline]
pub(crate) fn decode_to_string(state: &mut StreamDecoder, src: &[u8], dst: &mut String, last: bool) -> CoderResult {
    // SAFETY: it is a function of the library, writes whole characters, and returns how many bytes it wrote.
    unsafe {
        decode_into(
            state,
            src,
            dst,
            last,
            raw::encoding_text_decoder_decode_to_utf8,
            |done| done.written,
        )
    }
}

/// Decodes into the spare capacity of a text. Stops after a malformed sequence, for which nothing is written, and returns its
/// length.
#[cfg(feature = "alloc")]
#[inline]
pub(crate) fn decode_to_string_without_replacement(
    state: &mut StreamDecoder,
    src: &[u8],
    dst: &mut String,
    last: bool,
) -> DecoderCallResult {
    let decode = raw::encoding_text_decoder_decode_to_utf8_without_replacement;
    // SAFETY: it is a function of the library, writes whole characters, and returns how many bytes it wrote.
    unsafe { decode_into(state, src, dst, last, decode, |done| done.written) }
}

/// Sets the first `zeros` bytes to zero, or all if there are fewer, and the continuation bytes that follow.
#[inline]
fn clear(bytes: &mut [u8], zeros: usize) {
    let (first, rest) = bytes.split_at_mut(zeros.min(bytes.len()));
    first.fill(0);
    for byte in rest.iter_mut().take_while(|byte| **byte & 0xC0 == 0x80) {
        *byte = 0;
    }
}

/// A function of the library that reads bytes and writes bytes.
#[cfg(feature = "alloc")]
type Conversion<R> = unsafe extern "C" fn(*const u8, usize, *mut u8, usize) -> R;

/// Converts bytes into `room` bytes past the end of a vector, which grows by what is written. Returns what the
/// conversion returned. If that is `INVALID_ARGUMENT`, the vector is unchanged.
///
/// # Safety
///
/// The conversion is a function of the library, and `length` returns the number of bytes that it wrote.
#[cfg(feature = "alloc")]
unsafe fn append<R>(
    src: &[u8],
    to: &mut Vec<u8>,
    room: usize,
    convert: Conversion<R>,
    length: impl Fn(&R) -> usize,
) -> R {
    to.reserve_exact(room);
    let spare = to.spare_capacity_mut();
    // SAFETY: it reads the elements of the slice, and works within the spare capacity, which only the vector uses. What
    // it returns and writes is promised for any bytes that were there before.
    let result = unsafe { convert(src.as_ptr(), src.len(), spare.as_mut_ptr().cast(), spare.len()) };
    let written = length(&result);
    if written != INVALID_ARGUMENT {
        // SAFETY: the first `written` bytes of the spare capacity are initialized now.
        unsafe { to.set_len(to.len() + written) };
    }
    result
}

/// Returns the text whose characters are the bytes, the first `ascii` of them ASCII.
#[cfg(feature = "alloc")]
pub(crate) fn latin1_to_string(bytes: &[u8], ascii: usize) -> String {
    let (prefix, rest) = bytes.split_at(ascii);
    let room = rest.len().saturating_mul(2);
    let mut text = Vec::with_capacity(ascii.saturating_add(room));
    text.extend_from_slice(prefix);
    // SAFETY: it is a function of the library, and returns the number of bytes that it wrote.
    unsafe {
        append(
            rest,
            &mut text,
            room,
            raw::encoding_text_mem_convert_latin1_to_utf8,
            |written| *written,
        )
    };
    // SAFETY: the vector is ASCII followed by the UTF-8 of characters.
    unsafe { String::from_utf8_unchecked(text) }
}

/// Returns the Latin1 of a text whose first `ascii` bytes are ASCII, or `None` if the text isn't all Latin1.
#[cfg(feature = "alloc")]
pub(crate) fn utf8_to_latin1(text: &str, ascii: usize) -> Option<Vec<u8>> {
    let (prefix, rest) = text.as_bytes().split_at(ascii);
    let mut latin1 = Vec::with_capacity(text.len());
    latin1.extend_from_slice(prefix);
    // SAFETY: it is a function of the library, and returns the number of bytes that it wrote, or `INVALID_ARGUMENT`.
    let written = unsafe {
        append(
            rest,
            &mut latin1,
            rest.len(),
            raw::encoding_text_mem_convert_utf8_to_latin1_lossy,
            |written| *written,
        )
    };
    (written != INVALID_ARGUMENT).then_some(latin1)
}

/// Returns the well-formed prefix followed by the rest, with U+FFFD for each malformed sequence.
#[cfg(feature = "alloc")]
pub(crate) fn repair_after(prefix: &str, rest: &[u8]) -> String {
    let room = rest.len().saturating_mul(3);
    let mut text = Vec::with_capacity(prefix.len().saturating_add(room));
    text.extend_from_slice(prefix.as_bytes());
    // SAFETY: it is a function of the library, and returns the number of bytes that it wrote.
    unsafe {
        append(rest, &mut text, room, raw::encoding_text_repair_slice, |repaired| {
            repaired.written
        })
    };
    text.shrink_to_fit();
    // SAFETY: the vector is a text followed by what a repair writes, which is well-formed.
    unsafe { String::from_utf8_unchecked(text) }
}
