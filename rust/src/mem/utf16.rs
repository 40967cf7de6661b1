//! Conversions to UTF-16, and from it to UTF-8, into bytes and into text.

use super::{assert_as_long, assert_room};
use crate::c;

/// Converts to UTF-16 with U+FFFD for each malformed sequence, and returns the number of code units written (Encoding
/// Standard, "UTF-8 decode without BOM").
///
/// [Proved](crate::promises#mem).
///
/// # Panics
///
/// Panics if `dst` doesn't have at least one code unit more than `src` has bytes.
///
/// ```
/// let mut units = [0; 6];
/// let written = encoding_text::mem::convert_utf8_to_utf16(b"a\xE2\x98Z", &mut units);
/// assert_eq!(units[..written], [0x61, 0xFFFD, 0x5A]);
/// ```
#[inline]
pub fn convert_utf8_to_utf16(src: &[u8], dst: &mut [u16]) -> usize {
    assert!(
        dst.len() > src.len(),
        "the destination has {} code units, not one more than the {} bytes of the source",
        dst.len(),
        src.len()
    );
    c::encoding_text_mem_convert_utf8_to_utf16(src, dst)
}

/// Converts as many first characters as fit to UTF-16, with U+FFFD for each malformed sequence. Returns the number of
/// bytes read and the number of code units written (Encoding Standard, "UTF-8 decode without BOM").
///
/// If `dst` is too short, fewer bytes than `src` has are read. No character is written in part.
///
/// [Proved](crate::promises#mem).
///
/// ```
/// let mut units = [0; 3];
/// let counts = encoding_text::mem::convert_utf8_to_utf16_partial(b"a\xE2\x98Z!", &mut units);
/// assert_eq!((counts, units), ((4, 3), [0x61, 0xFFFD, 0x5A]));
/// ```
#[inline]
pub fn convert_utf8_to_utf16_partial(src: &[u8], dst: &mut [u16]) -> (usize, usize) {
    c::encoding_text_mem_convert_utf8_to_utf16_partial(src, dst).into()
}

/// Converts a text to UTF-16, and returns the number of code units written.
///
/// [Proved](crate::promises#mem). The text is not validated again.
///
/// # Panics
///
/// Panics if `dst` has fewer code units than `src` has bytes.
#[inline]
pub fn convert_str_to_utf16(src: &str, dst: &mut [u16]) -> usize {
    assert_as_long(src.as_bytes(), dst);
    c::encoding_text_mem_convert_str_to_utf16_unchecked(src, dst)
}

/// Converts to UTF-16, and returns the number of code units written. If the source isn't well-formed, writes the UTF-16
/// of its longest well-formed prefix and returns `None`.
///
/// [Proved](crate::promises#mem).
///
/// # Panics
///
/// Panics if `dst` has fewer code units than `src` has bytes.
#[inline]
pub fn convert_utf8_to_utf16_without_replacement(src: &[u8], dst: &mut [u16]) -> Option<usize> {
    assert_as_long(src, dst);
    let counts = c::encoding_text_mem_convert_utf8_to_utf16_without_replacement(src, dst);
    (counts.read == src.len()).then_some(counts.written)
}

/// Writes each byte as a code unit: converts Latin1 to UTF-16.
///
/// [Proved](crate::promises#mem).
///
/// # Panics
///
/// Panics if `dst` has fewer code units than `src` has bytes.
#[inline]
pub fn convert_latin1_to_utf16(src: &[u8], dst: &mut [u16]) {
    assert_as_long(src, dst);
    c::encoding_text_mem_convert_latin1_to_utf16(src, dst);
}

/// Converts as many whole characters as fit, with U+FFFD for each unpaired surrogate. Returns the number of code units
/// read and the number of bytes written (Encoding Standard, `encodeInto`).
///
/// [Proved](crate::promises#mem).
#[inline]
pub fn convert_utf16_to_utf8_partial(src: &[u16], dst: &mut [u8]) -> (usize, usize) {
    c::encoding_text_mem_convert_utf16_to_utf8_partial(src, dst).into()
}

/// Converts as [`convert_utf16_to_utf8_partial`] does. Returns the number of code units read, the number of bytes written,
/// and how many of those code units are unpaired surrogates: U+FFFD was written for each.
///
/// [Proved](crate::promises#mem).
///
/// ```
/// use encoding_text::mem::convert_utf16_to_utf8_partial_with_count;
/// let mut bytes = [0; 8];
/// assert_eq!(convert_utf16_to_utf8_partial_with_count(&[0x61, 0xD83D, 0x62], &mut bytes), (3, 5, 1));
/// ```
#[inline]
pub fn convert_utf16_to_utf8_partial_with_count(src: &[u16], dst: &mut [u8]) -> (usize, usize, usize) {
    c::encoding_text_mem_convert_utf16_to_utf8_partial_with_count(src, dst).into()
}

/// Converts all code units, with U+FFFD for each unpaired surrogate, and returns the number of bytes written.
///
/// [Proved](crate::promises#mem).
///
/// # Panics
///
/// Panics if `dst` has fewer than three bytes for each code unit of `src`.
#[inline]
pub fn convert_utf16_to_utf8(src: &[u16], dst: &mut [u8]) -> usize {
    assert_room(src.len(), 3, dst.len());
    c::encoding_text_mem_convert_utf16_to_utf8(src, dst)
}

/// [`convert_utf16_to_utf8_partial`] into a text. The continuation bytes directly after what is written become zero.
///
/// What is written is [proved](crate::promises#mem). The crate clears the bytes after it, so the destination is not
/// scanned.
///
/// ```
/// let mut text = String::from("☃☃");
/// let counts = encoding_text::mem::convert_utf16_to_str_partial(&[0x61], &mut text);
/// assert_eq!((counts, text.as_str()), ((1, 1), "a\0\0☃"));
/// ```
#[inline]
pub fn convert_utf16_to_str_partial(src: &[u16], dst: &mut str) -> (usize, usize) {
    c::convert_utf16_to_str_partial(src, dst)
}

/// [`convert_utf16_to_utf8_partial_with_count`] into a text. The continuation bytes directly after what is written become
/// zero.
///
/// What is written, and the count, are [proved](crate::promises#mem). The crate clears the bytes after it, so the
/// destination is not scanned.
#[inline]
pub fn convert_utf16_to_str_partial_with_count(src: &[u16], dst: &mut str) -> (usize, usize, usize) {
    c::convert_utf16_to_str_partial_with_count(src, dst)
}

/// [`convert_utf16_to_utf8`] into a text. The continuation bytes directly after what is written become zero.
///
/// What is written is [proved](crate::promises#mem). The crate clears the bytes after it.
///
/// # Panics
///
/// Panics if `dst` has fewer than three bytes for each code unit of `src`.
#[inline]
pub fn convert_utf16_to_str(src: &[u16], dst: &mut str) -> usize {
    assert_room(src.len(), 3, dst.len());
    convert_utf16_to_str_partial(src, dst).1
}
