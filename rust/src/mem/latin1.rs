//! Conversions between Latin1 and UTF-8, into bytes and into text, and from UTF-16 to Latin1.

use super::{assert_as_long, assert_room, utf8_latin1_up_to};
use crate::c;

/// Writes the UTF-8 of the longest prefix of Latin1 whose UTF-8 fits. Returns the number of bytes read and the number
/// of bytes written.
///
/// [Proved](crate::promises#mem).
#[inline]
pub fn convert_latin1_to_utf8_partial(src: &[u8], dst: &mut [u8]) -> (usize, usize) {
    c::encoding_text_mem_convert_latin1_to_utf8_partial(src, dst).into()
}

/// Writes the UTF-8 of each byte as a character, and returns the number of bytes written.
///
/// [Proved](crate::promises#mem).
///
/// # Panics
///
/// Panics if `dst` has fewer than two bytes for each byte of `src`.
#[inline]
pub fn convert_latin1_to_utf8(src: &[u8], dst: &mut [u8]) -> usize {
    assert_room(src.len(), 2, dst.len());
    c::encoding_text_mem_convert_latin1_to_utf8(src, dst)
}

/// [`convert_latin1_to_utf8_partial`] into a text. The sixteen bytes after what is written (all, if there are fewer)
/// and the continuation bytes directly after those become zero.
///
/// What is written is [proved](crate::promises#mem). The crate clears the bytes after it, so the destination is not
/// scanned.
#[inline]
pub fn convert_latin1_to_str_partial(src: &[u8], dst: &mut str) -> (usize, usize) {
    c::convert_latin1_to_str_partial(src, dst)
}

/// [`convert_latin1_to_utf8`] into a text. The sixteen bytes after what is written (all, if there are fewer) and the
/// continuation bytes directly after those become zero.
///
/// What is written is [proved](crate::promises#mem). The crate clears the bytes after it.
///
/// # Panics
///
/// Panics if `dst` has fewer than two bytes for each byte of `src`.
#[inline]
pub fn convert_latin1_to_str(src: &[u8], dst: &mut str) -> usize {
    assert_room(src.len(), 2, dst.len());
    convert_latin1_to_str_partial(src, dst).1
}

/// Panics because a source is not Latin1 in UTF-8, if debug assertions are enabled and `cfg(fuzzing)` isn't.
#[cold]
#[track_caller]
pub(super) fn refuse_beyond_latin1(up_to: usize) {
    if cfg!(all(debug_assertions, not(fuzzing))) {
        panic!("the source is no Latin1 in UTF-8 from byte {up_to} on");
    }
}

/// Writes each character of Latin1 in UTF-8 as a byte, and returns the number of bytes written.
///
/// [Proved](crate::promises#mem) for Latin1. For any other source the crate decides: without debug assertions only the
/// longest prefix of Latin1 is converted.
///
/// # Panics
///
/// Panics if `dst` is shorter than `src`. If debug assertions are enabled for this crate and `cfg(fuzzing)` isn't, panics
/// also if `src` isn't the UTF-8 of characters up to U+00FF.
///
/// ```
/// let mut bytes = [0; 3];
/// let written = encoding_text::mem::convert_utf8_to_latin1_lossy("aä".as_bytes(), &mut bytes);
/// assert_eq!(&bytes[..written], b"a\xE4");
/// ```
#[inline]
pub fn convert_utf8_to_latin1_lossy(src: &[u8], dst: &mut [u8]) -> usize {
    assert_as_long(src, dst);
    let written = c::encoding_text_mem_convert_utf8_to_latin1_lossy(src, dst);
    if written == c::INVALID_ARGUMENT {
        let up_to = utf8_latin1_up_to(src);
        refuse_beyond_latin1(up_to);
        return c::encoding_text_mem_convert_utf8_to_latin1_lossy(&src[..up_to], dst);
    }
    written
}

/// Writes the low eight bits of each code unit: converts UTF-16 to Latin1 if each unit is up to 0x00FF.
///
/// [Proved](crate::promises#mem), even for code units above 0x00FF.
///
/// # Panics
///
/// Panics if `dst` has fewer bytes than `src` has code units.
#[inline]
pub fn convert_utf16_to_latin1_lossy(src: &[u16], dst: &mut [u8]) {
    assert_as_long(src, dst);
    c::encoding_text_mem_convert_utf16_to_latin1_lossy(src, dst);
}
