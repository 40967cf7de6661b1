//! Whether a buffer is within ASCII or Latin1, and whether UTF-16 is well-formed.

use crate::c;

/// Returns whether each byte is below 0x80.
///
/// [Proved](crate::promises#mem).
#[must_use]
#[inline]
pub fn is_ascii(buffer: &[u8]) -> bool {
    c::encoding_text_mem_is_ascii(buffer)
}

/// Returns whether each code unit is below 0x80.
///
/// [Proved](crate::promises#mem).
#[must_use]
#[inline]
pub fn is_basic_latin(buffer: &[u16]) -> bool {
    c::encoding_text_mem_is_basic_latin(buffer)
}

/// Returns whether the bytes are well-formed UTF-8 with no character above U+00FF.
///
/// [Proved](crate::promises#mem).
#[must_use]
#[inline]
pub fn is_utf8_latin1(buffer: &[u8]) -> bool {
    c::encoding_text_mem_is_utf8_latin1(buffer)
}

/// Returns whether each character is up to U+00FF.
///
/// [Proved](crate::promises#mem). The text is not validated again.
#[must_use]
#[inline]
pub fn is_str_latin1(buffer: &str) -> bool {
    c::encoding_text_mem_is_str_latin1_unchecked(buffer)
}

/// Returns whether each code unit is up to 0x00FF.
///
/// [Proved](crate::promises#mem).
#[must_use]
#[inline]
pub fn is_utf16_latin1(buffer: &[u16]) -> bool {
    c::encoding_text_mem_is_utf16_latin1(buffer)
}

/// Returns the length in bytes of the longest prefix that is well-formed UTF-8 of characters up to U+00FF.
///
/// [Proved](crate::promises#mem).
#[must_use]
#[inline]
pub fn utf8_latin1_up_to(buffer: &[u8]) -> usize {
    c::encoding_text_mem_utf8_latin1_up_to(buffer)
}

/// Returns the length in bytes of the longest prefix of characters up to U+00FF.
///
/// [Proved](crate::promises#mem). The text is not validated again.
#[must_use]
#[inline]
pub fn str_latin1_up_to(buffer: &str) -> usize {
    c::encoding_text_mem_str_latin1_up_to_unchecked(buffer)
}

/// Returns the index of the first unpaired surrogate, or the length if there is none.
///
/// [Proved](crate::promises#mem).
///
/// ```
/// use encoding_text::mem::utf16_valid_up_to;
/// assert_eq!(utf16_valid_up_to(&[0x61, 0xD83D, 0xDE00]), 3);
/// assert_eq!(utf16_valid_up_to(&[0x61, 0xDE00, 0xD83D]), 1);
/// ```
#[must_use]
#[inline]
pub fn utf16_valid_up_to(buffer: &[u16]) -> usize {
    c::encoding_text_mem_utf16_valid_up_to(buffer)
}

/// Replaces each unpaired surrogate with U+FFFD, and changes nothing else.
///
/// [Proved](crate::promises#mem).
///
/// ```
/// let mut units = [0x61, 0xDE00, 0xD83D, 0xDE00];
/// encoding_text::mem::ensure_utf16_validity(&mut units);
/// assert_eq!(units, [0x61, 0xFFFD, 0xD83D, 0xDE00]);
/// ```
#[inline]
pub fn ensure_utf16_validity(buffer: &mut [u16]) {
    c::encoding_text_mem_ensure_utf16_validity(buffer);
}
