//! Exact counts: characters, and the bytes of repaired text.

use crate::c;

/// Returns the number of characters of `bytes`, with one for each malformed sequence:
/// `String::from_utf8_lossy(bytes).chars().count()`. It allocates nothing.
///
/// [Proved](crate::promises#counts).
///
/// ```
/// use encoding_text::utf8_count;
/// assert_eq!(utf8_count("né".as_bytes()), 2);
/// assert_eq!(utf8_count(b"a\xE2\x98Z"), 3);
/// ```
#[must_use]
#[inline]
pub fn utf8_count(bytes: &[u8]) -> usize {
    c::encoding_text_utf8_count(bytes)
}

/// Returns the number of characters of a text: `text.chars().count()`.
///
/// [Proved](crate::promises#counts).
///
/// ```
/// use encoding_text::str_count;
/// assert_eq!(str_count("né"), 2);
/// ```
#[must_use]
#[inline]
pub fn str_count(text: &str) -> usize {
    c::encoding_text_utf8_count_unchecked(text)
}

/// Returns the length of a text in UTF-16 code units: `text.encode_utf16().count()`.
///
/// [Proved](crate::promises#counts).
///
/// ```
/// use encoding_text::utf16_length_from_str;
/// assert_eq!(utf16_length_from_str("né\u{1F4A9}"), 4);
/// ```
#[must_use]
#[inline]
pub fn utf16_length_from_str(text: &str) -> usize {
    c::encoding_text_mem_utf16_length_from_utf8_unchecked(text)
}

/// Returns the number of characters of `units`, with one for each unpaired surrogate:
/// `char::decode_utf16(units).count()`.
///
/// [Proved](crate::promises#counts).
///
/// ```
/// use encoding_text::utf16_count;
/// assert_eq!(utf16_count(&[0x61, 0xD83D, 0xDCA9]), 2);
/// assert_eq!(utf16_count(&[0xDCA9, 0xD83D]), 2);
/// ```
#[must_use]
#[inline]
pub fn utf16_count(units: &[u16]) -> usize {
    c::encoding_text_utf16_count(units)
}

/// Returns the length in bytes of `bytes` with U+FFFD for each malformed sequence:
/// `String::from_utf8_lossy(bytes).len()`. It allocates nothing. `None` if the length isn't below `usize::MAX`.
///
/// [Proved](crate::promises#counts).
///
/// ```
/// use encoding_text::repaired_utf8_length;
/// assert_eq!(repaired_utf8_length("né".as_bytes()), Some(3));
/// assert_eq!(repaired_utf8_length(b"a\xE2\x98Z"), Some(5));
/// ```
#[must_use]
#[inline]
pub fn repaired_utf8_length(bytes: &[u8]) -> Option<usize> {
    let length = c::encoding_text_repaired_utf8_length(bytes);
    (length != usize::MAX).then_some(length)
}
