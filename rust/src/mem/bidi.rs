//! Whether text may need the Unicode Bidirectional Algorithm: whether it contains a right-to-left character. These are
//! the characters of the blocks of right-to-left scripts, and the controls that make what follows right-to-left.

use crate::c;

/// The result of the checks for Latin1 and right-to-left characters.
#[must_use]
#[derive(Clone, Copy, Debug, PartialEq, Eq, Hash)]
#[repr(C)]
pub enum Latin1Bidi {
    /// All characters are up to U+00FF.
    Latin1 = 0,
    /// A character is above U+00FF, and none is right-to-left.
    LeftToRight = 1,
    /// A character is right-to-left, or UTF-8 is malformed.
    Bidi = 2,
}

#[inline]
fn class(answer: u8) -> Latin1Bidi {
    match answer {
        c::LATIN1 => Latin1Bidi::Latin1,
        c::LEFT_TO_RIGHT => Latin1Bidi::LeftToRight,
        _ => Latin1Bidi::Bidi,
    }
}

/// Returns whether the character is right-to-left.
///
/// [Proved](crate::promises#mem).
///
/// ```
/// use encoding_text::mem::is_char_bidi;
/// assert!(is_char_bidi('א') && !is_char_bidi('a'));
/// ```
#[must_use]
#[inline]
pub fn is_char_bidi(c: char) -> bool {
    c::encoding_text_mem_is_utf8_bidi(c.encode_utf8(&mut [0; 4]).as_bytes())
}

/// Returns whether the code unit is a right-to-left character, or a high surrogate that may start one.
///
/// [Proved](crate::promises#mem).
#[must_use]
#[inline]
pub fn is_utf16_code_unit_bidi(u: u16) -> bool {
    c::encoding_text_mem_is_utf16_code_unit_bidi(u)
}

/// Returns whether the bytes contain a right-to-left character or aren't well-formed UTF-8.
///
/// [Proved](crate::promises#mem).
#[must_use]
#[inline]
pub fn is_utf8_bidi(buffer: &[u8]) -> bool {
    c::encoding_text_mem_is_utf8_bidi(buffer)
}

/// Returns whether the text contains a right-to-left character.
///
/// [Proved](crate::promises#mem). The text is not validated again.
#[must_use]
#[inline]
pub fn is_str_bidi(buffer: &str) -> bool {
    c::encoding_text_mem_is_str_bidi_unchecked(buffer)
}

/// Returns whether the code units contain a right-to-left character, or an unpaired high surrogate that may start one.
///
/// [Proved](crate::promises#mem).
#[must_use]
#[inline]
pub fn is_utf16_bidi(buffer: &[u16]) -> bool {
    c::encoding_text_mem_is_utf16_bidi(buffer)
}

/// Returns [`Latin1Bidi::Latin1`] if [`is_utf8_latin1`](super::is_utf8_latin1) holds, else [`Latin1Bidi::Bidi`] if
/// [`is_utf8_bidi`] does, else [`Latin1Bidi::LeftToRight`].
///
/// [Proved](crate::promises#mem).
#[inline]
pub fn check_utf8_for_latin1_and_bidi(buffer: &[u8]) -> Latin1Bidi {
    class(c::encoding_text_mem_check_utf8_for_latin1_and_bidi(buffer))
}

/// Returns [`Latin1Bidi::Latin1`] if [`is_str_latin1`](super::is_str_latin1) holds, else [`Latin1Bidi::Bidi`] if
/// [`is_str_bidi`] does, else [`Latin1Bidi::LeftToRight`].
///
/// [Proved](crate::promises#mem). The text is not validated again.
///
/// ```
/// use encoding_text::mem::{check_str_for_latin1_and_bidi, Latin1Bidi};
/// assert_eq!(check_str_for_latin1_and_bidi("été"), Latin1Bidi::Latin1);
/// assert_eq!(check_str_for_latin1_and_bidi("☃"), Latin1Bidi::LeftToRight);
/// assert_eq!(check_str_for_latin1_and_bidi("שלום"), Latin1Bidi::Bidi);
/// ```
#[inline]
pub fn check_str_for_latin1_and_bidi(buffer: &str) -> Latin1Bidi {
    class(c::encoding_text_mem_check_str_for_latin1_and_bidi_unchecked(buffer))
}

/// Returns [`Latin1Bidi::Latin1`] if [`is_utf16_latin1`](super::is_utf16_latin1) holds, else [`Latin1Bidi::Bidi`] if
/// [`is_utf16_bidi`] does, else [`Latin1Bidi::LeftToRight`].
///
/// [Proved](crate::promises#mem).
#[inline]
pub fn check_utf16_for_latin1_and_bidi(buffer: &[u16]) -> Latin1Bidi {
    class(c::encoding_text_mem_check_utf16_for_latin1_and_bidi(buffer))
}
