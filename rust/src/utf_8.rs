//! The longest well-formed prefix of UTF-8, conversions up to the first malformed sequence, the table of second bytes,
//! and the streaming encoder, under the names of the module `utf_8` of `encoding_rs`.

mod encoder;
mod table;

pub use crate::decoder::Utf8Decoder;
pub use encoder::{EncoderResult, Utf8Encoder};
pub use table::{Utf8Data, UTF8_DATA};

use crate::c;

/// Returns the length in bytes of the longest well-formed prefix (Unicode Standard, section 3.9, Table 3-7).
///
/// [Proved](crate::promises#utf_8).
///
/// ```
/// assert_eq!(encoding_text::utf_8::utf8_valid_up_to(b"a\xE2\x98Z"), 1);
/// ```
#[must_use]
#[inline]
pub fn utf8_valid_up_to(src: &[u8]) -> usize {
    c::encoding_text_utf8_valid_up_to(src)
}

/// Converts to UTF-16 as many characters of the longest well-formed prefix as fit. Returns the number of bytes read and
/// the number of code units written.
///
/// [Proved](crate::promises#utf_8).
#[inline]
pub fn convert_utf8_to_utf16_up_to_invalid(src: &[u8], dst: &mut [u16]) -> (usize, usize) {
    c::encoding_text_convert_utf8_to_utf16_up_to_invalid(src, dst).into()
}

/// Writes the UTF-8 of a prefix of whole characters, with U+FFFD for each unpaired surrogate, until all is read or at
/// most three bytes are free. Returns the number of code units read and the number of bytes written.
///
/// [Proved](crate::promises#utf_8).
#[inline]
pub fn convert_utf16_to_utf8_partial_inner(src: &[u16], dst: &mut [u8]) -> (usize, usize) {
    c::encoding_text_convert_utf16_to_utf8_partial_inner(src, dst).into()
}

/// Writes the UTF-8 of as many whole characters as fit into at most three bytes, with U+FFFD for each unpaired
/// surrogate. Returns the number of code units read and the number of bytes written.
///
/// [Proved](crate::promises#utf_8).
///
/// # Panics
///
/// Panics if `src` is empty, or `dst` has more than three bytes.
#[inline]
pub fn convert_utf16_to_utf8_partial_tail(src: &[u16], dst: &mut [u8]) -> (usize, usize) {
    assert!(!src.is_empty(), "the source is empty");
    assert!(
        dst.len() <= 3,
        "the destination has {} bytes, more than three",
        dst.len()
    );
    c::encoding_text_convert_utf16_to_utf8_partial_tail(src, dst).into()
}
