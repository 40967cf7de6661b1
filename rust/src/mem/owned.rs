//! Conversions that borrow ASCII and allocate for anything else.

use super::latin1::refuse_beyond_latin1;
use super::str_latin1_up_to;
use crate::c;
use alloc::borrow::Cow;

/// Returns the text whose characters are the bytes: borrowed if they are ASCII, else owned, with one allocation, of the
/// length of the ASCII prefix plus twice that of the rest.
///
/// Both calls that it makes, one for the ASCII prefix and one for the rest, are [proved](crate::promises#mem); the crate
/// joins their results. Requires the feature `alloc`.
///
/// ```
/// use encoding_text::mem::decode_latin1;
/// assert_eq!(decode_latin1(b"na\xEFve"), "naïve");
/// ```
#[must_use]
pub fn decode_latin1(bytes: &[u8]) -> Cow<'_, str> {
    let prefix = c::ascii_prefix_len(bytes);
    if prefix.len() == bytes.len() {
        return Cow::Borrowed(prefix);
    }
    Cow::Owned(c::latin1_to_string(bytes, prefix.len()))
}

/// Returns the characters of a text of Latin1 as bytes: borrowed if they are ASCII, else owned, with one allocation, of
/// the length of the text.
///
/// Both calls that it makes, one for the ASCII prefix and one for the rest, are [proved](crate::promises#mem); the crate
/// joins their results. It also decides about a text that is not Latin1: without debug assertions only its longest prefix
/// of Latin1 is converted. Requires the feature `alloc`.
///
/// # Panics
///
/// If debug assertions are enabled for this crate and `cfg(fuzzing)` isn't, panics if a character is above U+00FF.
///
/// ```
/// use encoding_text::mem::encode_latin1_lossy;
/// assert_eq!(encode_latin1_lossy("naïve"), &b"na\xEFve"[..]);
/// ```
#[must_use]
pub fn encode_latin1_lossy(string: &str) -> Cow<'_, [u8]> {
    let ascii = crate::ascii::ascii_valid_up_to(string.as_bytes());
    if ascii == string.len() {
        return Cow::Borrowed(string.as_bytes());
    }
    if let Some(latin1) = c::utf8_to_latin1(string, ascii) {
        return Cow::Owned(latin1);
    }
    let up_to = str_latin1_up_to(string);
    refuse_beyond_latin1(up_to);
    encode_latin1_lossy(&string[..up_to])
}
