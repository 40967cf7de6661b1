//! ASCII prefixes: the index of the first byte or code unit that is not ASCII, and copies of what is before it.
//!
//! Each call is one of the library, with its [promise](crate::promises#ascii). The crate only returns a length and the
//! element after it as an `Option`. Past what a call writes, its destination is unchanged.

use crate::c;

/// The highest bit of each byte of a word. A word of ASCII has none of them.
pub const ASCII_MASK: usize = usize::from_ne_bytes([0x80; core::mem::size_of::<usize>()]);

/// How many bytes the conversions from Latin1 into a `str` set to zero past what they write: as many as the decoders of
/// `encoding_rs` may overwrite there.
pub const MAX_STRIDE_SIZE: usize = 16;

/// Returns the code unit after a prefix, which is never 0, and its index.
#[inline]
fn unit_after(prefix: c::Prefix) -> Option<(u16, usize)> {
    (prefix.other != 0).then_some((prefix.other, prefix.length))
}

/// Returns the byte after a prefix, and its index.
#[inline]
fn byte_after(prefix: c::Prefix) -> Option<(u8, usize)> {
    unit_after(prefix).map(|(byte, place)| (byte as u8, place))
}

/// Returns the first byte from 0x80 on and its index, or `None` if all bytes are ASCII.
///
/// [Proved](crate::promises#ascii).
#[must_use]
#[inline]
pub fn validate_ascii(bytes: &[u8]) -> Option<(u8, usize)> {
    byte_after(c::encoding_text_validate_ascii(bytes))
}

/// Returns the length in bytes of the longest ASCII prefix.
///
/// [Proved](crate::promises#ascii).
///
/// ```
/// assert_eq!(encoding_text::ascii::ascii_valid_up_to("naïve".as_bytes()), 2);
/// ```
#[must_use]
#[inline]
pub fn ascii_valid_up_to(bytes: &[u8]) -> usize {
    c::encoding_text_ascii_valid_up_to(bytes)
}

/// Returns the length in bytes of the longest prefix that the ISO-2022-JP decoder passes through unchanged: ASCII
/// without 0x1B, 0x0E and 0x0F (Encoding Standard, section 12.2.1).
///
/// [Proved](crate::promises#ascii).
#[must_use]
#[inline]
pub fn iso_2022_jp_ascii_valid_up_to(bytes: &[u8]) -> usize {
    c::encoding_text_iso_2022_jp_ascii_valid_up_to(bytes)
}

/// Copies the longest ASCII prefix of the first `min(src.len(), dst.len())` bytes. Returns the byte after it and its
/// index, or `None` if all of these are ASCII.
///
/// [Proved](crate::promises#ascii).
#[inline]
pub fn ascii_to_ascii(src: &[u8], dst: &mut [u8]) -> Option<(u8, usize)> {
    byte_after(c::encoding_text_ascii_to_ascii(src, dst))
}

/// Copies the longest ASCII prefix of the first `min(src.len(), dst.len())` bytes, each as a code unit. Returns the
/// byte after it and its index, or `None` if all of these are ASCII.
///
/// [Proved](crate::promises#ascii).
#[inline]
pub fn ascii_to_basic_latin(src: &[u8], dst: &mut [u16]) -> Option<(u8, usize)> {
    byte_after(c::encoding_text_ascii_to_basic_latin(src, dst))
}

/// Copies the longest ASCII prefix of the first `min(src.len(), dst.len())` code units, each as a byte. Returns the
/// code unit after it and its index, or `None` if all of these are ASCII.
///
/// [Proved](crate::promises#ascii).
///
/// ```
/// let mut bytes = [0; 4];
/// let found = encoding_text::ascii::basic_latin_to_ascii(&[0x61, 0x2603, 0x62], &mut bytes);
/// assert_eq!((found, &bytes), (Some((0x2603, 1)), b"a\0\0\0"));
/// ```
#[inline]
pub fn basic_latin_to_ascii(src: &[u16], dst: &mut [u8]) -> Option<(u16, usize)> {
    unit_after(c::encoding_text_basic_latin_to_ascii(src, dst))
}
