//! Copies of ASCII prefixes.

use super::assert_as_long;
use crate::c;

/// Copies the longest ASCII prefix, and returns its length in bytes.
///
/// [Proved](crate::promises#mem).
///
/// # Panics
///
/// Panics if `dst` is shorter than `src`.
#[inline]
pub fn copy_ascii_to_ascii(src: &[u8], dst: &mut [u8]) -> usize {
    assert_as_long(src, dst);
    c::encoding_text_mem_copy_ascii_to_ascii(src, dst)
}

/// Copies the longest ASCII prefix, each byte as a code unit, and returns its length.
///
/// [Proved](crate::promises#mem).
///
/// # Panics
///
/// Panics if `dst` has fewer code units than `src` has bytes.
#[inline]
pub fn copy_ascii_to_basic_latin(src: &[u8], dst: &mut [u16]) -> usize {
    assert_as_long(src, dst);
    c::encoding_text_mem_copy_ascii_to_basic_latin(src, dst)
}

/// Copies the longest prefix of code units below 0x80, each as a byte, and returns its length.
///
/// [Proved](crate::promises#mem).
///
/// # Panics
///
/// Panics if `dst` has fewer bytes than `src` has code units.
#[inline]
pub fn copy_basic_latin_to_ascii(src: &[u16], dst: &mut [u8]) -> usize {
    assert_as_long(src, dst);
    c::encoding_text_mem_copy_basic_latin_to_ascii(src, dst)
}
