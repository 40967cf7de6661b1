//! The chunks of bytes: text, and the malformed sequence after it.

use crate::c;
use core::iter::FusedIterator;
use core::ops::Range;

/// Returns the range of the first malformed sequence, of one to three bytes, or `None` if all bytes are well-formed.
/// All bytes before it are well-formed. An incomplete sequence at the end counts as malformed.
///
/// [Proved](crate::promises#malformed-sequences).
///
/// ```
/// use encoding_text::next_malformed;
/// assert_eq!(next_malformed(b"a\xE2\x98Z"), Some(1..3));
/// assert_eq!(next_malformed("né".as_bytes()), None);
/// ```
#[must_use]
#[inline]
pub fn next_malformed(bytes: &[u8]) -> Option<Range<usize>> {
    let part = c::encoding_text_next_malformed(bytes);
    (part.length > 0).then(|| part.place..part.place + part.length)
}

/// Why a sequence is malformed. Unicode Standard, Table 3-7.
#[derive(Clone, Copy, Debug, PartialEq, Eq, Hash)]
#[non_exhaustive]
pub enum Malformation {
    /// A continuation byte that continues no sequence.
    UnexpectedContinuation,
    /// A byte that is in no well-formed sequence: C0, C1, or F5 to FF.
    DisallowedByte,
    /// The start of an overlong form of three or four bytes: E0 before 80 to 9F, or F0 before 80 to 8F.
    Overlong,
    /// The start of a surrogate: ED before A0 to BF.
    Surrogate,
    /// The start of a value above U+10FFFF: F4 before 90 to BF.
    TooLarge,
    /// An incomplete sequence before a byte that is no continuation byte.
    Truncated,
    /// An incomplete sequence at the end of the bytes.
    IncompleteAtEnd,
}

/// Returns the range of the first malformed sequence, as [`next_malformed`] does, and why it is malformed. Returns
/// `None` if all bytes are well-formed.
///
/// [Proved](crate::promises#malformed-sequences).
///
/// ```
/// use encoding_text::{next_malformation, Malformation};
/// assert_eq!(next_malformation(b"a\xE2\x98Z"), Some((1..3, Malformation::Truncated)));
/// assert_eq!(next_malformation(b"\xED\xA0\x80"), Some((0..1, Malformation::Surrogate)));
/// assert_eq!(next_malformation("né".as_bytes()), None);
/// ```
#[must_use]
#[inline]
pub fn next_malformation(bytes: &[u8]) -> Option<(Range<usize>, Malformation)> {
    let part = c::encoding_text_next_malformation(bytes);
    let kind = match part.kind {
        c::UNEXPECTED_CONTINUATION => Malformation::UnexpectedContinuation,
        c::DISALLOWED_BYTE => Malformation::DisallowedByte,
        c::OVERLONG => Malformation::Overlong,
        c::SURROGATE => Malformation::Surrogate,
        c::TOO_LARGE => Malformation::TooLarge,
        c::TRUNCATED => Malformation::Truncated,
        _ => Malformation::IncompleteAtEnd,
    };
    (part.length > 0).then(|| (part.place..part.place + part.length, kind))
}

/// A well-formed stretch and the malformed sequence after it, as yielded by [`Utf8Chunks`]. Either may be empty, but
/// not both.
#[derive(Clone, Copy, Debug, PartialEq, Eq)]
pub struct Utf8Chunk<'a> {
    valid: &'a str,
    invalid: &'a [u8],
}

impl<'a> Utf8Chunk<'a> {
    /// Returns the well-formed stretch, which is as long as possible.
    #[must_use]
    #[inline]
    pub fn valid(&self) -> &'a str {
        self.valid
    }

    /// Returns one malformed sequence of one to three bytes, or nothing at the end of the bytes.
    #[must_use]
    #[inline]
    pub fn invalid(&self) -> &'a [u8] {
        self.invalid
    }
}

/// An iterator over the chunks of bytes, made by [`utf8_chunks`].
#[derive(Clone, Debug)]
pub struct Utf8Chunks<'a> {
    rest: &'a [u8],
}

/// Iterates over the well-formed stretches of bytes and the malformed sequences between them, without copying, as the
/// method `utf8_chunks` of byte slices in `std` does.
///
/// Each stretch and the malformed sequence after it are found by a call that is [proved](crate::promises#malformed-sequences).
/// The crate starts the next chunk after them.
///
/// ```
/// let chunks: Vec<_> = encoding_text::utf8_chunks(b"a\xE2\x98Z").map(|chunk| (chunk.valid(), chunk.invalid())).collect();
/// assert_eq!(chunks, [("a", &b"\xE2\x98"[..]), ("Z", b"")]);
/// ```
#[must_use]
#[inline]
pub fn utf8_chunks(bytes: &[u8]) -> Utf8Chunks<'_> {
    Utf8Chunks { rest: bytes }
}

impl<'a> Iterator for Utf8Chunks<'a> {
    type Item = Utf8Chunk<'a>;

    #[inline]
    fn next(&mut self) -> Option<Utf8Chunk<'a>> {
        if self.rest.is_empty() {
            return None;
        }
        let (valid, invalid) = c::first_chunk(self.rest);
        self.rest = &self.rest[valid.len() + invalid.len()..];
        Some(Utf8Chunk { valid, invalid })
    }
}

impl FusedIterator for Utf8Chunks<'_> {}
