//! The streaming decoder of the three encodings, with the calls of `encoding_rs`'s.

use super::Encoding;
use crate::{c, DecoderResult};
#[cfg(feature = "alloc")]
use alloc::string::String;

/// Why a call that writes U+FFFD for each malformed sequence ended.
#[must_use]
#[derive(Clone, Copy, Debug, PartialEq, Eq)]
pub enum CoderResult {
    /// All of the source was read. After a call marked last nothing is pending.
    InputEmpty,
    /// The rest of the destination may be too short for the next character. Call again with more space.
    OutputFull,
}

#[inline]
fn coded(done: &c::CoderResult) -> CoderResult {
    match done.result {
        c::INPUT_EMPTY => CoderResult::InputEmpty,
        _ => CoderResult::OutputFull,
    }
}

/// A decoder of UTF-8, UTF-16LE or UTF-16BE that comes in pieces, which may end at any byte. Those that an [`Encoding`]
/// returns differ in what a byte order mark does.
///
/// Between calls it keeps at most three bytes: the start of a character or of a mark. Fed any bytes in any pieces into any
/// rooms it yields the text of all of them together. After a call marked last it is as a decoder without handling of marks.
///
/// ```
/// use encoding_text::{CoderResult, UTF_16LE, UTF_8};
/// let mut decoder = UTF_8.new_decoder();
/// let mut text = String::with_capacity(16);
/// assert_eq!(decoder.decode_to_string(b"\xFF", &mut text, false), (CoderResult::InputEmpty, 1, false));
/// assert_eq!(decoder.decode_to_string(b"\xFEa\0\x3D\xD8b", &mut text, true), (CoderResult::InputEmpty, 6, true));
/// assert_eq!((decoder.encoding(), &*text), (UTF_16LE, "a\u{FFFD}"));
/// ```
#[derive(Clone, Debug)]
pub struct Decoder {
    state: c::StreamDecoder,
}

impl Decoder {
    #[inline]
    pub(super) fn new(encoding: u8, bom: u8) -> Decoder {
        Decoder {
            state: c::StreamDecoder::new(encoding, bom),
        }
    }

    /// Returns the encoding: that of a byte order mark, once a decoder that looks for one has read it.
    #[must_use]
    #[inline]
    pub fn encoding(&self) -> &'static Encoding {
        super::of_number(c::encoding_text_decoder_encoding(&self.state))
    }

    /// Returns how many code units hold the output for the next `byte_length` bytes, in any pieces, even with U+FFFD for
    /// each malformed sequence. Returns `None` if that number is `usize::MAX` or more.
    ///
    /// [Proved](crate::promises#encodings).
    #[must_use]
    #[inline]
    pub fn max_utf16_buffer_length(&self, byte_length: usize) -> Option<usize> {
        c::below_max(c::encoding_text_decoder_max_utf16_buffer_length(
            &self.state,
            byte_length,
        ))
    }

    /// Returns how many bytes hold the output for the next `byte_length` bytes, in any pieces, even with U+FFFD for each
    /// malformed sequence. Returns `None` if that number is `usize::MAX` or more.
    ///
    /// [Proved](crate::promises#encodings).
    #[must_use]
    #[inline]
    pub fn max_utf8_buffer_length(&self, byte_length: usize) -> Option<usize> {
        c::below_max(c::encoding_text_decoder_max_utf8_buffer_length(
            &self.state,
            byte_length,
        ))
    }

    /// Returns how many bytes hold the output for the next `byte_length` bytes, in any pieces, with nothing written for
    /// malformed sequences. Returns `None` if that number is `usize::MAX` or more.
    ///
    /// [Proved](crate::promises#encodings).
    #[must_use]
    #[inline]
    pub fn max_utf8_buffer_length_without_replacement(&self, byte_length: usize) -> Option<usize> {
        c::below_max(c::encoding_text_decoder_max_utf8_buffer_length_without_replacement(
            &self.state,
            byte_length,
        ))
    }

    /// Returns the length of the longest ASCII prefix of the bytes that come next: each of its bytes is one character.
    /// Returns `None` unless the encoding is UTF-8, nothing is pending and no byte order mark is looked for.
    ///
    /// [Proved](crate::promises#encodings).
    #[must_use]
    #[inline]
    pub fn latin1_byte_compatible_up_to(&self, bytes: &[u8]) -> Option<usize> {
        c::below_max(c::encoding_text_decoder_latin1_byte_compatible_up_to(
            &self.state,
            bytes,
        ))
    }

    /// Decodes to UTF-8, with U+FFFD for each malformed sequence. Returns why the call ended, the number of bytes of `src`
    /// read, the number of bytes written, and whether U+FFFD was written for a malformed sequence. `last` says that no
    /// bytes follow `src`. The rest of `dst` is unchanged.
    ///
    /// [Proved](crate::promises#encodings).
    #[inline]
    pub fn decode_to_utf8(&mut self, src: &[u8], dst: &mut [u8], last: bool) -> (CoderResult, usize, usize, bool) {
        let done = c::encoding_text_decoder_decode_to_utf8(&mut self.state, src, dst, last);
        (coded(&done), done.read, done.written, done.replaced > 0)
    }

    /// Decodes to UTF-16, with U+FFFD for each malformed sequence. Returns why the call ended, the number of bytes of `src`
    /// read, the number of code units written, and whether U+FFFD was written for a malformed sequence. `last` says that
    /// no bytes follow `src`. The rest of `dst` is unchanged.
    ///
    /// [Proved](crate::promises#encodings).
    #[inline]
    pub fn decode_to_utf16(&mut self, src: &[u8], dst: &mut [u16], last: bool) -> (CoderResult, usize, usize, bool) {
        let done = c::encoding_text_decoder_decode_to_utf16(&mut self.state, src, dst, last);
        (coded(&done), done.read, done.written, done.replaced > 0)
    }

    /// Decodes into a prefix of a text, as [`decode_to_utf8`](Self::decode_to_utf8) does into bytes. The continuation bytes
    /// directly after what is written become zero.
    ///
    /// What is written is [proved](crate::promises#encodings).
    #[inline]
    pub fn decode_to_str(&mut self, src: &[u8], dst: &mut str, last: bool) -> (CoderResult, usize, usize, bool) {
        let done = c::decode_to_str(&mut self.state, src, dst, last);
        (coded(&done), done.read, done.written, done.replaced > 0)
    }

    /// Decodes into the spare capacity of a `String`, which never grows, as [`decode_to_utf8`](Self::decode_to_utf8) does
    /// into bytes. Returns why the call ended, the number of bytes read, and whether U+FFFD was written for a malformed
    /// sequence. Requires the feature `alloc`.
    ///
    /// What is written is [proved](crate::promises#encodings).
    #[cfg(feature = "alloc")]
    #[inline]
    pub fn decode_to_string(&mut self, src: &[u8], dst: &mut String, last: bool) -> (CoderResult, usize, bool) {
        let done = c::decode_to_string(&mut self.state, src, dst, last);
        (coded(&done), done.read, done.replaced > 0)
    }

    /// Decodes to UTF-8. Returns why the call ended, the number of bytes of `src` read and the number of bytes written.
    /// `last` says that no bytes follow `src`. The rest of `dst` is unchanged.
    ///
    /// A malformed sequence ends the call, and nothing is written for it. The first number of
    /// [`DecoderResult::Malformed`] is its length, one to three. The second is the number of bytes read after it, at most
    /// one, which are pending. Pass the unread bytes again.
    ///
    /// [Proved](crate::promises#encodings).
    #[inline]
    pub fn decode_to_utf8_without_replacement(
        &mut self,
        src: &[u8],
        dst: &mut [u8],
        last: bool,
    ) -> (DecoderResult, usize, usize) {
        let done = c::encoding_text_decoder_decode_to_utf8_without_replacement(&mut self.state, src, dst, last);
        ((&done).into(), done.read, done.written)
    }

    /// Decodes to UTF-16, as [`decode_to_utf8_without_replacement`](Self::decode_to_utf8_without_replacement) does to UTF-8.
    ///
    /// [Proved](crate::promises#encodings).
    #[inline]
    pub fn decode_to_utf16_without_replacement(
        &mut self,
        src: &[u8],
        dst: &mut [u16],
        last: bool,
    ) -> (DecoderResult, usize, usize) {
        let done = c::encoding_text_decoder_decode_to_utf16_without_replacement(&mut self.state, src, dst, last);
        ((&done).into(), done.read, done.written)
    }

    /// Decodes into a prefix of a text, as [`decode_to_utf8_without_replacement`](Self::decode_to_utf8_without_replacement)
    /// does into bytes. The continuation bytes directly after what is written become zero.
    ///
    /// What is written is [proved](crate::promises#encodings).
    #[inline]
    pub fn decode_to_str_without_replacement(
        &mut self,
        src: &[u8],
        dst: &mut str,
        last: bool,
    ) -> (DecoderResult, usize, usize) {
        let done = c::decode_to_str_without_replacement(&mut self.state, src, dst, last);
        ((&done).into(), done.read, done.written)
    }

    /// Decodes into the spare capacity of a `String`, which never grows, as
    /// [`decode_to_utf8_without_replacement`](Self::decode_to_utf8_without_replacement) does into bytes. Returns why the
    /// call ended and the number of bytes read. Requires the feature `alloc`.
    ///
    /// What is written is [proved](crate::promises#encodings).
    #[cfg(feature = "alloc")]
    #[inline]
    pub fn decode_to_string_without_replacement(
        &mut self,
        src: &[u8],
        dst: &mut String,
        last: bool,
    ) -> (DecoderResult, usize) {
        let done = c::decode_to_string_without_replacement(&mut self.state, src, dst, last);
        ((&done).into(), done.read)
    }
}
