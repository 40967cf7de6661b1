//! The streaming decoder of UTF-16LE and UTF-16BE: Encoding Standard, shared UTF-16 decoder.

use super::ByteOrder;
use crate::{c, DecoderResult};

/// A decoder of UTF-16LE or UTF-16BE that comes in pieces, which may end at any byte. Between calls it keeps the start of
/// a character, of at most three bytes: a high surrogate, the first byte of a code unit, or both.
///
/// Fed any bytes in any pieces into any rooms it yields the characters and the malformed sequences of those bytes, each
/// once and in order. It reports each malformed sequence; the caller writes U+FFFD for it or stops.
///
/// ```
/// use encoding_text::utf_16::ByteOrder;
/// use encoding_text::{DecoderResult, Utf16Decoder};
/// let mut decoder = Utf16Decoder::new(ByteOrder::LittleEndian);
/// let mut text = [0; 8];
/// assert_eq!(decoder.decode_to_utf8_raw(b"a\0\x3D\xD8\xA9", &mut text, false), (DecoderResult::InputEmpty, 5, 1));
/// assert_eq!(decoder.decode_to_utf8_raw(b"\xDC", &mut text[1..], false), (DecoderResult::InputEmpty, 1, 4));
/// assert_eq!(&text[..5], "a\u{1F4A9}".as_bytes());
/// // at the end, all that is pending is one malformed sequence
/// assert_eq!(decoder.decode_to_utf8_raw(b"\x3D\xD8a", &mut text, true), (DecoderResult::Malformed(3, 0), 3, 0));
/// ```
#[derive(Clone, Debug)]
pub struct Utf16Decoder {
    state: c::Utf16State,
}

impl Utf16Decoder {
    /// Creates a decoder with nothing pending.
    #[must_use]
    #[inline]
    pub fn new(order: ByteOrder) -> Utf16Decoder {
        Utf16Decoder {
            state: c::Utf16State::new(order == ByteOrder::BigEndian),
        }
    }

    /// Returns whether nothing is pending.
    ///
    /// [Proved](crate::promises#utf-16-decoder).
    #[must_use]
    #[inline]
    pub fn in_neutral_state(&self) -> bool {
        c::encoding_text_utf16_decoder_in_neutral_state(&self.state)
    }

    /// Returns how many code units hold the output for the next `byte_length` bytes, in any pieces, even with U+FFFD
    /// for each report: half the sum of `byte_length`, the pending bytes and one, plus one. Returns `None` if that sum
    /// is above `usize::MAX`.
    ///
    /// [Proved](crate::promises#utf-16-decoder).
    #[must_use]
    #[inline]
    pub fn max_utf16_buffer_length(&self, byte_length: usize) -> Option<usize> {
        c::below_max(c::encoding_text_utf16_decoder_max_utf16_buffer_length(
            &self.state,
            byte_length,
        ))
    }

    /// Returns how many bytes hold the output for the next `byte_length` bytes, in any pieces, with nothing written for
    /// reports. It is what [`max_utf8_buffer_length`](Self::max_utf8_buffer_length) returns.
    ///
    /// [Proved](crate::promises#utf-16-decoder).
    #[must_use]
    #[inline]
    pub fn max_utf8_buffer_length_without_replacement(&self, byte_length: usize) -> Option<usize> {
        c::below_max(
            c::encoding_text_utf16_decoder_max_utf8_buffer_length_without_replacement(&self.state, byte_length),
        )
    }

    /// Returns how many bytes hold the output for the next `byte_length` bytes, in any pieces, even with U+FFFD for
    /// each report: three times half the sum of `byte_length`, the pending bytes and one, plus one. Returns `None` if
    /// that number is above `usize::MAX`.
    ///
    /// [Proved](crate::promises#utf-16-decoder).
    #[must_use]
    #[inline]
    pub fn max_utf8_buffer_length(&self, byte_length: usize) -> Option<usize> {
        c::below_max(c::encoding_text_utf16_decoder_max_utf8_buffer_length(
            &self.state,
            byte_length,
        ))
    }

    /// Decodes to UTF-16. Returns why the call ended, the number of bytes of `src` read and the number of code units
    /// written. `last` says that no bytes follow `src`.
    ///
    /// Nothing is written for a malformed sequence: it is reported. Its length is two bytes, or one to three at the end
    /// of the input. The second number of [`DecoderResult::Malformed`] is that of the bytes read after the sequence, at
    /// most one, which stay pending. Pass the unread bytes again. If `dst` has at least two code units and `src` a byte,
    /// the call reads a byte or reports. The rest of `dst` is unchanged.
    ///
    /// [Proved](crate::promises#utf-16-decoder).
    #[inline]
    pub fn decode_to_utf16_raw(&mut self, src: &[u8], dst: &mut [u16], last: bool) -> (DecoderResult, usize, usize) {
        let decoded = c::encoding_text_utf16_decoder_decode_to_utf16(&mut self.state, src, dst, last);
        ((&decoded).into(), decoded.read, decoded.written)
    }

    /// Decodes to UTF-8. Returns why the call ended, the number of bytes of `src` read and the number of bytes written.
    /// `last` says that no bytes follow `src`.
    ///
    /// A malformed sequence is reported as by [`decode_to_utf16_raw`](Self::decode_to_utf16_raw). If `dst` has at least
    /// four bytes and `src` one, the call reads a byte or reports. The rest of `dst` is unchanged.
    ///
    /// [Proved](crate::promises#utf-16-decoder).
    #[inline]
    pub fn decode_to_utf8_raw(&mut self, src: &[u8], dst: &mut [u8], last: bool) -> (DecoderResult, usize, usize) {
        let decoded = c::encoding_text_utf16_decoder_decode_to_utf8(&mut self.state, src, dst, last);
        ((&decoded).into(), decoded.read, decoded.written)
    }
}
