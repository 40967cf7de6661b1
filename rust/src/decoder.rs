//! The streaming decoder of UTF-8: Encoding Standard, section 8.1.1.

use crate::c;

/// Why a call of a decoder ended.
#[must_use]
#[derive(Clone, Copy, Debug, PartialEq, Eq)]
pub enum DecoderResult {
    /// All of the source was read. After a call marked last nothing is pending: an incomplete sequence at its end is
    /// reported first.
    InputEmpty,
    /// The rest of the destination may be too short for the next character. Call again with more space.
    OutputFull,
    /// A malformed sequence, whose length (one to three bytes) is the first number. The second is the number of bytes
    /// read after it, which are pending: always 0 for UTF-8, and at most 1 for UTF-16.
    Malformed(u8, u8),
}

#[inline]
fn ended(decoded: &c::DecodeResult) -> DecoderResult {
    match decoded.result() {
        c::INPUT_EMPTY => DecoderResult::InputEmpty,
        c::OUTPUT_FULL => DecoderResult::OutputFull,
        _ => DecoderResult::Malformed(decoded.malformed_length, 0),
    }
}

impl From<&c::DecoderCallResult> for DecoderResult {
    #[inline]
    fn from(done: &c::DecoderCallResult) -> DecoderResult {
        match done.result {
            c::INPUT_EMPTY => DecoderResult::InputEmpty,
            c::OUTPUT_FULL => DecoderResult::OutputFull,
            _ => DecoderResult::Malformed(done.malformed_length, done.read_after),
        }
    }
}

/// What a borrowed call of a decoder found.
#[must_use]
#[derive(Clone, Copy, Debug, PartialEq, Eq)]
pub enum Piece<'a> {
    /// The longest well-formed prefix of the source, borrowed from it.
    Text(&'a str),
    /// The character that the pending bytes and the read ones form.
    Char(char),
    /// A malformed sequence of this length, one to three bytes: the pending bytes and then the read ones.
    Malformed(u8),
    /// All of the source was read.
    InputEmpty,
}

/// A decoder of UTF-8 that comes in pieces. Between calls it keeps an incomplete sequence of at most three bytes: the
/// pending bytes.
///
/// Of any bytes, in any pieces and into destinations of any length, it yields the characters and the malformed sequences, each
/// once and in order. It reports each malformed sequence; the caller writes U+FFFD for it or stops.
///
/// ```
/// use encoding_text::{DecoderResult, Utf8Decoder};
/// let mut decoder = Utf8Decoder::new_inner();
/// let mut units = [0; 4];
/// assert_eq!(decoder.decode_to_utf16_raw(b"a\xE2\x98", &mut units, false), (DecoderResult::InputEmpty, 3, 1));
/// assert_eq!(decoder.decode_to_utf16_raw(b"\x83", &mut units, true), (DecoderResult::InputEmpty, 1, 1));
/// assert_eq!(units[0], 0x2603);
/// ```
#[derive(Clone, Debug, Default)]
pub struct Utf8Decoder {
    state: c::Decoder,
}

impl Utf8Decoder {
    /// Creates a decoder with nothing pending.
    #[must_use]
    #[inline]
    pub fn new_inner() -> Utf8Decoder {
        Utf8Decoder::default()
    }

    /// Returns whether nothing is pending.
    ///
    /// [Proved](crate::promises#decoder).
    #[must_use]
    #[inline]
    pub fn in_neutral_state(&self) -> bool {
        c::encoding_text_utf8_decoder_in_neutral_state(&self.state)
    }

    /// Returns how many code units hold the output for the next `byte_length` bytes, in any pieces, even with U+FFFD
    /// for each report. Returns `None` if that number is above `usize::MAX`.
    ///
    /// [Proved](crate::promises#decoder).
    #[must_use]
    #[inline]
    pub fn max_utf16_buffer_length(&self, byte_length: usize) -> Option<usize> {
        c::room(byte_length, 1, |length| {
            c::encoding_text_utf8_decoder_max_utf16_buffer_length(&self.state, length)
        })
    }

    /// Returns how many bytes hold the output for the next `byte_length` bytes, in any pieces, with nothing written for
    /// reports. Returns `None` if that number is above `usize::MAX`.
    ///
    /// [Proved](crate::promises#decoder).
    #[must_use]
    #[inline]
    pub fn max_utf8_buffer_length_without_replacement(&self, byte_length: usize) -> Option<usize> {
        c::room(byte_length, 1, |length| {
            c::encoding_text_utf8_decoder_max_utf8_buffer_length_without_replacement(&self.state, length)
        })
    }

    /// Returns how many bytes hold the output for the next `byte_length` bytes, in any pieces, even with U+FFFD for
    /// each report. Returns `None` if that number is above `usize::MAX`.
    ///
    /// [Proved](crate::promises#decoder).
    #[must_use]
    #[inline]
    pub fn max_utf8_buffer_length(&self, byte_length: usize) -> Option<usize> {
        c::room(byte_length, 3, |length| {
            c::encoding_text_utf8_decoder_max_utf8_buffer_length(&self.state, length)
        })
    }

    /// Decodes to UTF-16. Returns why the call ended, the number of bytes of `src` read and the number of code units
    /// written. `last` says that no bytes follow `src`.
    ///
    /// Nothing is written for a malformed sequence: it is reported, and the decoder is as a new one. Pass the unread
    /// bytes again. If `dst` has at least two code units and `src` a byte, the call reads a byte or reports. The rest
    /// of `dst` is unchanged.
    ///
    /// [Proved](crate::promises#decoder).
    #[inline]
    pub fn decode_to_utf16_raw(&mut self, src: &[u8], dst: &mut [u16], last: bool) -> (DecoderResult, usize, usize) {
        let decoded = c::encoding_text_utf8_decoder_decode_to_utf16(&mut self.state, src, dst, last);
        (ended(&decoded), decoded.read, decoded.written)
    }

    /// Decodes to UTF-8. Returns why the call ended, the number of bytes of `src` read and the number of bytes written.
    /// `last` says that no bytes follow `src`.
    ///
    /// Nothing is written for a malformed sequence: it is reported, and the decoder is as a new one. Pass the unread
    /// bytes again. If `dst` has at least four bytes and `src` one, the call reads a byte or reports. The rest of `dst`
    /// is unchanged.
    ///
    /// [Proved](crate::promises#decoder).
    #[inline]
    pub fn decode_to_utf8_raw(&mut self, src: &[u8], dst: &mut [u8], last: bool) -> (DecoderResult, usize, usize) {
        let decoded = c::encoding_text_utf8_decoder_decode_to_utf8(&mut self.state, src, dst, last);
        (ended(&decoded), decoded.read, decoded.written)
    }

    /// Decodes without a destination. Returns what was found and the number of bytes of `src` read. `last` says that no
    /// bytes follow `src`.
    ///
    /// If nothing is pending and `src` starts with a character, it finds the longest well-formed prefix, which isn't
    /// copied. Otherwise it finds the character or the malformed sequence at the start of the pending bytes and `src`.
    /// If these end first, it returns [`Piece::InputEmpty`], and all of them are pending now; after a call marked last
    /// none are. Pass the unread bytes again.
    ///
    /// [Proved](crate::promises#decoder).
    ///
    /// ```
    /// use encoding_text::{decoder::Piece, Utf8Decoder};
    /// let mut decoder = Utf8Decoder::new_inner();
    /// assert_eq!(decoder.decode_borrowed("né\u{2603}".as_bytes(), true), (Piece::Text("né\u{2603}"), 6));
    /// assert_eq!(decoder.decode_borrowed(b"\xE2\x98Z", true), (Piece::Malformed(2), 2));
    /// ```
    #[inline]
    pub fn decode_borrowed<'a>(&mut self, src: &'a [u8], last: bool) -> (Piece<'a>, usize) {
        c::decode_borrowed(&mut self.state, src, last)
    }
}
