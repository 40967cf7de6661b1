//! The streaming encoder to UTF-8: Encoding Standard, section 8.1.2.

use crate::c;

/// Why a call of an encoder ended.
#[must_use]
#[derive(Clone, Copy, Debug, PartialEq, Eq)]
pub enum EncoderResult {
    /// All of the source is read, and all of its output is written. After a call marked last nothing is pending.
    InputEmpty,
    /// The next character doesn't fit into the rest of the destination.
    OutputFull,
    /// A character that the encoding doesn't have. No encoder to UTF-8 returns it; the encoders of `encoding_rs`, whose
    /// results have this type, do.
    Unmappable(char),
}

#[inline]
fn ended(result: u8) -> EncoderResult {
    if result == c::INPUT_EMPTY {
        EncoderResult::InputEmpty
    } else {
        EncoderResult::OutputFull
    }
}

/// An encoder to UTF-8 that takes UTF-16 cut anywhere. Between calls it keeps the high surrogate that ended a call not
/// marked last, since its low half may follow: the pending surrogate.
///
/// ```
/// use encoding_text::{EncoderResult, Utf8Encoder};
/// let mut encoder = Utf8Encoder::new_inner();
/// let mut bytes = [0; 4];
/// assert_eq!(encoder.encode_from_utf16_raw(&[0xD83D], &mut bytes, false), (EncoderResult::InputEmpty, 1, 0));
/// assert_eq!(encoder.encode_from_utf16_raw(&[0xDE00], &mut bytes, true), (EncoderResult::InputEmpty, 1, 4));
/// assert_eq!(bytes, *"😀".as_bytes());
/// ```
#[derive(Clone, Debug, Default)]
pub struct Utf8Encoder {
    state: c::Encoder,
}

impl Utf8Encoder {
    /// Creates an encoder with nothing pending.
    #[must_use]
    #[inline]
    pub fn new_inner() -> Utf8Encoder {
        Utf8Encoder::default()
    }

    /// Returns how many bytes hold the output for `u16_length` code units and the pending surrogate: three for each.
    /// Returns `None` if that number is above `usize::MAX`.
    ///
    /// [Proved](crate::promises#encoder).
    #[must_use]
    #[inline]
    pub fn max_buffer_length_from_utf16_without_replacement(&self, u16_length: usize) -> Option<usize> {
        c::room(u16_length, 3, |length| {
            c::encoding_text_utf8_encoder_max_buffer_length_from_utf16_without_replacement(&self.state, length)
        })
    }

    /// Returns how many bytes hold the output for a text of `byte_length` bytes and the pending surrogate: one for each
    /// byte, and three for the surrogate. Returns `None` if that number is above `usize::MAX`.
    ///
    /// [Proved](crate::promises#encoder).
    #[must_use]
    #[inline]
    pub fn max_buffer_length_from_utf8_without_replacement(&self, byte_length: usize) -> Option<usize> {
        c::room(byte_length, 1, |length| {
            c::encoding_text_utf8_encoder_max_buffer_length_from_utf8_without_replacement(&self.state, length)
        })
    }

    /// Encodes the pending surrogate and then as many whole characters as fit, with U+FFFD for each unpaired surrogate.
    /// A high surrogate that ends a call not marked last becomes pending instead. Returns why the call ended, the
    /// number of code units read and the number of bytes written. `last` says that no code units follow.
    ///
    /// [Proved](crate::promises#encoder).
    #[inline]
    pub fn encode_from_utf16_raw(&mut self, src: &[u16], dst: &mut [u8], last: bool) -> (EncoderResult, usize, usize) {
        let encoded = c::encoding_text_utf8_encoder_encode_from_utf16(&mut self.state, src, dst, last);
        (ended(encoded.result), encoded.read, encoded.written)
    }

    /// Encodes as [`Utf8Encoder::encode_from_utf16_raw`] does. Returns also how many unpaired surrogates were replaced with
    /// U+FFFD. One that became pending in an earlier call counts in the call that replaces it.
    ///
    /// [Proved](crate::promises#encoder).
    #[inline]
    pub fn encode_from_utf16_with_count(
        &mut self,
        src: &[u16],
        dst: &mut [u8],
        last: bool,
    ) -> (EncoderResult, usize, usize, usize) {
        let encoded = c::encoding_text_utf8_encoder_encode_from_utf16_with_count(&mut self.state, src, dst, last);
        (ended(encoded.result), encoded.read, encoded.written, encoded.replaced)
    }

    /// Encodes as [`Utf8Encoder::encode_from_utf8_raw`] does. Returns also how many unpaired surrogates were replaced with
    /// U+FFFD: 1 if one was pending and U+FFFD fits, else 0.
    #[inline]
    pub fn encode_from_utf8_with_count(
        &mut self,
        src: &str,
        dst: &mut [u8],
        last: bool,
    ) -> (EncoderResult, usize, usize, usize) {
        let before = self.max_buffer_length_from_utf8_without_replacement(0);
        let (result, read, written) = self.encode_from_utf8_raw(src, dst, last);
        let after = self.max_buffer_length_from_utf8_without_replacement(0);
        (result, read, written, usize::from(before != after))
    }

    /// Writes U+FFFD for the pending surrogate and then as many whole characters of the text as fit. Returns why the
    /// call ended, the number of bytes of the text read and the number of bytes written. `last` has no effect: a text
    /// never ends within a character, and U+FFFD is written at once.
    ///
    /// The U+FFFD is written by a call that is [proved](crate::promises#encoder). The crate copies the text, unproved:
    /// the library's own call takes bytes, and would validate them first.
    #[inline]
    pub fn encode_from_utf8_raw(&mut self, src: &str, dst: &mut [u8], _last: bool) -> (EncoderResult, usize, usize) {
        let mut written = 0;
        if self.state.may_hold() {
            let (result, _, replacement) = self.encode_from_utf16_raw(&[], dst, true);
            if result == EncoderResult::OutputFull {
                return (result, 0, 0);
            }
            written = replacement;
        }
        let room = &mut dst[written..];
        if src.len() <= room.len() {
            room[..src.len()].copy_from_slice(src.as_bytes());
            return (EncoderResult::InputEmpty, src.len(), written + src.len());
        }
        let read = (0..=room.len())
            .rev()
            .find(|&end| src.is_char_boundary(end))
            .unwrap_or(0);
        room[..read].copy_from_slice(&src.as_bytes()[..read]);
        (EncoderResult::OutputFull, read, written + read)
    }
}
