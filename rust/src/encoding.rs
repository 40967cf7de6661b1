//! UTF-8, UTF-16LE and UTF-16BE, with byte order marks and U+FFFD for each malformed sequence, under the names of
//! `encoding_rs`.

mod decoder;

use crate::c;
#[cfg(feature = "alloc")]
use crate::{repair, DecoderResult};
#[cfg(feature = "alloc")]
use alloc::{borrow::Cow, string::String};
use core::fmt;
use core::hash::{Hash, Hasher};
pub use decoder::{CoderResult, Decoder};

/// One of the three encodings: [`UTF_8`], [`UTF_16LE`] or [`UTF_16BE`], each of which there is once.
///
/// ```
/// use encoding_text::{UTF_16BE, UTF_8};
/// let (text, encoding, had_errors) = UTF_8.decode(b"\xFE\xFF\0a\xD8\x3D");
/// assert_eq!((&*text, encoding, had_errors), ("a\u{FFFD}", UTF_16BE, true));
/// ```
pub struct Encoding {
    name: &'static str,
    number: u8,
}

/// UTF-8.
pub static UTF_8: &Encoding = &Encoding {
    name: "UTF-8",
    number: c::UTF_8,
};

/// UTF-16LE: the less significant byte of a code unit comes first.
pub static UTF_16LE: &Encoding = &Encoding {
    name: "UTF-16LE",
    number: c::UTF_16LE,
};

/// UTF-16BE: the more significant byte of a code unit comes first.
pub static UTF_16BE: &Encoding = &Encoding {
    name: "UTF-16BE",
    number: c::UTF_16BE,
};

/// Returns the encoding of a number of the library.
#[inline]
fn of_number(number: u8) -> &'static Encoding {
    match number {
        c::UTF_8 => UTF_8,
        c::UTF_16LE => UTF_16LE,
        _ => UTF_16BE,
    }
}

impl Encoding {
    /// Returns the encoding whose byte order mark the bytes start with, and the length of the mark in bytes. Returns `None`
    /// if they start with none. Encoding Standard, "BOM sniff".
    ///
    /// [Proved](crate::promises#encodings).
    ///
    /// ```
    /// use encoding_text::{Encoding, UTF_16LE, UTF_8};
    /// assert_eq!(Encoding::for_bom(b"\xEF\xBB\xBFa"), Some((UTF_8, 3)));
    /// assert_eq!(Encoding::for_bom(b"\xFF\xFEa\0"), Some((UTF_16LE, 2)));
    /// assert_eq!(Encoding::for_bom(b"\xEF\xBB"), None);
    /// ```
    #[must_use]
    #[inline]
    pub fn for_bom(buffer: &[u8]) -> Option<(&'static Encoding, usize)> {
        let bom = c::encoding_text_for_bom(buffer);
        (bom.length > 0).then(|| (of_number(bom.encoding), bom.length))
    }

    /// Returns the name of the encoding in the Encoding Standard.
    #[must_use]
    #[inline]
    pub fn name(&'static self) -> &'static str {
        self.name
    }

    /// Returns a decoder that a byte order mark of any of the three encodings turns into one of that encoding. The mark is
    /// removed. Without a mark the encoding is this one. Encoding Standard, "decode".
    #[must_use]
    #[inline]
    pub fn new_decoder(&'static self) -> Decoder {
        Decoder::new(self.number, c::BOM_SNIFF)
    }

    /// Returns a decoder that removes a byte order mark of this encoding.
    #[must_use]
    #[inline]
    pub fn new_decoder_with_bom_removal(&'static self) -> Decoder {
        Decoder::new(self.number, c::BOM_REMOVE)
    }

    /// Returns a decoder that decodes a byte order mark to U+FEFF.
    #[must_use]
    #[inline]
    pub fn new_decoder_without_bom_handling(&'static self) -> Decoder {
        Decoder::new(self.number, c::BOM_OFF)
    }

    /// Decodes bytes whose encoding a byte order mark decides, and otherwise this one. Returns the text without the mark,
    /// with U+FFFD for each malformed sequence, the encoding, and whether there was one. Encoding Standard, "decode".
    ///
    /// Borrows the text if the bytes are well-formed UTF-8. Requires the feature `alloc`.
    #[cfg(feature = "alloc")]
    #[inline]
    pub fn decode<'a>(&'static self, bytes: &'a [u8]) -> (Cow<'a, str>, &'static Encoding, bool) {
        let (encoding, length) = Encoding::for_bom(bytes).unwrap_or((self, 0));
        let (text, had_errors) = encoding.decode_without_bom_handling(&bytes[length..]);
        (text, encoding, had_errors)
    }

    /// Decodes bytes without a byte order mark of this encoding at their start. Returns the text, with U+FFFD for each
    /// malformed sequence, and whether there was one.
    ///
    /// Borrows the text if the bytes are well-formed UTF-8. Requires the feature `alloc`.
    #[cfg(feature = "alloc")]
    #[inline]
    pub fn decode_with_bom_removal<'a>(&'static self, bytes: &'a [u8]) -> (Cow<'a, str>, bool) {
        match Encoding::for_bom(bytes) {
            Some((encoding, length)) if encoding == self => self.decode_without_bom_handling(&bytes[length..]),
            _ => self.decode_without_bom_handling(bytes),
        }
    }

    /// Decodes bytes; a byte order mark becomes U+FEFF. Returns the text, with U+FFFD for each malformed sequence, and
    /// whether there was one.
    ///
    /// Borrows the text if the bytes are well-formed UTF-8. Requires the feature `alloc`.
    #[cfg(feature = "alloc")]
    pub fn decode_without_bom_handling<'a>(&'static self, bytes: &'a [u8]) -> (Cow<'a, str>, bool) {
        if self == UTF_8 {
            let text = repair(bytes);
            let had_errors = matches!(text, Cow::Owned(_));
            return (text, had_errors);
        }
        let mut decoder = self.new_decoder_without_bom_handling();
        let mut text = room_for(&decoder, bytes);
        let (_, _, had_errors) = decoder.decode_to_string(bytes, &mut text, true);
        text.shrink_to_fit();
        (Cow::Owned(text), had_errors)
    }

    /// Decodes bytes; a byte order mark becomes U+FEFF. Returns `None` if a sequence is malformed.
    ///
    /// Borrows the text if the bytes are UTF-8. Requires the feature `alloc`.
    #[cfg(feature = "alloc")]
    #[must_use]
    pub fn decode_without_bom_handling_and_without_replacement<'a>(
        &'static self,
        bytes: &'a [u8],
    ) -> Option<Cow<'a, str>> {
        if self == UTF_8 {
            let prefix = c::utf8_prefix(bytes);
            return (prefix.len() == bytes.len()).then_some(Cow::Borrowed(prefix));
        }
        let mut decoder = self.new_decoder_without_bom_handling();
        let mut text = room_for(&decoder, bytes);
        let (result, _) = decoder.decode_to_string_without_replacement(bytes, &mut text, true);
        text.shrink_to_fit();
        (result == DecoderResult::InputEmpty).then_some(Cow::Owned(text))
    }
}

/// Returns an empty text with space for what the decoder makes of the bytes.
///
/// # Panics
///
/// Panics if that space is above `isize::MAX` bytes, as any allocation does.
#[cfg(feature = "alloc")]
fn room_for(decoder: &Decoder, bytes: &[u8]) -> String {
    String::with_capacity(decoder.max_utf8_buffer_length(bytes.len()).unwrap_or(usize::MAX))
}

impl PartialEq for Encoding {
    #[inline]
    fn eq(&self, other: &Encoding) -> bool {
        self.number == other.number
    }
}

impl Eq for Encoding {}

impl Hash for Encoding {
    #[inline]
    fn hash<H: Hasher>(&self, state: &mut H) {
        self.number.hash(state);
    }
}

impl fmt::Debug for Encoding {
    fn fmt(&self, formatter: &mut fmt::Formatter<'_>) -> fmt::Result {
        write!(formatter, "Encoding {{ {} }}", self.name)
    }
}
