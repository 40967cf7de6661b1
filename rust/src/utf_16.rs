//! UTF-16LE and UTF-16BE: bytes to code units, and back, and a streaming decoder. Encoding Standard, sections 14.3 and
//! 14.4. The conversions of whole buffers check no code unit: surrogates may be unpaired. The decoder reports these.

mod decoder;

use crate::c;
pub use decoder::Utf16Decoder;

/// The order of the two bytes of a code unit.
#[derive(Clone, Copy, Debug, PartialEq, Eq, Hash)]
pub enum ByteOrder {
    /// UTF-16LE: the less significant byte comes first.
    LittleEndian,
    /// UTF-16BE: the more significant byte comes first.
    BigEndian,
}

/// Converts bytes to code units, as many as `dst` holds. Returns the number of bytes read and of code units written.
///
/// The last byte of an odd number is not read. The rest of `dst` is unchanged.
///
/// [Proved](crate::promises#utf_16).
///
/// ```
/// use encoding_text::utf_16::{decode_utf16_bytes, ByteOrder};
/// let mut units = [0; 4];
/// let counts = decode_utf16_bytes(ByteOrder::LittleEndian, &[0x61, 0x00, 0x03, 0x26, 0x3D], &mut units);
/// assert_eq!((counts, units), ((4, 2), [0x61, 0x2603, 0, 0]));
/// ```
#[inline]
pub fn decode_utf16_bytes(order: ByteOrder, src: &[u8], dst: &mut [u16]) -> (usize, usize) {
    match order {
        ByteOrder::LittleEndian => c::encoding_text_decode_utf16le(src, dst),
        ByteOrder::BigEndian => c::encoding_text_decode_utf16be(src, dst),
    }
    .into()
}

/// Converts code units to bytes, as many as fit into `dst`. Returns the number of code units read and of bytes written.
///
/// The rest of `dst` is unchanged.
///
/// [Proved](crate::promises#utf_16).
///
/// ```
/// use encoding_text::utf_16::{encode_utf16_bytes, ByteOrder};
/// let mut bytes = [0; 5];
/// let counts = encode_utf16_bytes(ByteOrder::BigEndian, &[0x61, 0x2603, 0x62], &mut bytes);
/// assert_eq!((counts, bytes), ((2, 4), [0x00, 0x61, 0x26, 0x03, 0]));
/// ```
#[inline]
pub fn encode_utf16_bytes(order: ByteOrder, src: &[u16], dst: &mut [u8]) -> (usize, usize) {
    match order {
        ByteOrder::LittleEndian => c::encoding_text_encode_utf16le(src, dst),
        ByteOrder::BigEndian => c::encoding_text_encode_utf16be(src, dst),
    }
    .into()
}
