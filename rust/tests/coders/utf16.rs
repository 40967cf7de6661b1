//! The UTF-16 decoder: rows, all cuts of short inputs, and random bytes in random pieces and rooms, next to
//! `char::decode_utf16` of std. The end of an input is that of the Encoding Standard: all that is pending is one malformed
//! sequence.

use crate::common::rows::Unit;
use encoding_text::utf_16::ByteOrder;
use encoding_text::{DecoderResult, Utf16Decoder};

const ORDERS: [ByteOrder; 2] = [ByteOrder::LittleEndian, ByteOrder::BigEndian];

/// A byte or a code unit, with the decoder's call that writes it.
trait Output: Unit + 'static {
    const REPLACEMENT: &'static [Self];
    /// The most units of a character.
    const MOST: usize;

    fn decode(decoder: &mut Utf16Decoder, src: &[u8], dst: &mut [Self], last: bool) -> (DecoderResult, usize, usize);
    fn room(decoder: &Utf16Decoder, length: usize) -> usize;
    fn of(text: &str) -> Vec<Self>;
}

impl Output for u8 {
    const REPLACEMENT: &'static [u8] = "\u{FFFD}".as_bytes();
    const MOST: usize = 4;

    fn decode(decoder: &mut Utf16Decoder, src: &[u8], dst: &mut [u8], last: bool) -> (DecoderResult, usize, usize) {
        decoder.decode_to_utf8_raw(src, dst, last)
    }

    fn room(decoder: &Utf16Decoder, length: usize) -> usize {
        decoder.max_utf8_buffer_length(length).unwrap()
    }

    fn of(text: &str) -> Vec<u8> {
        text.as_bytes().to_vec()
    }
}

impl Output for u16 {
    const REPLACEMENT: &'static [u16] = &[0xFFFD];
    const MOST: usize = 2;

    fn decode(decoder: &mut Utf16Decoder, src: &[u8], dst: &mut [u16], last: bool) -> (DecoderResult, usize, usize) {
        decoder.decode_to_utf16_raw(src, dst, last)
    }

    fn room(decoder: &Utf16Decoder, length: usize) -> usize {
        decoder.max_utf16_buffer_length(length).unwrap()
    }

    fn of(text: &str) -> Vec<u16> {
        text.encode_utf16().collect()
    }
}

/// Returns the text of the bytes, and the offset and length of each malformed sequence.
fn wanted(order: ByteOrder, bytes: &[u8]) -> (String, Vec<(usize, u8)>) {
    let unit = |pair: &[u8]| match order {
        ByteOrder::LittleEndian => u16::from_le_bytes([pair[0], pair[1]]),
        ByteOrder::BigEndian => u16::from_be_bytes([pair[0], pair[1]]),
    };
    let (mut text, mut malformed, mut offset) = (String::new(), Vec::new(), 0);
    for character in char::decode_utf16(bytes.chunks_exact(2).map(unit)) {
        match character {
            Ok(character) => {
                text.push(character);
                offset += 2 * character.len_utf16();
            }
            Err(error) => {
                let is_cut = error.unpaired_surrogate() < 0xDC00 && offset + 3 >= bytes.len();
                let length = if is_cut { bytes.len() - offset } else { 2 };
                text.push('\u{FFFD}');
                malformed.push((offset, length as u8));
                offset += length;
            }
        }
    }
    if offset < bytes.len() {
        text.push('\u{FFFD}');
        malformed.push((offset, (bytes.len() - offset) as u8));
    }
    (text, malformed)
}

/// Asserts that decoding in these pieces, into rooms of these lengths, yields what is wanted. The last piece is marked.
fn assert_yields<U: Output>(order: ByteOrder, pieces: &[&[u8]], mut room: impl FnMut(&Utf16Decoder, usize) -> usize) {
    let bytes = pieces.concat();
    let (text, malformed) = wanted(order, &bytes);
    let mut decoder = Utf16Decoder::new(order);
    let (mut out, mut found, mut offset) = (Vec::<U>::new(), Vec::new(), 0);
    for (index, piece) in pieces.iter().enumerate() {
        let (last, mut unread) = (index + 1 == pieces.len(), *piece);
        loop {
            let mut dst = vec![U::UNWRITTEN; room(&decoder, unread.len())];
            let (result, read, written) = U::decode(&mut decoder, unread, &mut dst, last);
            unread = &unread[read..];
            offset += read;
            out.extend_from_slice(&dst[..written]);
            assert!(dst[written..].iter().all(|unit| *unit == U::UNWRITTEN), "{bytes:X?}");
            match result {
                DecoderResult::InputEmpty => break,
                DecoderResult::OutputFull => assert!(dst.len() - written < U::MOST, "{bytes:X?}"),
                DecoderResult::Malformed(length, after) => {
                    assert!(after == 0 || !decoder.in_neutral_state());
                    out.extend_from_slice(U::REPLACEMENT);
                    found.push((offset - usize::from(after) - usize::from(length), length));
                }
            }
        }
        assert!(unread.is_empty());
    }
    assert!(decoder.in_neutral_state());
    assert_eq!(found, malformed, "{order:?} {bytes:X?}");
    assert_eq!(out, U::of(&text), "{order:?} {bytes:X?}");
}

/// Rows of the Encoding Standard's algorithm, little-endian: the bytes, their text, and the length of each malformed
/// sequence.
#[test]
fn rows() {
    let rows: [(&[u8], &str, &[u8]); 9] = [
        (b"", "", &[]),
        (b"a\0\x03\x26", "a\u{2603}", &[]),
        (b"\x3D\xD8\xA9\xDC", "\u{1F4A9}", &[]),
        (b"\x3D\xD8a", "\u{FFFD}", &[3]),
        (b"\x3D\xD8", "\u{FFFD}", &[2]),
        (b"a", "\u{FFFD}", &[1]),
        (b"\xA9\xDC\x3D\xD8a\0", "\u{FFFD}\u{FFFD}a", &[2, 2]),
        (b"\x3D\xD8\x3D\xD8\xA9\xDC", "\u{FFFD}\u{1F4A9}", &[2]),
        (b"\xFF\xFEa\0", "\u{FEFF}a", &[]),
    ];
    for (bytes, text, lengths) in rows {
        let (reference, malformed) = wanted(ByteOrder::LittleEndian, bytes);
        assert_eq!(reference, text, "{bytes:X?}");
        assert!(malformed.iter().map(|(_, length)| length).eq(lengths), "{bytes:X?}");
        for cut in 0..=bytes.len() {
            assert_yields::<u8>(ByteOrder::LittleEndian, &[&bytes[..cut], &bytes[cut..]], |_, _| 4);
            assert_yields::<u16>(ByteOrder::LittleEndian, &[&bytes[..cut], &bytes[cut..]], |_, _| 2);
        }
    }
}

/// Each cut into three pieces of each sequence of up to six bytes, of those that matter.
#[test]
fn short_inputs() {
    const BYTES: [u8; 4] = [0x00, 0x61, 0xD8, 0xDC];
    let mut count = 0;
    for length in 0..=6_u32 {
        for number in 0..BYTES.len().pow(length) {
            let bytes: Vec<u8> = (0..length)
                .map(|i| BYTES[number / BYTES.len().pow(i) % BYTES.len()])
                .collect();
            let first = number % (bytes.len() + 1);
            for second in first..=bytes.len() {
                let pieces = [&bytes[..first], &bytes[first..second], &bytes[second..]];
                for order in ORDERS {
                    assert_yields::<u8>(order, &pieces, u8::room);
                    assert_yields::<u16>(order, &pieces, u16::room);
                    count += 1;
                }
            }
        }
    }
    assert!(count > 30_000, "{count}");
}

/// Long inputs in pieces and rooms of random lengths: longer than each block of the decoder.
#[test]
fn long_inputs() {
    let mut state = 7_u64;
    let mut below = move |n: usize| {
        state = state
            .wrapping_mul(6364136223846793005)
            .wrapping_add(1442695040888963407);
        (state >> 33) as usize % n
    };
    for round in 0..300 {
        let order = ORDERS[round % 2];
        let mut bytes = Vec::new();
        let rare = [3, 40, 1000][round % 3];
        for _ in 0..below(4000) {
            let unit = match below(rare) {
                0 => 0xD800 + below(0x800) as u16,
                1 => below(0x10000) as u16,
                _ => [0x61, 0xE9, 0x4F60][below(3)],
            };
            bytes.extend(match order {
                ByteOrder::LittleEndian => unit.to_le_bytes(),
                ByteOrder::BigEndian => unit.to_be_bytes(),
            });
        }
        bytes.truncate(bytes.len().saturating_sub(below(2)));
        let mut pieces: Vec<&[u8]> = Vec::new();
        let mut rest = &bytes[..];
        while !rest.is_empty() {
            let (piece, after) = rest.split_at(rest.len().min(1 + below(3000)));
            pieces.push(piece);
            rest = after;
        }
        pieces.push(rest);
        assert_yields::<u8>(order, &pieces, |_, length| 4 + below(2 * length + 1));
        assert_yields::<u16>(order, &pieces, |_, length| 2 + below(length + 1));
    }
}

#[test]
fn queries() {
    let mut decoder = Utf16Decoder::new(ByteOrder::BigEndian);
    assert_eq!(decoder.max_utf16_buffer_length(10), Some(6));
    assert_eq!(decoder.max_utf8_buffer_length(11), Some(19));
    assert_eq!(decoder.max_utf8_buffer_length_without_replacement(11), Some(19));
    assert_eq!(
        decoder.max_utf16_buffer_length(usize::MAX - 1),
        Some(usize::MAX / 2 + 1)
    );
    assert_eq!(decoder.max_utf16_buffer_length(usize::MAX), None);
    assert_eq!(decoder.max_utf8_buffer_length(usize::MAX / 3 * 2), None);
    assert_eq!(decoder.max_utf8_buffer_length_without_replacement(usize::MAX), None);
    assert_eq!(
        decoder.decode_to_utf8_raw(b"\xD8\x3D\xDC", &mut [0; 4], false),
        (DecoderResult::InputEmpty, 3, 0)
    );
    assert_eq!(decoder.max_utf16_buffer_length(10), Some(8));
    assert_eq!(decoder.max_utf16_buffer_length(usize::MAX - 3), None);
    let mut clone = decoder.clone();
    assert_eq!(
        decoder.decode_to_utf8_raw(b"\xA9", &mut [0; 4], true),
        (DecoderResult::InputEmpty, 1, 4)
    );
    assert_eq!(
        clone.decode_to_utf8_raw(b"", &mut [0; 4], true),
        (DecoderResult::Malformed(3, 0), 0, 0)
    );
    assert!(decoder.in_neutral_state() && clone.in_neutral_state());
    assert_eq!(
        clone.decode_to_utf8_raw(b"\xD8\x3D\0", &mut [0; 4], false),
        (DecoderResult::InputEmpty, 3, 0)
    );
    assert_eq!(
        clone.decode_to_utf8_raw(b"a", &mut [0; 4], true),
        (DecoderResult::Malformed(2, 1), 0, 0)
    );
    assert!(!clone.in_neutral_state());
}
