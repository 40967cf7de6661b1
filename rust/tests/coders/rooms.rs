//! Coders on long texts: into a destination that is just long enough, and into one that is an element shorter. And how
//! long a destination has to be for more bytes than 32 bits count.

use crate::common::long_texts::{assert_fills, long_texts, COUNT};
use encoding_text::utf_16::ByteOrder;
use encoding_text::{
    CoderResult, Decoder, DecoderResult, EncoderResult, Encoding, Utf16Decoder, Utf8Decoder, Utf8Encoder, UTF_16BE,
    UTF_16LE, UTF_8,
};
use std::str::from_utf8_mut;

/// How many bytes follow: a count of 32 bits would be that of LOW.
#[cfg(target_pointer_width = "64")]
const LONG: usize = (1 << 32) + LOW;
const LOW: usize = 8;

/// Asserts why a call ended that read so much of a source of this length.
fn assert_ended<R: PartialEq + std::fmt::Debug>(result: R, (read, length): (usize, usize), [all, full]: [R; 2]) {
    assert_eq!(result, if read == length { all } else { full });
}

const DECODED: [DecoderResult; 2] = [DecoderResult::InputEmpty, DecoderResult::OutputFull];
const ENCODED: [EncoderResult; 2] = [EncoderResult::InputEmpty, EncoderResult::OutputFull];
const CODED: [CoderResult; 2] = [CoderResult::InputEmpty, CoderResult::OutputFull];

#[test]
fn utf8_decoder() {
    for text in long_texts() {
        let (utf8, bytes) = (text.utf8.as_bytes(), text.bytes);
        assert_fills(&text.utf16, (bytes, text.units), |dst| {
            let (result, read, written) = Utf8Decoder::new_inner().decode_to_utf16_raw(utf8, dst, true);
            assert_ended(result, (read, utf8.len()), DECODED);
            (read, written)
        });
        assert_fills(utf8, (bytes, bytes), |dst| {
            let (result, read, written) = Utf8Decoder::new_inner().decode_to_utf8_raw(utf8, dst, true);
            assert_ended(result, (read, utf8.len()), DECODED);
            (read, written)
        });
    }
}

#[test]
fn utf16_decoder() {
    for text in long_texts() {
        for (order, is_big) in [(ByteOrder::LittleEndian, false), (ByteOrder::BigEndian, true)] {
            let (src, of_one) = (text.bytes_of_units(is_big), 2 * text.units);
            assert_fills(&text.utf16, (of_one, text.units), |dst| {
                let (result, read, written) = Utf16Decoder::new(order).decode_to_utf16_raw(&src, dst, true);
                assert_ended(result, (read, src.len()), DECODED);
                (read, written)
            });
            assert_fills(text.utf8.as_bytes(), (of_one, text.bytes), |dst| {
                let (result, read, written) = Utf16Decoder::new(order).decode_to_utf8_raw(&src, dst, true);
                assert_ended(result, (read, src.len()), DECODED);
                (read, written)
            });
        }
    }
}

#[test]
fn utf8_encoder() {
    for text in long_texts() {
        let (utf8, utf16, bytes) = (text.utf8.as_bytes(), &text.utf16, text.bytes);
        assert_fills(utf8, (text.units, bytes), |dst| {
            let (result, read, written) = Utf8Encoder::new_inner().encode_from_utf16_raw(utf16, dst, true);
            assert_ended(result, (read, utf16.len()), ENCODED);
            (read, written)
        });
        assert_fills(utf8, (text.units, bytes), |dst| {
            let mut encoder = Utf8Encoder::new_inner();
            let (result, read, written, replaced) = encoder.encode_from_utf16_with_count(utf16, dst, true);
            assert_ended(result, (read, utf16.len()), ENCODED);
            assert_eq!(replaced, 0);
            (read, written)
        });
        assert_fills(utf8, (bytes, bytes), |dst| {
            let (result, read, written) = Utf8Encoder::new_inner().encode_from_utf8_raw(&text.utf8, dst, true);
            assert_ended(result, (read, utf8.len()), ENCODED);
            (read, written)
        });
        assert_fills(utf8, (bytes, bytes), |dst| {
            let mut encoder = Utf8Encoder::new_inner();
            let (result, read, written, replaced) = encoder.encode_from_utf8_with_count(&text.utf8, dst, true);
            assert_ended(result, (read, utf8.len()), ENCODED);
            assert_eq!(replaced, 0);
            (read, written)
        });
    }
}

/// Calls `check` with each text in each encoding: the encoding, the bytes, and how many of these a character has.
fn each_encoding(mut check: impl FnMut(&crate::common::long_texts::LongText, &'static Encoding, &[u8], usize)) {
    for text in long_texts() {
        check(&text, UTF_8, text.utf8.as_bytes(), text.bytes);
        check(&text, UTF_16LE, &text.bytes_of_units(false), 2 * text.units);
        check(&text, UTF_16BE, &text.bytes_of_units(true), 2 * text.units);
    }
}

/// Returns a decoder whose bytes are all text.
fn decoder_of(encoding: &'static Encoding) -> Decoder {
    encoding.new_decoder_without_bom_handling()
}

#[test]
fn decoder() {
    each_encoding(|text, encoding, src, from| {
        assert_fills(&text.utf16, (from, text.units), |dst| {
            let (result, read, written, had_errors) = decoder_of(encoding).decode_to_utf16(src, dst, true);
            assert_ended(
                (result, had_errors),
                (read, src.len()),
                CODED.map(|result| (result, false)),
            );
            (read, written)
        });
        assert_fills(text.utf8.as_bytes(), (from, text.bytes), |dst| {
            let (result, read, written, had_errors) = decoder_of(encoding).decode_to_utf8(src, dst, true);
            assert_ended(
                (result, had_errors),
                (read, src.len()),
                CODED.map(|result| (result, false)),
            );
            (read, written)
        });
        assert_fills(text.utf8.as_bytes(), (from, text.bytes), |dst| {
            let dst = from_utf8_mut(dst).unwrap();
            let (result, read, written, had_errors) = decoder_of(encoding).decode_to_str(src, dst, true);
            assert_ended(
                (result, had_errors),
                (read, src.len()),
                CODED.map(|result| (result, false)),
            );
            (read, written)
        });
    });
}

#[test]
fn decoder_without_replacement() {
    each_encoding(|text, encoding, src, from| {
        assert_fills(&text.utf16, (from, text.units), |dst| {
            let (result, read, written) = decoder_of(encoding).decode_to_utf16_without_replacement(src, dst, true);
            assert_ended(result, (read, src.len()), DECODED);
            (read, written)
        });
        assert_fills(text.utf8.as_bytes(), (from, text.bytes), |dst| {
            let (result, read, written) = decoder_of(encoding).decode_to_utf8_without_replacement(src, dst, true);
            assert_ended(result, (read, src.len()), DECODED);
            (read, written)
        });
        assert_fills(text.utf8.as_bytes(), (from, text.bytes), |dst| {
            let dst = from_utf8_mut(dst).unwrap();
            let (result, read, written) = decoder_of(encoding).decode_to_str_without_replacement(src, dst, true);
            assert_ended(result, (read, src.len()), DECODED);
            (read, written)
        });
    });
}

/// The spare capacity of a text is a destination, which never grows.
#[cfg(feature = "alloc")]
#[test]
fn decoder_to_strings() {
    each_encoding(|text, encoding, src, from| {
        for missing in [0, 1] {
            let whole = COUNT - missing;
            let mut dst = String::with_capacity(text.utf8.len() - missing);
            let room = dst.capacity();
            let (result, read, had_errors) = decoder_of(encoding).decode_to_string(src, &mut dst, true);
            assert_ended(
                (result, had_errors),
                (read, src.len()),
                CODED.map(|result| (result, false)),
            );
            assert_eq!((read, dst.capacity()), (whole * from, room));
            assert!(dst == text.utf8[..whole * text.bytes]);
            let mut dst = String::with_capacity(text.utf8.len() - missing);
            let (result, read) = decoder_of(encoding).decode_to_string_without_replacement(src, &mut dst, true);
            assert_ended(result, (read, src.len()), DECODED);
            assert_eq!((read, dst.capacity()), (whole * from, room));
            assert!(dst == text.utf8[..whole * text.bytes]);
        }
    });
}

/// Bytes with marks, and FF after a text.
#[test]
fn marks_and_ascii() {
    let text = &long_texts()[0];
    let marked = [b"\xEF\xBB\xBF", text.utf8.as_bytes()].concat();
    assert_eq!(Encoding::for_bom(&marked), Some((UTF_8, 3)));
    assert_eq!(Encoding::for_bom(text.utf8.as_bytes()), None);
    let ended = [text.utf8.as_bytes(), b"\xFF"].concat();
    let decoder = UTF_8.new_decoder_without_bom_handling();
    assert_eq!(decoder.latin1_byte_compatible_up_to(&ended), Some(COUNT));
    let decoder = UTF_16LE.new_decoder_without_bom_handling();
    assert_eq!(decoder.latin1_byte_compatible_up_to(&ended), None);
}

/// Asserts that a length grows by this for 2^32 bytes more.
#[cfg(target_pointer_width = "64")]
fn assert_grows(length: impl Fn(usize) -> Option<usize>, by: usize) {
    assert_eq!(length(LONG).unwrap() - length(LOW).unwrap(), by);
}

#[cfg(target_pointer_width = "64")]
#[test]
fn lengths() {
    const MORE: usize = LONG - LOW;
    let decoder = Utf8Decoder::new_inner();
    assert_grows(|length| decoder.max_utf16_buffer_length(length), MORE);
    assert_grows(
        |length| decoder.max_utf8_buffer_length_without_replacement(length),
        MORE,
    );
    assert_grows(|length| decoder.max_utf8_buffer_length(length), 3 * MORE);
    let decoder = Utf16Decoder::new(ByteOrder::BigEndian);
    assert_grows(|length| decoder.max_utf16_buffer_length(length), MORE / 2);
    assert_grows(
        |length| decoder.max_utf8_buffer_length_without_replacement(length),
        MORE / 2 * 3,
    );
    assert_grows(|length| decoder.max_utf8_buffer_length(length), MORE / 2 * 3);
    let decoder = UTF_8.new_decoder_without_bom_handling();
    assert_grows(|length| decoder.max_utf16_buffer_length(length), MORE);
    assert_grows(
        |length| decoder.max_utf8_buffer_length_without_replacement(length),
        MORE,
    );
    assert_grows(|length| decoder.max_utf8_buffer_length(length), 3 * MORE);
    let encoder = Utf8Encoder::new_inner();
    assert_grows(
        |length| encoder.max_buffer_length_from_utf16_without_replacement(length),
        3 * MORE,
    );
    assert_grows(
        |length| encoder.max_buffer_length_from_utf8_without_replacement(length),
        MORE,
    );
}
