//! Input of more than a megabyte through calls that allocate, iterate or stream, compared with `std`. It is longer than
//! any block, buffer and threshold, and no multiple of one.

use encoding_text::decoder::Piece;
use encoding_text::{next_malformed, utf8_chunks, DecoderResult, EncoderResult, Utf8Decoder, Utf8Encoder};

const LENGTH: usize = (1 << 20) + 13;

/// Returns the units again and again, up to the length.
fn repeated<T: Copy>(units: &[T]) -> Vec<T> {
    units.iter().copied().cycle().take(LENGTH).collect()
}

/// Returns letters that end with these bytes.
fn letters_before(bytes: &[u8]) -> Vec<u8> {
    let mut letters = vec![b'a'; LENGTH];
    letters[LENGTH - bytes.len()..].copy_from_slice(bytes);
    letters
}

/// Returns letters after these bytes.
fn letters_after(bytes: &[u8]) -> Vec<u8> {
    let mut letters = vec![b'a'; LENGTH];
    letters[..bytes.len()].copy_from_slice(bytes);
    letters
}

/// Returns letters with these bytes after the first and the second third, so that a long stretch follows another.
fn letters_around(bytes: &[u8]) -> Vec<u8> {
    let third = vec![b'a'; LENGTH / 3];
    [&third[..], &third, &third].join(bytes)
}

/// Texts and malformed bytes: letters only, after and before another sequence, and no letters.
fn rows() -> [(&'static str, Vec<u8>); 11] {
    [
        ("letters", repeated(b"a")),
        ("a snowman and letters", letters_after("☃".as_bytes())),
        ("letters and a snowman", letters_before("☃".as_bytes())),
        ("FF and letters", letters_after(b"\xFF")),
        ("letters and FF", letters_before(b"\xFF")),
        ("letters and a cut character", letters_before(b"\xF0\x9F\x98")),
        ("FF after each third of letters", letters_around(b"\xFF")),
        (
            "a cut character after each third of letters",
            letters_around(b"\xE2\x98"),
        ),
        ("characters of each length", repeated("aé☃😀".as_bytes())),
        ("FF only", repeated(b"\xFF")),
        ("cut characters", repeated(b"\xF0\x9F\x98a\xE2")),
    ]
}

#[test]
fn chunks() {
    for (row, bytes) in rows() {
        let chunks = utf8_chunks(&bytes).map(|chunk| (chunk.valid(), chunk.invalid()));
        let wanted = bytes.utf8_chunks().map(|chunk| (chunk.valid(), chunk.invalid()));
        assert!(chunks.eq(wanted), "{row}");
        let first = bytes.utf8_chunks().next().unwrap();
        let range = first.valid().len()..first.valid().len() + first.invalid().len();
        assert_eq!(next_malformed(&bytes), (!range.is_empty()).then_some(range), "{row}");
    }
}

/// A new decoder reads the first chunk by one call of each form.
#[test]
fn decoder() {
    for (row, bytes) in rows() {
        let chunk = bytes.utf8_chunks().next().unwrap();
        let (text, invalid) = (chunk.valid(), chunk.invalid().len());
        let result = match invalid {
            0 => DecoderResult::InputEmpty,
            length => DecoderResult::Malformed(length as u8, 0),
        };
        let mut units = vec![0; LENGTH + 1];
        let (ended, read, written) = Utf8Decoder::new_inner().decode_to_utf16_raw(&bytes, &mut units, true);
        assert_eq!((ended, read), (result, text.len() + invalid), "{row}");
        assert!(text.encode_utf16().eq(units[..written].iter().copied()), "{row}");
        let mut utf8 = vec![0; LENGTH + 3];
        let (ended, read, written) = Utf8Decoder::new_inner().decode_to_utf8_raw(&bytes, &mut utf8, true);
        assert_eq!((ended, read), (result, text.len() + invalid), "{row}");
        assert!(&utf8[..written] == text.as_bytes(), "{row}");
        let found = Utf8Decoder::new_inner().decode_borrowed(&bytes, true);
        let wanted = match text {
            "" => (Piece::Malformed(invalid as u8), invalid),
            text => (Piece::Text(text), text.len()),
        };
        assert!(found == wanted, "{row}");
    }
}

/// Code units: of text, and with unpaired surrogates, also at the end.
fn rows_of_units() -> [(&'static str, Vec<u16>); 6] {
    [
        ("letters", repeated(&[0x61])),
        ("snowmen", repeated(&[0x2603])),
        ("pairs, the last one cut", repeated(&[0xD83D, 0xDE00])),
        (
            "characters of each length",
            repeated(&[0x61, 0xE9, 0x2603, 0xD83D, 0xDE00]),
        ),
        ("high surrogates", repeated(&[0xD83D])),
        ("low surrogates between letters", repeated(&[0xDE00, 0x61])),
    ]
}

#[test]
fn encoder() {
    for (row, units) in rows_of_units() {
        let wanted = String::from_utf16_lossy(&units);
        let mut bytes = vec![0; 3 * LENGTH];
        let (result, read, written) = Utf8Encoder::new_inner().encode_from_utf16_raw(&units, &mut bytes, true);
        assert_eq!((result, read), (EncoderResult::InputEmpty, LENGTH), "{row}");
        assert!(&bytes[..written] == wanted.as_bytes(), "{row}");
    }
}

/// UTF-16 of more than a megabyte, decoded whole and into the spare capacity of a text that has just enough for a next
/// character.
#[cfg(feature = "alloc")]
#[test]
fn encodings_of_units() {
    use encoding_text::{CoderResult, UTF_16BE, UTF_16LE};
    for (index, (row, units)) in rows_of_units().iter().enumerate() {
        // an odd number, so that a pair is cut
        let units = &units[..LENGTH / 2 - 1];
        let wanted = String::from_utf16_lossy(units);
        let is_malformed = String::from_utf16(units).is_err();
        let (encoding, bytes_of) = match index % 2 {
            0 => (UTF_16LE, u16::to_le_bytes as fn(u16) -> [u8; 2]),
            _ => (UTF_16BE, u16::to_be_bytes as fn(u16) -> [u8; 2]),
        };
        let mut bytes = vec![0; 2 * units.len()];
        for (pair, unit) in bytes.chunks_exact_mut(2).zip(units) {
            pair.copy_from_slice(&bytes_of(*unit));
        }
        let (text, decided, had_errors) = encoding.decode(&bytes);
        assert_eq!(
            (text == wanted, decided, had_errors),
            (true, encoding, is_malformed),
            "{row}"
        );
        let text = encoding.decode_without_bom_handling_and_without_replacement(&bytes);
        assert!(text.as_deref() == (!is_malformed).then_some(&*wanted), "{row}");
        let mut text = String::with_capacity(wanted.len() + 3);
        let found = encoding.new_decoder().decode_to_string(&bytes, &mut text, true);
        assert_eq!(found, (CoderResult::InputEmpty, bytes.len(), is_malformed), "{row}");
        assert!(text == wanted, "{row}");
    }
}

/// A text that fits exactly, and one byte less, into which all but the last character is written.
#[test]
fn encoder_of_texts() {
    for (row, bytes) in rows() {
        let Ok(text) = std::str::from_utf8(&bytes) else {
            continue;
        };
        let last = text.chars().next_back().unwrap().len_utf8();
        let results = [
            (LENGTH, EncoderResult::InputEmpty),
            (LENGTH - last, EncoderResult::OutputFull),
        ];
        for (room, (written, result)) in [LENGTH, LENGTH - 1].into_iter().zip(results) {
            let mut dst = vec![0; room];
            let found = Utf8Encoder::new_inner().encode_from_utf8_raw(text, &mut dst, true);
            assert_eq!(found, (result, written, written), "{row}");
            assert!(dst[..written] == bytes[..written], "{row}");
        }
    }
}

#[cfg(feature = "alloc")]
#[test]
fn repair() {
    use std::borrow::Cow;
    for (row, bytes) in rows() {
        let (repaired, wanted) = (encoding_text::repair(&bytes), String::from_utf8_lossy(&bytes));
        assert!(repaired == wanted, "{row}");
        let are_borrowed = [&repaired, &wanted].map(|text| matches!(text, Cow::Borrowed(_)));
        assert_eq!(are_borrowed[0], are_borrowed[1], "{row}");
    }
}

/// UTF-8, decoded whole and into the spare capacity of a text that has just enough for a next character.
#[cfg(feature = "alloc")]
#[test]
fn encoding_of_bytes() {
    use encoding_text::{CoderResult, UTF_8};
    for (row, bytes) in rows() {
        let wanted = String::from_utf8_lossy(&bytes);
        let is_malformed = std::str::from_utf8(&bytes).is_err();
        let (text, decided, had_errors) = UTF_8.decode(&bytes);
        assert_eq!(
            (text == wanted, decided, had_errors),
            (true, UTF_8, is_malformed),
            "{row}"
        );
        let mut text = String::with_capacity(wanted.len() + 3);
        let found = UTF_8.new_decoder().decode_to_string(&bytes, &mut text, true);
        assert_eq!(found, (CoderResult::InputEmpty, bytes.len(), is_malformed), "{row}");
        assert!(text == wanted, "{row}");
    }
}

/// Bytes of Latin1 as text and back: borrowed if and only if they are ASCII.
#[cfg(feature = "alloc")]
#[test]
fn latin1() {
    use encoding_text::mem::{decode_latin1, encode_latin1_lossy};
    use std::borrow::Cow;
    let rows = [
        ("letters", repeated(b"a")),
        ("80 and letters", letters_after(b"\x80")),
        ("letters and FF", letters_before(b"\xFF")),
        ("FF only", repeated(b"\xFF")),
        ("each byte", repeated(&(0..=0xFF).collect::<Vec<u8>>())),
    ];
    for (row, bytes) in rows {
        let text: String = bytes.iter().map(|byte| char::from(*byte)).collect();
        let decoded = decode_latin1(&bytes);
        assert!(decoded == text, "{row}");
        assert_eq!(matches!(decoded, Cow::Borrowed(_)), bytes.is_ascii(), "{row}");
        let encoded = encode_latin1_lossy(&text);
        assert!(encoded == bytes, "{row}");
        assert_eq!(matches!(encoded, Cow::Borrowed(_)), bytes.is_ascii(), "{row}");
    }
}

#[cfg(feature = "std")]
#[test]
fn streams() {
    use encoding_text::{repair_to, DecodeUtf16, Repair};
    use std::io::Read;
    for (row, bytes) in rows() {
        let wanted = String::from_utf8_lossy(&bytes);
        let malformed = bytes.utf8_chunks().filter(|chunk| !chunk.invalid().is_empty()).count() as u64;
        let mut text = Vec::new();
        assert_eq!(repair_to(&bytes, &mut text).unwrap(), malformed, "{row}");
        assert!(text == wanted.as_bytes(), "{row}");
        let mut reader = Repair::new(&bytes[..]);
        let mut text = Vec::new();
        assert_eq!(reader.read_to_end(&mut text).unwrap(), wanted.len(), "{row}");
        assert!(text == wanted.as_bytes(), "{row}");
        assert_eq!(reader.replaced(), malformed, "{row}");
        let mut reader = DecodeUtf16::with_capacity(LENGTH, &bytes[..]);
        let mut units = vec![0; LENGTH + 1];
        let mut written = 0;
        while let count @ 1.. = reader.read(&mut units[written..]).unwrap() {
            written += count;
        }
        assert!(wanted.encode_utf16().eq(units[..written].iter().copied()), "{row}");
        assert_eq!(reader.replaced(), malformed, "{row}");
    }
}
