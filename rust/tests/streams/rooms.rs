//! Readers over long texts: into a buffer that is just long enough for all, and into one that is an element shorter. And
//! calls with owned results.

use crate::common::long_texts::long_texts;
use encoding_text::{DecodeUtf16, Repair};
use std::io::Read;

/// Reads until the buffer is full or no more comes, and returns how much was read.
fn filled<D>(buffer: &mut [D], mut read: impl FnMut(&mut [D]) -> usize) -> usize {
    let mut written = 0;
    while written < buffer.len() {
        match read(&mut buffer[written..]) {
            0 => break,
            count => written += count,
        }
    }
    written
}

/// A buffer that is an element shorter cuts the last character, since it ends within it.
#[test]
fn repair() {
    for text in long_texts() {
        let bytes = text.utf8.as_bytes();
        for missing in [0, 1] {
            let mut buffer = vec![0; bytes.len() - missing];
            let mut reader = Repair::with_capacity(bytes.len(), bytes);
            assert_eq!(filled(&mut buffer, |room| reader.read(room).unwrap()), buffer.len());
            assert!(buffer == bytes[..buffer.len()]);
            assert_eq!(reader.read(&mut [0; 8]).unwrap(), missing);
            assert_eq!(reader.replaced(), 0);
            let mut reader = Repair::new(bytes);
            let read = filled(&mut buffer, |room| {
                reader.read_reporting(room, |_| panic!("nothing is malformed")).unwrap()
            });
            assert_eq!(read, buffer.len());
            assert!(buffer == bytes[..read]);
        }
    }
}

#[test]
fn decode_utf16() {
    for text in long_texts() {
        for missing in [0, 1] {
            let mut units = vec![0; text.utf16.len() - missing];
            let mut reader = DecodeUtf16::with_capacity(text.utf8.len(), text.utf8.as_bytes());
            assert_eq!(filled(&mut units, |room| reader.read(room).unwrap()), units.len());
            assert!(units == text.utf16[..units.len()]);
            assert_eq!(reader.read(&mut [0; 8]).unwrap(), missing);
            let mut reader = DecodeUtf16::new(text.utf8.as_bytes());
            let read = filled(&mut units, |room| {
                reader.read_reporting(room, |_| panic!("nothing is malformed")).unwrap()
            });
            assert_eq!(read, units.len());
            assert!(units == text.utf16[..read]);
        }
    }
}

/// With a mark and without one, and with a malformed byte.
#[test]
fn decoded_texts() {
    use encoding_text::{UTF_16BE, UTF_16LE, UTF_8};
    for text in long_texts() {
        for (encoding, bytes, mark) in [
            (UTF_8, text.utf8.as_bytes().to_vec(), &b"\xEF\xBB\xBF"[..]),
            (UTF_16LE, text.bytes_of_units(false), b"\xFF\xFE"),
            (UTF_16BE, text.bytes_of_units(true), b"\xFE\xFF"),
        ] {
            let (marked, odd) = ([mark, &bytes].concat(), [&bytes[..], b"\xD8"].concat());
            let (found, had_errors) = encoding.decode_with_bom_removal(&marked);
            assert!(found == text.utf8 && !had_errors);
            let (found, had_errors) = encoding.decode_without_bom_handling(&marked);
            assert!(found == format!("\u{FEFF}{}", text.utf8) && !had_errors);
            let (found, decided, had_errors) = UTF_8.decode(&marked);
            assert!(found == text.utf8 && decided == encoding && !had_errors);
            let (found, had_errors) = encoding.decode_without_bom_handling(&odd);
            assert!(found == format!("{}\u{FFFD}", text.utf8) && had_errors);
            let found = encoding.decode_without_bom_handling_and_without_replacement(&bytes);
            assert!(found.unwrap() == text.utf8);
            assert_eq!(encoding.decode_without_bom_handling_and_without_replacement(&odd), None);
        }
    }
}
