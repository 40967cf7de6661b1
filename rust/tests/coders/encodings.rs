//! `Encoding` and `Decoder`: which byte order marks decide and are removed, and what the calls report.

use encoding_text::{CoderResult, Decoder, Encoding, UTF_16BE, UTF_16LE, UTF_8};

/// A stream that starts with a mark, and what it is for each handling of marks.
struct Row {
    bytes: &'static [u8],
    encoding: &'static Encoding,
    decided: &'static Encoding,
    sniffed: &'static str,
    removed: &'static str,
    kept: &'static str,
    /// Whether a sequence is malformed, for each of the three.
    had_errors: [bool; 3],
}

fn row(
    bytes: &'static [u8],
    [encoding, decided]: [&'static Encoding; 2],
    [sniffed, removed, kept]: [&'static str; 3],
    had_errors: [bool; 3],
) -> Row {
    Row {
        bytes,
        encoding,
        decided,
        sniffed,
        removed,
        kept,
        had_errors,
    }
}

/// Some streams have a malformed sequence, some have U+FFFD itself, and some have both.
fn rows() -> [Row; 13] {
    let other = "\u{EFBB}\u{BF61}\u{FFFD}";
    [
        row(
            b"\xEF\xBB\xBFa\xFF",
            [UTF_16BE, UTF_8],
            ["a\u{FFFD}", other, other],
            [true; 3],
        ),
        row(
            b"\xFF\xFEa\0",
            [UTF_16LE, UTF_16LE],
            ["a", "a", "\u{FEFF}a"],
            [false; 3],
        ),
        row(
            b"\xFF\xFEa\0",
            [UTF_16BE, UTF_16LE],
            ["a", "\u{FFFE}\u{6100}", "\u{FFFE}\u{6100}"],
            [false; 3],
        ),
        row(
            b"\xEF\xBB\xBF\xEF\xBB\xBF",
            [UTF_8, UTF_8],
            ["\u{FEFF}", "\u{FEFF}", "\u{FEFF}\u{FEFF}"],
            [false; 3],
        ),
        row(
            b"\xFE\xFF\xD8",
            [UTF_8, UTF_16BE],
            ["\u{FFFD}", "\u{FFFD}\u{FFFD}\u{FFFD}", "\u{FFFD}\u{FFFD}\u{FFFD}"],
            [true; 3],
        ),
        row(
            b"\xFE\xFF\xD8",
            [UTF_16BE, UTF_16BE],
            ["\u{FFFD}", "\u{FFFD}", "\u{FEFF}\u{FFFD}"],
            [true; 3],
        ),
        row(b"\xEF\xBF\xBDa", [UTF_8, UTF_8], ["\u{FFFD}a"; 3], [false; 3]),
        row(
            b"\xEF\xBB\xBF\xEF\xBF\xBD",
            [UTF_8, UTF_8],
            ["\u{FFFD}", "\u{FFFD}", "\u{FEFF}\u{FFFD}"],
            [false; 3],
        ),
        row(b"\xEF\xBF\xBD\xFF", [UTF_8, UTF_8], ["\u{FFFD}\u{FFFD}"; 3], [true; 3]),
        row(
            b"\xEF\xBB\xBF\xEF\xBF\xBDa",
            [UTF_16BE, UTF_8],
            [
                "\u{FFFD}a",
                "\u{EFBB}\u{BFEF}\u{BFBD}\u{FFFD}",
                "\u{EFBB}\u{BFEF}\u{BFBD}\u{FFFD}",
            ],
            [false, true, true],
        ),
        row(b"\xFD\xFFa\0", [UTF_16LE, UTF_16LE], ["\u{FFFD}a"; 3], [false; 3]),
        row(b"\xFF\xFD\0a", [UTF_16BE, UTF_16BE], ["\u{FFFD}a"; 3], [false; 3]),
        row(b"\xFD\xFFa", [UTF_16LE, UTF_16LE], ["\u{FFFD}\u{FFFD}"; 3], [true; 3]),
    ]
}

/// Decodes bytes in two pieces. Returns the encoding, the text, and whether U+FFFD was written.
fn decoded(mut decoder: Decoder, bytes: &[u8], cut: usize) -> (&'static Encoding, String, bool) {
    let (mut text, mut had_errors) = (Vec::new(), false);
    for (piece, last) in [(&bytes[..cut], false), (&bytes[cut..], true)] {
        let mut dst = [0; 64];
        let (result, read, written, replaced) = decoder.decode_to_utf8(piece, &mut dst, last);
        assert_eq!((result, read), (CoderResult::InputEmpty, piece.len()));
        text.extend_from_slice(&dst[..written]);
        had_errors |= replaced;
    }
    (decoder.encoding(), String::from_utf8(text).unwrap(), had_errors)
}

#[test]
fn marks() {
    for row in rows() {
        let [sniffed, removed, kept] = row.had_errors;
        for cut in 0..=row.bytes.len() {
            let found = |decoder| decoded(decoder, row.bytes, cut);
            assert_eq!(
                found(row.encoding.new_decoder()),
                (row.decided, row.sniffed.to_owned(), sniffed)
            );
            assert_eq!(
                found(row.encoding.new_decoder_with_bom_removal()),
                (row.encoding, row.removed.to_owned(), removed)
            );
            assert_eq!(
                found(row.encoding.new_decoder_without_bom_handling()),
                (row.encoding, row.kept.to_owned(), kept)
            );
        }
    }
}

#[cfg(feature = "alloc")]
#[test]
fn whole_texts() {
    for row in rows() {
        let [sniffed, removed, kept] = row.had_errors;
        let (text, encoding, had_errors) = row.encoding.decode(row.bytes);
        assert_eq!((&*text, encoding, had_errors), (row.sniffed, row.decided, sniffed));
        let (text, had_errors) = row.encoding.decode_with_bom_removal(row.bytes);
        assert_eq!((&*text, had_errors), (row.removed, removed));
        let (text, had_errors) = row.encoding.decode_without_bom_handling(row.bytes);
        assert_eq!((&*text, had_errors), (row.kept, kept));
        let text = row
            .encoding
            .decode_without_bom_handling_and_without_replacement(row.bytes);
        assert_eq!(text.as_deref(), (!kept).then_some(row.kept));
    }
}

#[test]
fn reports_and_queries() {
    let mut decoder = UTF_8.new_decoder_without_bom_handling();
    assert_eq!(
        decoder.decode_to_utf16(b"\xFF", &mut [0; 4], true),
        (CoderResult::InputEmpty, 1, 1, true)
    );
    assert_eq!(
        decoder.decode_to_utf16(b"a", &mut [0; 4], true),
        (CoderResult::InputEmpty, 1, 1, false)
    );
    assert!(
        decoder.max_utf8_buffer_length(10) >= Some(30)
            && decoder.max_utf8_buffer_length_without_replacement(10) < Some(30)
    );
    assert!(decoder.max_utf16_buffer_length(10) >= Some(10) && decoder.max_utf16_buffer_length(usize::MAX).is_none());
    assert_eq!(decoder.latin1_byte_compatible_up_to(&[b'a'; 100]), Some(100));
    assert_eq!(UTF_8.new_decoder().latin1_byte_compatible_up_to(b"a"), None);
    assert_eq!(
        UTF_16LE
            .new_decoder_without_bom_handling()
            .latin1_byte_compatible_up_to(b"a"),
        None
    );
}
