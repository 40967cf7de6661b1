//! The indices at which `next_malformed` finds malformed sequences, one after the other, and their kinds. And where a
//! borrowed result lies: in the source, at the range that its row says, even if it is empty.

use crate::common::rows::{fields, named};
use crate::common::vectors::{length_of, vectors};
use encoding_text::decoder::Piece;
use encoding_text::{next_malformation, next_malformed, utf8_chunks, Malformation, Utf8Decoder};
use std::ops::Range;

/// A letter, U+2603, a letter, three bytes of an incomplete sequence, a letter, and U+1F4A9.
const PATTERN: [u8; 13] = [
    0x61, 0xE2, 0x98, 0x83, 0x62, 0xF0, 0x9F, 0x92, 0x63, 0xF0, 0x9F, 0x92, 0xA9,
];

/// Returns each malformed sequence, found in turn.
fn found_in_turn(bytes: &[u8]) -> Vec<Range<usize>> {
    let mut found = Vec::new();
    let mut at = 0;
    while let Some(part) = next_malformed(&bytes[at..]) {
        found.push(at + part.start..at + part.end);
        at += part.end;
    }
    found
}

#[test]
fn finds_those_of_vectors() {
    let vectors = vectors();
    for vector in &vectors {
        let (mut wanted, mut place) = (Vec::new(), 0);
        for part in &vector.parts {
            let end = place + length_of(part);
            if part.is_err() {
                wanted.push(place..end);
            }
            place = end;
        }
        assert_eq!(found_in_turn(&vector.bytes), wanted, "{}", vector.row);
    }
    assert_eq!(vectors.len(), 104);
}

/// Bytes, and the index and the length of each malformed sequence: Unicode Standard, Tables 3-8 to 3-11, and ends of
/// input.
const ROWS: &str = "\
C0 AF E0 80 BF F0 81 82 41 | 0+1 1+1 2+1 3+1 4+1 5+1 6+1 7+1
ED A0 80 ED BF BF ED AF 41 | 0+1 1+1 2+1 3+1 4+1 5+1 6+1 7+1
F4 91 92 93 FF 41 80 BF 42 | 0+1 1+1 2+1 3+1 4+1 6+1 7+1
E1 80 E2 F0 91 92 F1 BF 41 | 0+2 2+1 3+3 6+2
F0 91 92 41 42 43 44 | 0+3
61 F0 91 92 | 1+3
61 E1 80 | 1+2
61 C2 | 1+1
61 62 C3 A4 63 |
|";

/// Returns the malformed sequence that a word names by its index and its length.
fn malformed(word: &str) -> Range<usize> {
    let (place, length) = word.split_once('+').unwrap();
    let place = place.parse().unwrap();
    place..place + length.parse::<usize>().unwrap()
}

#[test]
fn finds_those_of_rows() {
    for row in ROWS.lines() {
        let (bytes, parts) = fields(row);
        let wanted: Vec<Range<usize>> = parts.split_whitespace().map(malformed).collect();
        assert_eq!(found_in_turn(&named::<u8>(bytes)), wanted, "{row}");
    }
    assert_eq!(ROWS.lines().count(), 10);
}

/// Asserts that the first malformed sequence is found if the bytes, which begin with it, follow this many letters.
fn assert_found_after(letters: usize, bytes: &[u8], length: usize) {
    let all = [&vec![b'a'; letters], bytes].concat();
    assert_eq!(
        next_malformed(&all),
        Some(letters..letters + length),
        "{letters}, {bytes:x?}"
    );
}

/// At each index of a block, and after more than 64 KiB.
#[test]
fn finds_it_after_letters() {
    for letters in 0..200 {
        assert_found_after(letters, &[0xF0, 0x9F, 0x92], 3);
        assert_found_after(letters, &[0xE2, 0x98, 0x5A, 0x5A], 2);
        assert_found_after(letters, &[0x80, 0x80, 0x80, 0x80], 1);
    }
    assert_found_after(100_000, &[0xE2, 0x98], 2);
}

/// Three bytes of a period of thirteen, the sixth to the eighth, are a malformed sequence.
#[test]
fn finds_those_of_long_input() {
    let wanted = (0..8000).map(|period| 13 * period + 5..13 * period + 8);
    assert!(found_in_turn(&PATTERN.repeat(8000)).into_iter().eq(wanted));
}

/// Bytes around each source.
const AROUND: usize = 7;

/// A source between letters.
struct Source {
    bytes: Vec<u8>,
}

impl Source {
    fn of(bytes: &[u8]) -> Source {
        Source {
            bytes: [&[b'x'; AROUND], bytes, &[b'x'; AROUND]].concat(),
        }
    }

    fn bytes(&self) -> &[u8] {
        &self.bytes[AROUND..self.bytes.len() - AROUND]
    }

    /// Asserts that a part is the one that this range of the source borrows.
    fn assert_borrowed(&self, part: &[u8], range: Range<usize>, row: &str) {
        let wanted = &self.bytes()[range.clone()];
        assert_eq!(part.as_ptr_range(), wanted.as_ptr_range(), "{range:?}, {row}");
        assert!(part == wanted, "{range:?}, {row}");
    }
}

/// Parses a range of indexes.
fn range(word: &str) -> Range<usize> {
    let (start, end) = word.split_once("..").unwrap();
    start.parse().unwrap()..end.parse().unwrap()
}

/// Bytes, and the range of each part of each chunk: text, and malformed sequence.
const CHUNKS: &str = "\
61 | 0..1 1..1
61 62 C3 A4 | 0..4 4..4
FF | 0..0 0..1
FF FF | 0..0 0..1 1..1 1..2
61 FF 62 | 0..1 1..2 2..3 3..3
E2 98 | 0..0 0..2
E2 98 83 F0 9F 98 61 80 | 0..3 3..6 6..7 7..8
F0 9F 98 80 C3 E2 98 83 | 0..4 4..5 5..8 8..8";

#[test]
fn chunks() {
    for row in CHUNKS.lines() {
        let (bytes, words) = fields(row);
        let source = Source::of(&named::<u8>(bytes));
        let ranges: Vec<Range<usize>> = words.split_whitespace().map(range).collect();
        let chunks: Vec<_> = utf8_chunks(source.bytes()).collect();
        assert_eq!(2 * chunks.len(), ranges.len(), "{row}");
        for (chunk, ranges) in chunks.iter().zip(ranges.chunks(2)) {
            source.assert_borrowed(chunk.valid().as_bytes(), ranges[0].clone(), row);
            source.assert_borrowed(chunk.invalid(), ranges[1].clone(), row);
        }
    }
    assert_eq!(CHUNKS.lines().count(), 8);
}

/// Bytes, and the range of each text that a decoder finds in turn.
const TEXTS: &str = "\
61 | 0..1
61 62 C3 A4 | 0..4
FF 61 | 1..2
61 FF 62 | 0..1 2..3
E2 98 83 F0 9F 98 61 80 | 0..3 6..7
F0 9F 98 80 C3 E2 98 83 | 0..4 5..8
E2 98 61 62 E2 98 | 2..4";

/// Returns the texts that a decoder finds in these bytes, which are all.
fn texts<'a>(decoder: &mut Utf8Decoder, bytes: &'a [u8]) -> Vec<&'a str> {
    let (mut texts, mut unread) = (Vec::new(), bytes);
    loop {
        let (piece, read) = decoder.decode_borrowed(unread, true);
        unread = &unread[read..];
        match piece {
            Piece::Text(text) => texts.push(text),
            Piece::InputEmpty => return texts,
            _ => {}
        }
    }
}

#[test]
fn decoder() {
    for row in TEXTS.lines() {
        let (bytes, words) = fields(row);
        let source = Source::of(&named::<u8>(bytes));
        let texts = texts(&mut Utf8Decoder::new_inner(), source.bytes());
        assert_eq!(texts.len(), words.split_whitespace().count(), "{row}");
        for (text, word) in texts.iter().zip(words.split_whitespace()) {
            source.assert_borrowed(text.as_bytes(), range(word), row);
        }
    }
    assert_eq!(TEXTS.lines().count(), 7);
}

/// After a pending byte a text starts behind the character that the byte and the first ones of the source form.
#[test]
fn decoder_with_a_byte_pending() {
    let source = Source::of(b"\x98\x83abc");
    let mut decoder = Utf8Decoder::new_inner();
    assert_eq!(decoder.decode_borrowed(b"\xE2", false), (Piece::InputEmpty, 1));
    let texts = texts(&mut decoder, source.bytes());
    assert_eq!(texts.len(), 1);
    source.assert_borrowed(texts[0].as_bytes(), 2..5, "98 83 61 62 63");
}

/// Lengths of sources that are borrowed as a whole: around those of blocks, and greater than every buffer.
const LENGTHS: [usize; 12] = [0, 1, 2, 15, 16, 17, 63, 64, 65, 1100, 100_013, (1 << 20) + 13];

/// Letters are one text of a decoder, and one chunk, of any length from one on.
#[test]
fn whole_texts() {
    for length in &LENGTHS[1..] {
        let row = &format!("{length} letters");
        let source = Source::of(&vec![b'a'; *length]);
        let (Piece::Text(text), _) = Utf8Decoder::new_inner().decode_borrowed(source.bytes(), false) else {
            panic!("{row} are no text");
        };
        source.assert_borrowed(text.as_bytes(), 0..*length, row);
        let chunk = utf8_chunks(source.bytes()).next().unwrap();
        source.assert_borrowed(chunk.valid().as_bytes(), 0..*length, row);
        source.assert_borrowed(chunk.invalid(), *length..*length, row);
    }
}

/// Letters of any length are borrowed, even an empty source. Other text is borrowed by `repair`.
#[cfg(feature = "alloc")]
#[test]
fn whole_results() {
    use encoding_text::mem::{decode_latin1, encode_latin1_lossy};
    use encoding_text::repair;
    use std::borrow::Cow;
    for length in LENGTHS {
        let row = &format!("{length} letters");
        let source = Source::of(&vec![b'a'; length]);
        let letters = std::str::from_utf8(source.bytes()).unwrap();
        let Cow::Borrowed(repaired) = repair(source.bytes()) else {
            panic!("{row} are copied");
        };
        source.assert_borrowed(repaired.as_bytes(), 0..length, row);
        let Cow::Borrowed(decoded) = decode_latin1(source.bytes()) else {
            panic!("{row} are copied");
        };
        source.assert_borrowed(decoded.as_bytes(), 0..length, row);
        let Cow::Borrowed(encoded) = encode_latin1_lossy(letters) else {
            panic!("{row} are copied");
        };
        source.assert_borrowed(encoded, 0..length, row);
    }
    for text in ["é", "aé☃😀", "\u{FFFD}", &"☃".repeat(1100)] {
        let source = Source::of(text.as_bytes());
        let Cow::Borrowed(repaired) = repair(source.bytes()) else {
            panic!("{text} is copied");
        };
        source.assert_borrowed(repaired.as_bytes(), 0..text.len(), text);
    }
}

/// Returns the kind of each malformed sequence, found in turn.
fn kinds_in_turn(bytes: &[u8]) -> Vec<Malformation> {
    let mut rest = bytes;
    let mut kinds = Vec::new();
    while let Some((part, kind)) = next_malformation(rest) {
        kinds.push(kind);
        rest = &rest[part.end..];
    }
    kinds
}

/// Unicode Standard, Tables 3-8 to 3-11.
#[test]
fn kinds_of_the_tables() {
    use Malformation::*;
    let (stray, byte) = (UnexpectedContinuation, DisallowedByte);
    let overlong = [byte, stray, Overlong, stray, stray, Overlong, stray, stray];
    assert_eq!(kinds_in_turn(b"\xC0\xAF\xE0\x80\xBF\xF0\x81\x82A"), overlong);
    let surrogates = [Surrogate, stray, stray, Surrogate, stray, stray, Surrogate, stray];
    assert_eq!(kinds_in_turn(b"\xED\xA0\x80\xED\xBF\xBF\xED\xAFA"), surrogates);
    let others = [TooLarge, stray, stray, stray, byte, stray, stray];
    assert_eq!(kinds_in_turn(b"\xF4\x91\x92\x93\xFFA\x80\xBFB"), others);
    assert_eq!(kinds_in_turn(b"\xE1\x80\xE2\xF0\x91\x92\xF1\xBFA"), [Truncated; 4]);
}

/// All pairs of bytes: the same sequence as `next_malformed` finds, and the end of the input where `std` sees it.
#[test]
fn kinds_of_all_pairs() {
    for pair in 0..=u16::MAX {
        let bytes = pair.to_be_bytes();
        let found = next_malformation(&bytes);
        assert_eq!(
            found.clone().map(|(part, _)| part),
            next_malformed(&bytes),
            "{bytes:x?}"
        );
        let at_end = std::str::from_utf8(&bytes).is_err_and(|error| error.error_len().is_none());
        assert_eq!(
            found.is_some_and(|(_, kind)| kind == Malformation::IncompleteAtEnd),
            at_end,
            "{bytes:x?}"
        );
    }
}
