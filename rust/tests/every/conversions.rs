//! Each conversion of whole buffers, and each call of the decoder and the encoder: over every length, from each of
//! sixteen offsets, with another character at every index. Rows list each character in both encodings.

use crate::common::rows::{items, items_backwards, Unit};
use crate::common::walk::{assert_each_holds, into_room, Items, EXACT, SHORT};
use encoding_text::decoder::Piece;
use encoding_text::mem::*;
use encoding_text::utf_8::convert_utf8_to_utf16_up_to_invalid;
use encoding_text::{DecoderResult, EncoderResult, Utf8Decoder, Utf8Encoder};

/// A letter, and characters that surround another, in UTF-8 and UTF-16.
const LETTER: &str = "62 | 0062";
const FILLERS: &str = "\
61 | 0061
D0 B0 | 0430
E4 B8 80 | 4E00
F0 9F 98 80 | D83D DE00";

/// Characters at the edges of lengths.
const CHARACTERS: &str = "\
7F | 007F
C2 80 | 0080
DF BF | 07FF
E0 A0 80 | 0800
EF BF BF | FFFF
F0 90 80 80 | D800 DC00
F4 8F BF BF | DBFF DFFF";

/// Malformed sequences of UTF-8, and U+FFFD for each.
const MALFORMED: &str = "\
80 | FFFD
E2 98 | FFFD
F0 9F 92 | FFFD
ED A0 80 | FFFD FFFD FFFD";

/// U+FFFD in UTF-8, and unpaired surrogates.
const UNPAIRED: &str = "\
EF BF BD | D800
EF BF BD | DFFF
EF BF BD EF BF BD | DE00 D83D";

/// Characters in UTF-8 that surround another, as they are written.
const WHOLE_LETTER: &str = "62 | 62";
const WHOLE_FILLERS: &str = "\
61 | 61
D0 B0 | D0 B0
E4 B8 80 | E4 B8 80
F0 9F 98 80 | F0 9F 98 80";

/// Characters at the edges of lengths.
const WHOLE: &str = "\
7F | 7F
C2 80 | C2 80
EF BF BF | EF BF BF
F4 8F BF BF | F4 8F BF BF";

/// Malformed sequences, and U+FFFD for each.
const REPAIRED: &str = "\
80 | EF BF BD
E2 98 | EF BF BD
F0 9F 92 | EF BF BD
ED A0 80 | EF BF BD EF BF BD EF BF BD";

/// Bytes of Latin1 and their UTF-8.
const LATIN1: &str = "\
00 | 00
7F | 7F
80 | C2 80
BF | C2 BF
C0 | C3 80
FF | C3 BF";

/// The UTF-8 of Latin1 and its bytes.
const LATIN1_TEXT: &str = "\
00 | 00
7F | 7F
C2 80 | 80
C2 BF | BF
C3 80 | C0
C3 BF | FF";

/// Bytes of Latin1 and their code units.
const LATIN1_UNITS: &str = "\
00 | 0000
7F | 007F
80 | 0080
FF | 00FF";

/// The low eight bits of code units, and these.
const LOW_BITS: &str = "\
00 | 0100
7F | FF7F
80 | 0080
FF | D8FF";

/// Parses rows: a letter, the characters that surround others, and the others.
fn items_of<S: Unit, D: Unit>(letter: &str, fillers: &str, others: &str) -> Items<S, D> {
    Items {
        letter: items(letter).remove(0),
        fillers: items(fillers),
        others: items(others),
    }
}

/// Parses the same rows backwards.
fn items_back<S: Unit, D: Unit>(letter: &str, fillers: &str, others: &str) -> Items<S, D> {
    Items {
        letter: items_backwards(letter).remove(0),
        fillers: items_backwards(fillers),
        others: items_backwards(others),
    }
}

fn text(bytes: &[u8]) -> &str {
    std::str::from_utf8(bytes).unwrap()
}

fn text_mut(bytes: &mut [u8]) -> &mut str {
    std::str::from_utf8_mut(bytes).unwrap()
}

#[test]
fn from_utf8_to_utf16() {
    let characters = items_of(LETTER, FILLERS, CHARACTERS);
    let malformed = items_of(LETTER, FILLERS, MALFORMED);
    let repairing = |src: &[u8], dst: &mut [u16]| (src.len(), convert_utf8_to_utf16(src, dst));
    let refusing = |src: &[u8], dst: &mut [u16]| {
        let written = convert_utf8_to_utf16_without_replacement(src, dst);
        (src.len(), written.unwrap())
    };
    assert_eq!(assert_each_holds(&characters, into_room(1, 1), repairing), 28);
    assert_eq!(assert_each_holds(&malformed, into_room(1, 1), repairing), 16);
    assert_eq!(assert_each_holds(&characters, into_room(1, 0), refusing), 28);
    assert_eq!(assert_each_holds(&characters, EXACT, convert_utf8_to_utf16_partial), 28);
    assert_eq!(assert_each_holds(&characters, SHORT, convert_utf8_to_utf16_partial), 28);
    assert_eq!(assert_each_holds(&malformed, EXACT, convert_utf8_to_utf16_partial), 16);
}

#[test]
fn from_text_to_utf16() {
    let characters = items_of(LETTER, FILLERS, CHARACTERS);
    let from_text = |src: &[u8], dst: &mut [u16]| (src.len(), convert_str_to_utf16(text(src), dst));
    assert_eq!(assert_each_holds(&characters, into_room(1, 0), from_text), 28);
    assert_eq!(
        assert_each_holds(&characters, EXACT, convert_utf8_to_utf16_up_to_invalid),
        28
    );
    assert_eq!(
        assert_each_holds(&characters, SHORT, convert_utf8_to_utf16_up_to_invalid),
        28
    );
}

#[test]
fn from_utf16_to_utf8() {
    let characters = items_back(LETTER, FILLERS, CHARACTERS);
    let unpaired = items_back(LETTER, FILLERS, UNPAIRED);
    let whole = |src: &[u16], dst: &mut [u8]| (src.len(), convert_utf16_to_utf8(src, dst));
    assert_eq!(assert_each_holds(&characters, EXACT, convert_utf16_to_utf8_partial), 28);
    assert_eq!(assert_each_holds(&characters, SHORT, convert_utf16_to_utf8_partial), 28);
    assert_eq!(assert_each_holds(&unpaired, EXACT, convert_utf16_to_utf8_partial), 12);
    assert_eq!(assert_each_holds(&characters, into_room(3, 0), whole), 28);
    assert_eq!(assert_each_holds(&unpaired, into_room(3, 0), whole), 12);
}

#[test]
fn from_utf16_into_text() {
    let characters = items_back(LETTER, FILLERS, CHARACTERS);
    let partial = |src: &[u16], dst: &mut [u8]| convert_utf16_to_str_partial(src, text_mut(dst));
    let whole = |src: &[u16], dst: &mut [u8]| (src.len(), convert_utf16_to_str(src, text_mut(dst)));
    assert_eq!(assert_each_holds(&characters, EXACT, partial), 28);
    assert_eq!(assert_each_holds(&characters, SHORT, partial), 28);
    assert_eq!(assert_each_holds(&characters, into_room(3, 0), whole), 28);
}

#[test]
fn from_latin1_to_utf8() {
    let bytes = items_of(WHOLE_LETTER, "61 | 61\nE4 | C3 A4", LATIN1);
    let whole = |src: &[u8], dst: &mut [u8]| (src.len(), convert_latin1_to_utf8(src, dst));
    assert_eq!(assert_each_holds(&bytes, EXACT, convert_latin1_to_utf8_partial), 12);
    assert_eq!(assert_each_holds(&bytes, SHORT, convert_latin1_to_utf8_partial), 12);
    assert_eq!(assert_each_holds(&bytes, into_room(2, 0), whole), 12);
}

/// Sixteen bytes after what is written become zero, or all if there are fewer.
#[test]
fn from_latin1_into_text() {
    let bytes = items_of(WHOLE_LETTER, "61 | 61\nE4 | C3 A4", LATIN1);
    let more = into_room(2, 9).with_zeros(16);
    let partial = |src: &[u8], dst: &mut [u8]| convert_latin1_to_str_partial(src, text_mut(dst));
    let whole = |src: &[u8], dst: &mut [u8]| (src.len(), convert_latin1_to_str(src, text_mut(dst)));
    assert_eq!(assert_each_holds(&bytes, EXACT, partial), 12);
    assert_eq!(assert_each_holds(&bytes, SHORT.with_zeros(16), partial), 12);
    assert_eq!(assert_each_holds(&bytes, more, partial), 12);
    assert_eq!(assert_each_holds(&bytes, more, whole), 12);
}

#[test]
fn to_latin1_and_from_it() {
    let texts = items_of(WHOLE_LETTER, "61 | 61\nC3 A4 | E4", LATIN1_TEXT);
    let bytes = items_of(LETTER, "61 | 0061\nE4 | 00E4", LATIN1_UNITS);
    let units = items_back(LETTER, "61 | 0061\nE4 | 01E4", LOW_BITS);
    let to_latin1 = |src: &[u8], dst: &mut [u8]| {
        assert!(is_utf8_latin1(src));
        (src.len(), convert_utf8_to_latin1_lossy(src, dst))
    };
    let to_units = |src: &[u8], dst: &mut [u16]| {
        convert_latin1_to_utf16(src, dst);
        (src.len(), src.len())
    };
    let from_units = |src: &[u16], dst: &mut [u8]| {
        convert_utf16_to_latin1_lossy(src, dst);
        (src.len(), src.len())
    };
    assert_eq!(assert_each_holds(&texts, into_room(1, 0), to_latin1), 12);
    assert_eq!(assert_each_holds(&bytes, EXACT, to_units), 8);
    assert_eq!(assert_each_holds(&units, EXACT, from_units), 8);
}

/// How many calls a source takes at most: one for each report, and the last.
const CALLS: usize = 4;

/// Writes units at an index, and returns the index after them.
fn put<D: Unit>(dst: &mut [D], at: usize, units: &[D]) -> usize {
    dst[at..at + units.len()].copy_from_slice(units);
    at + units.len()
}

/// Returns what calls read and wrote, with U+FFFD written for each report, until one ends as expected: after reading
/// all, or with a full destination.
fn decode<D: Unit>(
    src: &[u8],
    dst: &mut [D],
    replacement: &[D],
    mut call: impl FnMut(&[u8], &mut [D]) -> (DecoderResult, usize, usize),
) -> (usize, usize) {
    let (mut read, mut written) = (0, 0);
    for _ in 0..CALLS {
        let (result, more, units) = call(&src[read..], &mut dst[written..]);
        (read, written) = (read + more, written + units);
        match result {
            DecoderResult::Malformed(_, following) => {
                assert_eq!(following, 0);
                written = put(dst, written, replacement);
            }
            _ => {
                assert_eq!(result == DecoderResult::InputEmpty, read == src.len());
                return (read, written);
            }
        }
    }
    panic!("more reports than malformed sequences");
}

/// Makes calls of `decode_to_utf16_raw` marked last.
fn decode_to_utf16(src: &[u8], dst: &mut [u16]) -> (usize, usize) {
    let mut decoder = Utf8Decoder::new_inner();
    decode(src, dst, &[0xFFFD], |src, dst| {
        decoder.decode_to_utf16_raw(src, dst, true)
    })
}

/// Makes calls of `decode_to_utf8_raw` marked last.
fn decode_to_utf8(src: &[u8], dst: &mut [u8]) -> (usize, usize) {
    let mut decoder = Utf8Decoder::new_inner();
    decode(src, dst, "\u{FFFD}".as_bytes(), |src, dst| {
        decoder.decode_to_utf8_raw(src, dst, true)
    })
}

/// Makes calls of `decode_borrowed` marked last. Their texts are copied, with U+FFFD written for each malformed
/// sequence.
fn decode_borrowed(src: &[u8], dst: &mut [u8]) -> (usize, usize) {
    let mut decoder = Utf8Decoder::new_inner();
    let (mut read, mut written) = (0, 0);
    for _ in 0..2 * CALLS {
        let (piece, more) = decoder.decode_borrowed(&src[read..], true);
        read += more;
        match piece {
            Piece::Text(text) => written = put(dst, written, text.as_bytes()),
            Piece::Malformed(_) => written = put(dst, written, "\u{FFFD}".as_bytes()),
            Piece::Char(scalar) => panic!("{scalar} was held"),
            Piece::InputEmpty => return (read, written),
        }
    }
    panic!("more pieces than texts and malformed sequences");
}

/// Calls `encode_from_utf16_raw`, marked last.
fn encode_from_utf16(src: &[u16], dst: &mut [u8]) -> (usize, usize) {
    let (result, read, written) = Utf8Encoder::new_inner().encode_from_utf16_raw(src, dst, true);
    assert_eq!(result == EncoderResult::InputEmpty, read == src.len());
    (read, written)
}

/// Calls `encode_from_utf8_raw`, marked last.
fn encode_from_utf8(src: &[u8], dst: &mut [u8]) -> (usize, usize) {
    let (result, read, written) = Utf8Encoder::new_inner().encode_from_utf8_raw(text(src), dst, true);
    assert_eq!(result == EncoderResult::InputEmpty, read == src.len());
    (read, written)
}

#[test]
fn decoding_to_utf16() {
    let characters = items_of(LETTER, FILLERS, CHARACTERS);
    let malformed = items_of(LETTER, FILLERS, MALFORMED);
    assert_eq!(assert_each_holds(&characters, EXACT, decode_to_utf16), 28);
    assert_eq!(assert_each_holds(&characters, SHORT, decode_to_utf16), 28);
    assert_eq!(assert_each_holds(&malformed, into_room(1, 1), decode_to_utf16), 16);
}

#[test]
fn decoding_to_utf8() {
    let characters = items_of(WHOLE_LETTER, WHOLE_FILLERS, WHOLE);
    let malformed = items_of(WHOLE_LETTER, WHOLE_FILLERS, REPAIRED);
    assert_eq!(assert_each_holds(&characters, EXACT, decode_to_utf8), 16);
    assert_eq!(assert_each_holds(&characters, SHORT, decode_to_utf8), 16);
    assert_eq!(assert_each_holds(&malformed, into_room(3, 3), decode_to_utf8), 16);
    assert_eq!(assert_each_holds(&malformed, into_room(3, 3), decode_borrowed), 16);
}

#[test]
fn encoding() {
    let units = items_back(LETTER, FILLERS, CHARACTERS);
    let unpaired = items_back(LETTER, FILLERS, UNPAIRED);
    let texts = items_of(WHOLE_LETTER, WHOLE_FILLERS, WHOLE);
    assert_eq!(assert_each_holds(&units, EXACT, encode_from_utf16), 28);
    assert_eq!(assert_each_holds(&units, SHORT, encode_from_utf16), 28);
    assert_eq!(assert_each_holds(&unpaired, EXACT, encode_from_utf16), 12);
    assert_eq!(assert_each_holds(&texts, EXACT, encode_from_utf8), 16);
    assert_eq!(assert_each_holds(&texts, SHORT, encode_from_utf8), 16);
}
