//! UTF-16 to UTF-8 and back on a text with characters of one to four bytes, and on short rows: whole, bounded, the two
//! halves of the bounded conversion, and malformed bytes. And over the boundaries of blocks: one character or malformed
//! sequence among others of one kind, at each index.

use crate::common::characters;
use crate::common::rows::{around, assert_written, fields, items, named, Item, Unit};
use encoding_text::decoder::Piece;
use encoding_text::mem::*;
use encoding_text::utf_8::*;
use encoding_text::DecoderResult;

/// The letters from a to u, U+1F4A9, v, U+2603, w, U+00B6, xyzz in UTF-16.
const UNITS: [u16; 31] = [
    0x0061, 0x0062, 0x0063, 0x0064, 0x0065, 0x0066, 0x0067, 0x0068, 0x0069, 0x006A, 0x006B, 0x006C, 0x006D, 0x006E,
    0x006F, 0x0070, 0x0071, 0x0072, 0x0073, 0x0074, 0x0075, 0xD83D, 0xDCA9, 0x0076, 0x2603, 0x0077, 0x00B6, 0x0078,
    0x0079, 0x007A, 0x007A,
];

/// The letters from a to u, U+1F4A9, v, U+2603, w, U+00B6, xyzz in UTF-8.
const BYTES: [u8; 36] = [
    0x61, 0x62, 0x63, 0x64, 0x65, 0x66, 0x67, 0x68, 0x69, 0x6A, 0x6B, 0x6C, 0x6D, 0x6E, 0x6F, 0x70, 0x71, 0x72, 0x73,
    0x74, 0x75, 0xF0, 0x9F, 0x92, 0xA9, 0x76, 0xE2, 0x98, 0x83, 0x77, 0xC2, 0xB6, 0x78, 0x79, 0x7A, 0x7A,
];

/// The text.
const TEXT: &str = "abcdefghijklmnopqrstu\u{1F4A9}v\u{2603}w\u{B6}xyzz";

#[test]
fn the_text_has_these_bytes() {
    assert_eq!(TEXT.as_bytes(), BYTES);
}

#[test]
fn one_call_takes_the_text() {
    assert_eq!(utf8_valid_up_to(&BYTES), 36);

    let mut units = [0x71; 38];
    let answer = Utf8Decoder::new_inner().decode_to_utf16_raw(&BYTES, &mut units, true);
    assert_eq!(answer, (DecoderResult::InputEmpty, 36, 31));
    assert_written(&UNITS, 0, &units);

    let mut bytes = [0x71; 40];
    let answer = Utf8Decoder::new_inner().decode_to_utf8_raw(&BYTES, &mut bytes, true);
    assert_eq!(answer, (DecoderResult::InputEmpty, 36, 36));
    assert_written(&BYTES, 0, &bytes);

    let answer = Utf8Decoder::new_inner().decode_borrowed(&BYTES, true);
    assert_eq!(answer, (Piece::Text(TEXT), 36));

    let mut bytes = [0x71; 40];
    let answer = Utf8Encoder::new_inner().encode_from_utf16_raw(&UNITS, &mut bytes, true);
    assert_eq!(answer, (EncoderResult::InputEmpty, 31, 36));
    assert_written(&BYTES, 0, &bytes);

    let mut bytes = [0x71; 40];
    let answer = Utf8Encoder::new_inner().encode_from_utf8_raw(TEXT, &mut bytes, true);
    assert_eq!(answer, (EncoderResult::InputEmpty, 36, 36));
    assert_written(&BYTES, 0, &bytes);
}

#[test]
fn converts_a_text_to_utf8() {
    let mut dst = [0x71; 94];
    assert_eq!(convert_utf16_to_utf8(&UNITS, &mut dst), 36);
    assert_written(&BYTES, 0, &dst);
}

#[test]
fn converts_a_text_to_utf8_in_two() {
    let mut first = [0x71; 24];
    assert_eq!(convert_utf16_to_utf8_partial(&UNITS, &mut first), (21, 21));
    assert_written(&BYTES[..21], 0, &first);
    let mut second = [0x71; 73];
    assert_eq!(convert_utf16_to_utf8(&UNITS[21..], &mut second), 15);
    assert_written(&BYTES[21..], 0, &second);
}

/// Asserts that a destination starts with these bytes, and is unchanged after them.
fn assert_begins(row: &str, bytes: &[u8], dst: &[u8]) {
    let (written, following) = dst.split_at(bytes.len());
    assert_eq!(written, bytes, "{row}");
    assert!(
        following.iter().all(|byte| *byte == u8::UNWRITTEN),
        "{row}, after: {following:x?}"
    );
}

/// Units, `room`, units read, bytes written.
const TAILS: &str = "\
D83D DCA9 | 3 | 0 |
D83D 0062 | 3 | 1 | EF BF BD
0061 00E4 | 2 | 1 | 61
2603 | 2 | 0 |";

#[test]
fn tails() {
    let mut count = 0;
    for row in TAILS.lines() {
        let fields: Vec<&str> = row.split('|').map(str::trim).collect();
        let [units, room, read, bytes] = fields[..] else {
            panic!("{row}");
        };
        let (units, bytes): (Vec<u16>, Vec<u8>) = (named(units), named(bytes));
        let (room, read): (usize, usize) = (room.parse().unwrap(), read.parse().unwrap());
        let mut dst = [u8::UNWRITTEN; 3];
        let answer = convert_utf16_to_utf8_partial_tail(&units, &mut dst[..room]);
        assert_eq!(answer, (read, bytes.len()), "{row}");
        assert_begins(row, &bytes, &dst);
        count += 1;
    }
    assert_eq!(count, 4);
}

/// Sources and their UTF-8. There are characters of each length, cut pairs, and pairs at the end.
const SOURCES: &str = "\
|
0062 | 62
00E4 2603 D83D DCA9 0062 | C3 A4 E2 98 83 F0 9F 92 A9 62
D83D DCA9 | F0 9F 92 A9
D83D D83D DCA9 DCA9 | EF BF BD F0 9F 92 A9 EF BF BD
2603 2603 2603 D83D | E2 98 83 E2 98 83 E2 98 83 EF BF BD
DCA9 0061 0061 0061 0061 | EF BF BD 61 61 61 61
0061 0062 0063 0064 0065 0066 0067 0068 0069 006A 006B 006C 006D 006E 006F 0070 0071 0072 0073 0074 0075 \
D83D DCA9 0076 2603 0077 00B6 0078 0079 007A 007A | \
61 62 63 64 65 66 67 68 69 6A 6B 6C 6D 6E 6F 70 71 72 73 74 75 F0 9F 92 A9 76 E2 98 83 77 C2 B6 78 79 7A 7A";

/// Returns whether the first `read` units are whole characters, whose UTF-8 has `written` bytes.
fn is_prefix(units: &[u16], read: usize, written: usize) -> bool {
    let (mut end, mut length) = (0, 0);
    for (units, character) in characters(units) {
        if end < read {
            end += units;
            length += character.len_utf8();
        }
    }
    (end, length) == (read, written)
}

/// Asserts that the inner half writes a prefix of whole characters, and reads all or leaves at most three bytes free.
/// Which characters it leaves is open.
fn assert_inner(row: &str, units: &[u16], bytes: &[u8], room: usize) {
    let mut dst = [u8::UNWRITTEN; 40];
    let (read, written) = convert_utf16_to_utf8_partial_inner(units, &mut dst[..room]);
    assert!(read == units.len() || room <= written + 3, "{row}, {room}: {written}");
    assert!(is_prefix(units, read, written), "{row}, {room}: {read}, {written}");
    assert_begins(row, &bytes[..written], &dst);
}

#[test]
fn inner_fills_all_but_three_bytes() {
    let mut count = 0;
    for row in SOURCES.lines() {
        let (units, bytes) = fields(row);
        let (units, bytes): (Vec<u16>, Vec<u8>) = (named(units), named(bytes));
        assert!(is_prefix(&units, units.len(), bytes.len()), "{row}");
        for room in 0..=40 {
            assert_inner(row, &units, &bytes, room);
        }
        count += 1;
    }
    assert_eq!(count, 8);
}

#[test]
fn converts_what_fits() {
    let mut one = [0x71];
    let answer = convert_utf8_to_utf16_up_to_invalid(&[0xF0, 0x9F, 0x92, 0xA9], &mut one);
    assert_eq!((answer, one), ((0, 0), [0x71]));
    let mut two = [0x71; 2];
    let src = [0xE2, 0x98, 0x83, 0xF0, 0x9F, 0x92, 0xA9];
    let answer = convert_utf8_to_utf16_up_to_invalid(&src, &mut two);
    assert_eq!((answer, two), ((3, 1), [0x2603, 0x71]));
}

#[test]
fn replaces_malformed_parts() {
    let mut dst = [0x71; 6];
    let written = convert_utf8_to_utf16(&[0x61, 0xF0, 0x9F, 0x92, 0xC2], &mut dst);
    assert_eq!((written, dst), (3, [0x0061, 0xFFFD, 0xFFFD, 0x71, 0x71, 0x71]));
}

/// The longest well-formed prefix is written even if the bytes are refused.
#[test]
fn refuses_malformed_parts() {
    let mut dst = [0x71; 4];
    let answer = convert_utf8_to_utf16_without_replacement(&[0x61, 0xC3, 0xA4, 0xFF], &mut dst);
    assert_eq!((answer, dst), (None, [0x0061, 0x00E4, 0x71, 0x71]));

    let mut dst = [0x71; 36];
    let answer = convert_utf8_to_utf16_without_replacement(&BYTES, &mut dst);
    assert_eq!(answer, Some(31));
    assert_written(&UNITS, 0, &dst);
}

#[test]
fn converts_a_text_to_utf16() {
    let mut dst = [0x71; 37];
    assert_eq!(convert_utf8_to_utf16(&BYTES, &mut dst), 31);
    assert_written(&UNITS, 0, &dst);

    let mut dst = [0x71; 37];
    assert_eq!(convert_utf8_to_utf16_up_to_invalid(&BYTES, &mut dst), (36, 31));
    assert_written(&UNITS, 0, &dst);

    assert_eq!(TEXT.len(), 36);
    let mut dst = [0x71; 36];
    assert_eq!(convert_str_to_utf16(TEXT, &mut dst), 31);
    assert_written(&UNITS, 0, &dst);
}

/// How often the filler is in a text.
const FILLERS_IN_TEXT: usize = 38;

/// Builds texts with each of the edges at each index among each of the fillers, and their expected output. Returns the
/// number of pairs of an edge and a filler.
fn at_each_place<S: Unit, D: Unit>(fillers: &str, edges: &str, holds: impl Fn(&[S], &[D])) -> usize {
    let fillers: Vec<Item<S, D>> = items(fillers);
    let edges: Vec<Item<S, D>> = items(edges);
    for filler in &fillers {
        for edge in &edges {
            for before in 0..=FILLERS_IN_TEXT {
                let text = around(&filler.read, FILLERS_IN_TEXT, before, &edge.read);
                let wanted = around(&filler.written, FILLERS_IN_TEXT, before, &edge.written);
                holds(&text, &wanted);
            }
        }
    }
    fillers.len() * edges.len()
}

/// Code units that surround another, and their UTF-8: of one length, and of each.
const UNIT_FILLERS: &str = "\
0061 | 61
0430 | D0 B0
4E00 | E4 B8 80
D83D DE00 | F0 9F 98 80
0061 0430 4E00 | 61 D0 B0 E4 B8 80";

/// Code units at the edges of lengths and of surrogates, and their UTF-8.
const UNIT_EDGES: &str = "\
007F | 7F
0080 | C2 80
07FF | DF BF
0800 | E0 A0 80
D7FF | ED 9F BF
D800 | EF BF BD
DFFF | EF BF BD
E000 | EE 80 80
FFFF | EF BF BF
DBFF DFFF | F4 8F BF BF
DE00 D83D | EF BF BD EF BF BD";

#[test]
fn units_at_each_place() {
    let count = at_each_place(UNIT_FILLERS, UNIT_EDGES, |units, bytes| {
        let mut dst = [0x71; 260];
        let answer = convert_utf16_to_utf8_partial(units, &mut dst);
        assert_eq!(answer, (units.len(), bytes.len()));
        assert_written(bytes, 0, &dst);
    });
    assert_eq!(count, 5 * 11);
}

/// How many code units of one kind in a row end a run of blocks.
const RUNS: [usize; 4] = [32, 96, 128, 384];

/// The fillers' most units before or after such a number.
const NEAR: usize = 17;

/// How much longer than its text a destination is.
const ROOMS: [usize; 4] = [0, 15, 79, 900];

#[test]
fn units_around_runs() {
    let fillers: Vec<Item<u16, u8>> = items(UNIT_FILLERS);
    let mut dst = [0x71; 3600];
    for first in &fillers {
        for second in &fillers {
            for count in RUNS.into_iter().flat_map(|run| run - NEAR..=run + NEAR) {
                let times = count.div_ceil(first.read.len());
                let units = [first.read.repeat(times), second.read.repeat(NEAR)].concat();
                let bytes = [first.written.repeat(times), second.written.repeat(NEAR)].concat();
                for room in ROOMS {
                    let answer = convert_utf16_to_utf8_partial(&units, &mut dst[..bytes.len() + room]);
                    assert_eq!(answer, (units.len(), bytes.len()));
                    assert_written(&bytes, 0, &dst);
                    dst[..bytes.len()].fill(0x71);
                }
            }
        }
    }
}

/// Bytes as characters that surround another, and their UTF-8.
const LATIN1_FILLERS: &str = "\
61 | 61
E4 | C3 A4";

/// Bytes at the edges of lengths and of first bytes, and the UTF-8 of each as a character.
const LATIN1_EDGES: &str = "\
00 | 00
7F | 7F
80 | C2 80
BF | C2 BF
C0 | C3 80
FF | C3 BF";

#[test]
fn latin1_at_each_place() {
    let count = at_each_place(LATIN1_FILLERS, LATIN1_EDGES, |latin1, bytes| {
        let mut dst = [0x71; 120];
        let answer = convert_latin1_to_utf8_partial(latin1, &mut dst);
        assert_eq!(answer, (latin1.len(), bytes.len()));
        assert_written(bytes, 0, &dst);
        let mut back = [0x71; 120];
        assert!(is_utf8_latin1(bytes));
        assert_eq!(convert_utf8_to_latin1_lossy(bytes, &mut back), latin1.len());
        assert_written(latin1, 0, &back);
    });
    assert_eq!(count, 2 * 6);
}

/// Characters that surround another, in UTF-8 and UTF-16.
const FILLERS: &str = "\
61 | 0061
D0 B0 | 0430
E4 B8 80 | 4E00
F0 9F 98 80 | D83D DE00";

/// Characters at the edges of lengths.
const EDGES: &str = "\
7F | 007F
C2 80 | 0080
DF BF | 07FF
E0 A0 80 | 0800
ED 9F BF | D7FF
EE 80 80 | E000
EF BF BF | FFFF
F0 90 80 80 | D800 DC00
F4 8F BF BF | DBFF DFFF";

/// Malformed sequences, with U+FFFD for each.
const MALFORMED: &str = "\
FF | FFFD
80 | FFFD
E2 98 | FFFD
F0 9F 92 | FFFD
C0 AF | FFFD FFFD
ED A0 80 | FFFD FFFD FFFD";

/// Asserts that the bytes convert to the code units.
fn assert_bytes_convert(bytes: &[u8], units: &[u16]) {
    let mut dst = [0x71; 200];
    assert_eq!(convert_utf8_to_utf16(bytes, &mut dst), units.len());
    assert_written(units, 0, &dst);
}

/// Asserts that the bytes, as a text, convert to the code units in a destination with one code unit for each byte.
fn assert_text_converts(bytes: &[u8], units: &[u16]) {
    let text = std::str::from_utf8(bytes).unwrap();
    let mut dst = [0x71; 200];
    assert_eq!(convert_str_to_utf16(text, &mut dst[..bytes.len()]), units.len());
    assert_written(units, 0, &dst);
}

#[test]
fn characters_at_each_place() {
    let count = at_each_place(FILLERS, EDGES, |bytes, units| {
        assert_bytes_convert(bytes, units);
        assert_text_converts(bytes, units);
    });
    assert_eq!(count, 4 * 9);
}

#[test]
fn malformed_parts_at_each_place() {
    let count = at_each_place(FILLERS, MALFORMED, assert_bytes_convert);
    assert_eq!(count, 4 * 6);
}
