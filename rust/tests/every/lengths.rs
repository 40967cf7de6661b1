//! Destinations of each length: how much of a bounded conversion fits, what a conversion into a text writes and clears,
//! and exact lengths in another encoding. Texts that a call writes to are full of characters of one length. The crate
//! has no calls for exact lengths, so the functions of the library are declared here.

use crate::common::rows::{around, fields, named, Unit};
use crate::common::text_destinations::{Calls, FROM_LATIN1, FROM_UTF16};
use encoding_text::mem::{convert_latin1_to_utf8_partial, convert_utf16_to_utf8_partial, is_utf8_latin1};
use std::fmt::{Arguments, Debug};

/// Returns the number of units read and bytes written, if the unit after `letters` letters has this length in UTF-8,
/// and all others are letters.
fn longest_prefix(letters: usize, size: usize, length: usize, room: usize) -> (usize, usize) {
    if room < letters {
        return (room, room);
    }
    if room - letters < size {
        return (letters, letters);
    }
    let more = size - 1;
    let written = room.min(length + more);
    (written - more, written)
}

/// Asserts that as much is read and written as fits into a destination of each length, up to a number of bytes for each
/// unit, and that `q` stays after it. A unit that has this length in UTF-8 is after letters and before forty letters.
fn assert_tails_stay<S: Copy + Debug + From<u8>>(
    (unit, size): (S, usize),
    bytes_each: usize,
    convert: fn(&[S], &mut [u8]) -> (usize, usize),
) {
    for letters in 0..70 {
        let length = letters + 41;
        let mut src = [S::from(b'b'); 110];
        src[..letters].fill(b'a'.into());
        src[letters] = unit;
        for room in 0..=bytes_each * length {
            let mut dst = [b'q'; 330];
            let (read, written) = convert(&src[..length], &mut dst[..room]);
            let wanted = longest_prefix(letters, size, length, room);
            assert_eq!((read, written), wanted, "{unit:x?}, {letters}, {room}");
            let stays = dst[written..].iter().all(|byte| *byte == b'q');
            assert!(stays, "{unit:x?}, {letters}, {room}");
        }
    }
}

/// A byte that becomes two, after letters and before forty letters, into destinations of each length.
#[test]
fn latin1_tails_stay() {
    for high in [0x80, 0xA0, 0xCA, 0xE4, 0xFF] {
        assert_tails_stay((high, 2), 2, convert_latin1_to_utf8_partial);
    }
}

/// A unit of two or three bytes after letters and before forty letters, into destinations of each length.
#[test]
fn utf16_tails_stay() {
    for unit in [(0x00CA, 2), (0x00E4, 2), (0x4E00, 3), (0xD83D, 3), (0xDCA9, 3)] {
        assert_tails_stay(unit, 3, convert_utf16_to_utf8_partial);
    }
}

/// What fills a text before a call, repeated.
const FILLINGS: [&str; 4] = ["q", "\u{E4}", "\u{2603}", "\u{1F4A9}"];

/// Code units, and the characters that they become.
const UNITS: [(u16, &str); 5] = [
    (0x00CA, "\u{CA}"),
    (0x00E4, "\u{E4}"),
    (0x4E00, "\u{4E00}"),
    (0xD83D, "\u{FFFD}"),
    (0xDCA9, "\u{FFFD}"),
];

/// Bytes of Latin1, and their characters.
const BYTES: [(u8, &str); 5] = [
    (0x80, "\u{80}"),
    (0xA0, "\u{A0}"),
    (0xCA, "\u{CA}"),
    (0xE4, "\u{E4}"),
    (0xFF, "\u{FF}"),
];

/// The most letters `a` before a unit or a byte of these.
const BEFORE: usize = 69;

/// How many letters `b` are after it.
const AFTER: usize = 40;

/// Returns how much is read and how many bytes are written of letters, a character of this length and letters.
fn prefix(letters: usize, size: usize, room: usize) -> (usize, usize) {
    if room < letters {
        return (room, room);
    }
    match (room - letters).checked_sub(size) {
        None => (letters, letters),
        Some(left) => {
            let following = left.min(AFTER);
            (letters + 1 + following, letters + size + following)
        }
    }
}

/// Returns the bytes of a text after this is written at its start: the next `zeros` bytes become zero, then those that
/// continue a character, and the rest is unchanged.
fn cleared(written: &[u8], zeros: usize, old: &str) -> Vec<u8> {
    let mut bytes = old.as_bytes().to_vec();
    let (prefix, rest) = bytes.split_at_mut(written.len());
    prefix.copy_from_slice(written);
    for (following, byte) in rest.iter_mut().enumerate() {
        if following >= zeros && !matches!(byte, 0x80..=0xBF) {
            break;
        }
        *byte = 0;
    }
    bytes
}

/// Asserts that a text contains what was written, that it is cleared after that, and that it still is a text.
fn assert_is_cleared(new: &[u8], written: &str, zeros: usize, old: &str) {
    let wanted = cleared(written.as_bytes(), zeros, old);
    assert_eq!(new, wanted, "{written:?} into {old:?}");
    assert!(std::str::from_utf8(new).is_ok(), "{written:?} into {old:?}");
}

/// Asserts that the unit after each number of letters converts to this character, if the text is at most what the
/// source may need.
fn assert_converts<S: Copy + Debug + From<u8>>(calls: &Calls<S>, unit: S, character: &str, old: &str) {
    let source = [&[S::from(b'a'); BEFORE][..], &[unit], &[S::from(b'b'); AFTER]].concat();
    let text = format!("{}{character}{}", "a".repeat(BEFORE), "b".repeat(AFTER));
    for letters in 0..=BEFORE {
        let src = &source[BEFORE - letters..];
        let text = &text[BEFORE - letters..];
        let most = calls.most * src.len();
        let owner = calls.owner;
        if old.len() <= most {
            let wanted = prefix(letters, character.len(), old.len());
            let mut dst = old.as_bytes().to_vec();
            let reported = (calls.partial)(src, &mut dst);
            assert_eq!(reported, wanted, "{unit:x?} after {letters} into {old:?}, {owner}");
            assert_is_cleared(&dst, &text[..reported.1], calls.zeros, old);
        }
        if old.len() == most {
            let mut dst = old.as_bytes().to_vec();
            let reported = (calls.whole)(src, &mut dst);
            assert_eq!(reported, text.len(), "{unit:x?} after {letters} into {old:?}, {owner}");
            assert_is_cleared(&dst, text, calls.zeros, old);
        }
    }
}

/// Asserts that each unit converts into a text of each number of these characters.
fn assert_converts_into<S: Copy + Debug + From<u8>>(calls: &Calls<S>, units: &[(S, &str)], filling: &str) {
    let most = calls.most * (BEFORE + 1 + AFTER);
    for (unit, character) in units {
        for count in 0..=most / filling.len() {
            assert_converts(calls, *unit, character, &filling.repeat(count));
        }
    }
}

#[test]
fn units_leave_a_text() {
    for calls in &FROM_UTF16 {
        for filling in FILLINGS {
            assert_converts_into(calls, &UNITS, filling);
        }
    }
}

#[test]
fn bytes_leave_a_text() {
    for calls in &FROM_LATIN1 {
        for filling in FILLINGS {
            assert_converts_into(calls, &BYTES, filling);
        }
    }
}

extern "C" {
    fn encoding_text_mem_utf16_length_from_utf8(src: *const u8, src_length: usize) -> usize;
    fn encoding_text_mem_utf8_length_from_utf16(src: *const u16, src_length: usize) -> usize;
    fn encoding_text_mem_utf8_length_from_latin1(src: *const u8, src_length: usize) -> usize;
    fn encoding_text_mem_latin1_length_from_utf8(src: *const u8, src_length: usize) -> usize;
}

fn utf16_length_from_utf8(src: &[u8]) -> usize {
    // SAFETY: it reads as many bytes from the pointer on as the slice has, and takes any.
    unsafe { encoding_text_mem_utf16_length_from_utf8(src.as_ptr(), src.len()) }
}

fn utf8_length_from_utf16(src: &[u16]) -> usize {
    // SAFETY: it reads as many code units from the pointer on as the slice has, and takes any.
    unsafe { encoding_text_mem_utf8_length_from_utf16(src.as_ptr(), src.len()) }
}

fn utf8_length_from_latin1(src: &[u8]) -> usize {
    // SAFETY: it reads as many bytes from the pointer on as the slice has, and takes any.
    unsafe { encoding_text_mem_utf8_length_from_latin1(src.as_ptr(), src.len()) }
}

fn latin1_length_from_utf8(src: &[u8]) -> usize {
    // SAFETY: it reads as many bytes from the pointer on as the slice has, and refuses what isn't Latin1.
    unsafe { encoding_text_mem_latin1_length_from_utf8(src.as_ptr(), src.len()) }
}

/// Returns how often the filler is in each of the texts: each count about the shortest vectors, one that leaves a
/// remainder, and one for several sums of vectors.
fn filler_counts(many: usize) -> impl Iterator<Item = usize> {
    (0..=66).chain([90, many])
}

/// A number of fillers beyond the 256 units that are summed at a time.
const MANY: usize = 300;

/// A number of fillers beyond the 1024 bytes of Latin1 that are summed at a time.
const MANY_LATIN1: usize = 1200;

/// Parses rows: units, and their length in the other encoding.
fn lengths<T: Unit>(rows: &str) -> Vec<(Vec<T>, usize)> {
    let length = |row| {
        let (units, length) = fields(row);
        (named(units), length.trim().parse().unwrap())
    };
    rows.lines().map(length).collect()
}

/// Passes texts with each of the edges at each index among each of the fillers, the sum of the lengths of their parts,
/// and what each is made of. Returns the number of pairs of an edge and a filler.
pub(crate) fn for_each_text<T: Unit>(fillers: &str, edges: &str, check: impl Fn(&[T], usize, Arguments)) -> usize {
    let (fillers, edges) = (lengths::<T>(fillers), lengths::<T>(edges));
    for (filler, filler_length) in &fillers {
        for (edge, edge_length) in &edges {
            for count in filler_counts(MANY) {
                for before in 0..=count {
                    let text = around(filler, count, before, edge);
                    let sum = filler_length * count + edge_length;
                    check(&text, sum, format_args!("{filler:x?}, {edge:x?}, {before} of {count}"));
                }
            }
        }
    }
    fillers.len() * edges.len()
}

/// Asserts that these texts have the sum of the lengths of their parts. Returns the number of pairs of an edge and a
/// filler.
fn at_each_place<T: Unit>(fillers: &str, edges: &str, length_of: fn(&[T]) -> usize) -> usize {
    for_each_text(fillers, edges, |text, sum, made_of| {
        assert_eq!(length_of(text), sum, "{made_of}")
    })
}

/// Bytes that surround others, and their number of code units.
pub(crate) const BYTE_FILLERS: &str = "\
61 | 1
D0 B0 | 1
E4 B8 80 | 1
F0 9F 98 80 | 2";

/// Characters and malformed sequences, and their number of code units: Encoding Standard, UTF-8 decoder.
pub(crate) const BYTE_EDGES: &str = "\
7F | 1
C2 80 | 1
E0 A0 80 | 1
ED 9F BF | 1
EF BF BF | 1
F0 90 80 80 | 2
F4 8F BF BF | 2
80 | 1
C2 | 1
E2 98 | 1
F0 9F | 1
F0 9F 92 | 1
C1 BF | 2
E0 9F BF | 3
ED A0 80 | 3
F0 8F BF BF | 4
F4 90 80 80 | 4
F5 80 | 2
E2 98 F0 9F 92 C3 | 3";

#[test]
fn code_units_of_bytes() {
    let count = at_each_place(BYTE_FILLERS, BYTE_EDGES, utf16_length_from_utf8);
    assert_eq!(count, 4 * 19);
    assert_eq!(utf16_length_from_utf8(&[]), 0);
}

/// Code units that surround others, and their number of bytes.
pub(crate) const UNIT_FILLERS: &str = "\
0061 | 1
0430 | 2
4E00 | 3
D83D DE00 | 4";

/// Characters and unpaired surrogates, and their number of bytes: Unicode Standard, section 3.9, with U+FFFD for the
/// latter.
pub(crate) const UNIT_EDGES: &str = "\
007F | 1
0080 | 2
07FF | 2
0800 | 3
D7FF | 3
D800 DC00 | 4
DBFF DFFF | 4
DE00 D83D | 6
D83D 0061 | 4
E000 | 3
FFFF | 3";

#[test]
fn bytes_of_code_units() {
    let count = at_each_place(UNIT_FILLERS, UNIT_EDGES, utf8_length_from_utf16);
    assert_eq!(count, 4 * 11);
    assert_eq!(utf8_length_from_utf16(&[]), 0);
}

/// Bytes that surround another, and the length of the UTF-8 of each.
const LATIN1_FILLERS: [(u8, usize); 2] = [(0x61, 1), (0xE4, 2)];

/// Bytes at the edges of lengths and of first bytes, and the UTF-8 of each.
const LATIN1_EDGES: [(u8, &[u8]); 4] = [
    (0x7F, &[0x7F]),
    (0x80, &[0xC2, 0x80]),
    (0xC0, &[0xC3, 0x80]),
    (0xFF, &[0xC3, 0xBF]),
];

/// Each byte, at each index among others, adds the length of its UTF-8 to theirs; and its UTF-8 among letters is Latin1
/// with one character for each byte.
#[test]
fn latin1_and_its_utf8() {
    for (filler, filler_length) in LATIN1_FILLERS {
        for (byte, utf8) in LATIN1_EDGES {
            for count in filler_counts(MANY_LATIN1) {
                for before in 0..=count {
                    let bytes = around(&[filler], count, before, &[byte]);
                    let wanted = filler_length * count + utf8.len();
                    let length = utf8_length_from_latin1(&bytes);
                    assert_eq!(length, wanted, "{filler:x}, {byte:x}, {before} of {count}");
                    let text = around(&[0x61], count, before, utf8);
                    assert_latin1_of_length(&text, bytes.len());
                }
            }
        }
    }
    assert_eq!(utf8_length_from_latin1(&[]), 0);
    assert_latin1_of_length(&[], 0);
}

/// Asserts that the text is Latin1 in UTF-8 and has `length` characters.
fn assert_latin1_of_length(text: &[u8], length: usize) {
    assert!(is_utf8_latin1(text), "{text:x?}");
    assert_eq!(latin1_length_from_utf8(text), length, "{text:x?}");
}
