//! Conversions into destinations whose length is near a boundary of blocks, from and to each of sixteen offsets. UTF-8
//! with each vector among characters of one kind, at each index, by conversions and by the decoder; code units and
//! Latin1 to UTF-8, and Latin1 back. Each is compared with a walk over the characters.

use crate::common::rows::{around, assert_written, fields, named, Unit};
use crate::common::vectors;
use encoding_text::mem::*;
use encoding_text::utf_8::convert_utf8_to_utf16_up_to_invalid;
use encoding_text::{DecoderResult, Utf8Decoder};
use std::fmt::Debug;

/// Characters that surround a vector.
const FILLERS: [char; 4] = ['a', '\u{430}', '\u{4E00}', '\u{1F600}'];

/// How many bytes the characters around a vector have.
const LENGTH: usize = 72;

/// How far the length of a destination is from what a text needs. One more and one less are tried as well.
const GAPS: [usize; 7] = [0, 8, 16, 24, 32, 48, 64];

fn gaps() -> impl Iterator<Item = usize> {
    GAPS.into_iter().flat_map(|gap| [gap.saturating_sub(1), gap, gap + 1])
}

/// Units, the output for the characters before the first malformed sequence, and how many of both there are up to the
/// end of each character.
struct Text<S, D> {
    units: Vec<S>,
    written: Vec<D>,
    ends: Vec<(usize, usize)>,
    /// The length of the first malformed sequence, or 0 if there is none.
    malformed: usize,
}

impl<S: Unit, D: Unit> Text<S, D> {
    fn new() -> Text<S, D> {
        Text {
            units: Vec::new(),
            written: Vec::new(),
            ends: Vec::new(),
            malformed: 0,
        }
    }

    fn push(&mut self, units: &[S], written: &[D]) {
        self.units.extend_from_slice(units);
        if self.malformed == 0 {
            self.written.extend_from_slice(written);
            self.ends.push((self.units.len(), self.written.len()));
        }
    }

    fn push_malformed(&mut self, units: &[S]) {
        self.units.extend_from_slice(units);
        if self.malformed == 0 {
            self.malformed = units.len();
        }
    }

    /// Returns the end of the longest prefix that `fits`.
    fn prefix(&self, fits: impl Fn(usize, usize) -> bool) -> (usize, usize) {
        let longest = self.ends.iter().rev().find(|end| fits(end.0, end.1));
        longest.copied().unwrap_or((0, 0))
    }

    /// Returns the end of the longest prefix whose output fits into `room` units.
    fn prefix_into(&self, room: usize) -> (usize, usize) {
        self.prefix(|_, written| written <= room)
    }
}

/// The offsets of the source and the destination, and the length of the latter.
#[derive(Clone, Copy, Debug)]
struct Place {
    from: usize,
    to: usize,
    room: usize,
}

/// Returns the next of the 256 pairs of offsets, with this length of the destination.
fn next_place(turn: &mut usize, room: usize) -> Place {
    *turn += 1;
    Place {
        from: *turn % 16,
        to: *turn / 16 % 16,
        room,
    }
}

/// Asserts that a call returns this result and writes this into the destination, and nothing around it. The two units
/// are before and after the source.
fn assert_call<S: Unit, D: Unit, A: PartialEq + Debug>(
    (src, round): (&[S], [S; 2]),
    place: Place,
    (answer, wanted): (A, &[D]),
    call: impl FnOnce(&[S], &mut [D]) -> A,
) {
    let mut source = [round[1]; 180];
    source[..place.from].fill(round[0]);
    let part = &mut source[place.from..place.from + src.len()];
    part.copy_from_slice(src);
    let mut dst = [D::UNWRITTEN; 360];
    let answered = call(part, &mut dst[place.to..place.to + place.room]);
    assert_eq!(answered, answer, "{src:x?}, {place:?}");
    assert_written(wanted, place.to, &dst);
}

/// Bytes that start a character surround bytes.
const ROUND_BYTES: [u8; 2] = [0xC3, 0xC3];

/// Returns why a call marked last ends that read this prefix and has `left` units left, if the next part may need
/// `need`, and the number of bytes read.
fn ended(text: &Text<u8, u16>, prefix: usize, left: usize, need: usize) -> (DecoderResult, usize) {
    if prefix == text.units.len() {
        (DecoderResult::InputEmpty, prefix)
    } else if left < need {
        (DecoderResult::OutputFull, prefix)
    } else {
        let result = DecoderResult::Malformed(text.malformed as u8, 0);
        (result, prefix + text.malformed)
    }
}

/// Asserts that the conversion to UTF-16 writes the longest prefix that fits.
fn assert_converts(text: &Text<u8, u16>, place: Place) {
    let prefix = text.prefix_into(place.room);
    let wanted = (prefix, &text.written[..prefix.1]);
    assert_call(
        (&text.units, ROUND_BYTES),
        place,
        wanted,
        convert_utf8_to_utf16_up_to_invalid,
    );
}

/// Asserts that a decoder's call to UTF-16 does, and its result.
fn assert_decodes_to_utf16(text: &Text<u8, u16>, place: Place) {
    let (read, written) = text.prefix_into(place.room);
    let (result, all) = ended(text, read, place.room - written, 2);
    let wanted = ((result, all, written), &text.written[..written]);
    assert_call((&text.units, ROUND_BYTES), place, wanted, |src, dst| {
        let mut decoder = Utf8Decoder::new_inner();
        let answer = decoder.decode_to_utf16_raw(src, dst, true);
        assert!(decoder.in_neutral_state());
        answer
    });
}

/// Asserts that a decoder's call to UTF-8 does.
fn assert_decodes_to_utf8(text: &Text<u8, u16>, place: Place) {
    let (prefix, _) = text.prefix(|read, _| read <= place.room);
    let (result, all) = ended(text, prefix, place.room - prefix, 4);
    let wanted = ((result, all, prefix), &text.units[..prefix]);
    assert_call((&text.units, ROUND_BYTES), place, wanted, |src, dst| {
        let mut decoder = Utf8Decoder::new_inner();
        let answer = decoder.decode_to_utf8_raw(src, dst, true);
        assert!(decoder.in_neutral_state());
        answer
    });
}

/// Asserts that a well-formed text is written whole into a destination no shorter than it.
fn assert_text_converts(text: &Text<u8, u16>, place: Place) {
    let wanted = (text.written.len(), text.written.as_slice());
    assert_call((&text.units, ROUND_BYTES), place, wanted, |src, dst| {
        convert_str_to_utf16(std::str::from_utf8(src).unwrap(), dst)
    });
}

/// Asserts that the calls hold into destinations that are `gap` more and `gap` less than what is needed.
fn assert_rooms(text: &Text<u8, u16>, gap: usize, turn: &mut usize) {
    let (bytes, units) = text.prefix_into(usize::MAX);
    let (less, more) = (units.saturating_sub(gap), units + gap);
    let (less_bytes, more_bytes) = (bytes.saturating_sub(gap), bytes + gap);
    assert_converts(text, next_place(turn, less));
    assert_converts(text, next_place(turn, more));
    assert_decodes_to_utf16(text, next_place(turn, less));
    assert_decodes_to_utf16(text, next_place(turn, more));
    assert_decodes_to_utf8(text, next_place(turn, less_bytes));
    assert_decodes_to_utf8(text, next_place(turn, more_bytes));
    if text.malformed == 0 {
        assert_text_converts(text, next_place(turn, more_bytes));
    }
}

fn push_character(text: &mut Text<u8, u16>, character: char) {
    text.push(
        character.encode_utf8(&mut [0; 4]).as_bytes(),
        character.encode_utf16(&mut [0; 2]),
    );
}

/// Adds a row's bytes by its parts.
fn push_row(text: &mut Text<u8, u16>, row: &str) {
    let (bytes, parts) = fields(row);
    let bytes: Vec<u8> = named(bytes);
    let mut rest = bytes.as_slice();
    for part in parts.split_whitespace().map(vectors::part) {
        match part {
            Ok(character) => push_character(text, character),
            Err(length) => text.push_malformed(&rest[..length.into()]),
        }
        rest = &rest[vectors::length_of(&part)..];
    }
    assert!(rest.is_empty() && text.units.ends_with(&bytes), "{row}");
}

/// Returns how many characters surround a vector, at most one for each byte.
fn count_of(filler: char) -> usize {
    LENGTH / filler.len_utf8()
}

#[test]
fn vectors_into_each_room() {
    let mut turn = 0;
    let mut count = 0;
    for row in vectors::BYTES.lines() {
        for filler in FILLERS {
            for before in 0..=count_of(filler) {
                let mut text = Text::new();
                for i in 0..=count_of(filler) {
                    if i == before {
                        push_row(&mut text, row);
                    } else {
                        push_character(&mut text, filler);
                    }
                }
                gaps().for_each(|gap| assert_rooms(&text, gap, &mut turn));
            }
        }
        count += 1;
    }
    assert_eq!(count, 52);
}

/// Returns the number of code units and of UTF-8 bytes of the character that starts with the first of two units. An
/// unpaired surrogate counts as U+FFFD.
fn lengths_of(unit: u16, next: Option<&u16>) -> (usize, usize) {
    match (unit, next) {
        (0..=0x7F, _) => (1, 1),
        (0x80..=0x7FF, _) => (1, 2),
        (0xD800..=0xDBFF, Some(0xDC00..=0xDFFF)) => (2, 4),
        _ => (1, 3),
    }
}

/// Returns code units with their UTF-8, character by character.
fn text_of(units: &[u16], bytes: &[u8]) -> Text<u16, u8> {
    let mut text = Text::new();
    let (mut units, mut bytes) = (units, bytes);
    while let [first, following @ ..] = units {
        let (read, written) = lengths_of(*first, following.first());
        text.push(&units[..read], &bytes[..written]);
        (units, bytes) = (&units[read..], &bytes[written..]);
    }
    assert!(bytes.is_empty());
    text
}

/// Asserts that the longest prefix of code units that fits is written. Halves of pairs surround the source.
fn assert_units_convert(text: &Text<u16, u8>, place: Place) {
    let prefix = text.prefix_into(place.room);
    let wanted = (prefix, &text.written[..prefix.1]);
    assert_call(
        (&text.units, [0xD83D, 0xDC00]),
        place,
        wanted,
        convert_utf16_to_utf8_partial,
    );
}

#[test]
fn units_into_each_room() {
    let mut turn = 0;
    let mut count = 0;
    for row in vectors::UNITS.lines().chain(vectors::LIMITS.lines()) {
        let (units, bytes) = fields(row);
        let (units, bytes): (Vec<u16>, Vec<u8>) = (named(units), named(bytes));
        for filler in FILLERS {
            let count = count_of(filler);
            let (filler_units, filler_bytes) = (
                filler.to_string().encode_utf16().collect::<Vec<_>>(),
                filler.to_string(),
            );
            for before in 0..=count {
                let text = text_of(
                    &around(&filler_units, count, before, &units),
                    &around(filler_bytes.as_bytes(), count, before, &bytes),
                );
                for gap in gaps() {
                    let needed = text.written.len();
                    assert_units_convert(&text, next_place(&mut turn, needed.saturating_sub(gap)));
                    assert_units_convert(&text, next_place(&mut turn, needed + gap));
                }
            }
        }
        count += 1;
    }
    assert_eq!(count, 50);
}

/// Runs of characters of one length, which end within blocks of eight and of sixteen code units.
const RUNS: [(&str, usize); 7] = [
    ("a", 16),
    ("\u{4E00}", 3),
    ("a", 5),
    ("\u{4E00}", 33),
    ("\u{430}", 18),
    ("a", 9),
    ("\u{4E00}", 8),
];

#[test]
fn runs_into_each_room() {
    let mut turn = 0;
    let runs: String = RUNS.map(|(character, count)| character.repeat(count)).concat();
    let text = text_of(&runs.encode_utf16().collect::<Vec<_>>(), runs.as_bytes());
    for room in 0..300 {
        assert_units_convert(&text, next_place(&mut turn, room));
    }
}

/// Asserts that the longest prefix of Latin1 that fits is written.
fn assert_latin1_converts(text: &Text<u8, u8>, place: Place) {
    let prefix = text.prefix_into(place.room);
    let wanted = (prefix, &text.written[..prefix.1]);
    assert_call(
        (&text.units, [0xE4, 0xE4]),
        place,
        wanted,
        convert_latin1_to_utf8_partial,
    );
}

/// Asserts that the bytes are converted back into a destination no shorter than their UTF-8.
fn assert_latin1_comes_back(text: &Text<u8, u8>, place: Place) {
    let wanted = (LENGTH, text.units.as_slice());
    assert_call((&text.written, ROUND_BYTES), place, wanted, |src, dst| {
        assert!(is_utf8_latin1(src));
        convert_utf8_to_latin1_lossy(src, dst)
    });
}

/// Bytes at the edges of lengths and of first bytes.
const LATIN1_EDGES: [u8; 8] = [0x00, 0x61, 0x7F, 0x80, 0xBF, 0xC0, 0xE4, 0xFF];

#[test]
fn latin1_into_each_room() {
    let mut turn = 0;
    for edge in LATIN1_EDGES {
        for filler in [b'a', 0xE4] {
            for place in 0..LENGTH {
                let mut text = Text::new();
                for at in 0..LENGTH {
                    let byte = if at == place { edge } else { filler };
                    text.push(&[byte], char::from(byte).encode_utf8(&mut [0; 4]).as_bytes());
                }
                for gap in gaps() {
                    let needed = text.written.len();
                    assert_latin1_converts(&text, next_place(&mut turn, needed.saturating_sub(gap)));
                    assert_latin1_converts(&text, next_place(&mut turn, needed + gap));
                    assert_latin1_comes_back(&text, next_place(&mut turn, needed + gap));
                }
            }
        }
    }
}
