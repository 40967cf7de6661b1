//! All sequences of three and four bytes at the edges of the ranges of UTF-8, with all calls that read bytes, compared
//! with `std`. And streams cut everywhere: the decoder's vectors and the encoder's with every set of cuts and into
//! every short destination.

use crate::common::rows::{items, Item};
use crate::common::vectors::{vectors, Part, Vector, LIMITS, UNITS};
use crate::common::{class_of, is_right_to_left};
use encoding_text::decoder::Piece;
use encoding_text::mem::*;
use encoding_text::utf_8::utf8_valid_up_to;
use encoding_text::{repair, repair_to, DecoderResult, EncoderResult, Utf8Decoder, Utf8Encoder};

/// The bytes at the edges.
const EDGES: [u8; 25] = [
    0x00, 0x41, 0x7F, 0x80, 0x8F, 0x90, 0x9F, 0xA0, 0xBF, 0xC0, 0xC1, 0xC2, 0xDF, 0xE0, 0xE1, 0xEC, 0xED, 0xEE, 0xEF,
    0xF0, 0xF1, 0xF3, 0xF4, 0xF5, 0xFF,
];

/// Returns the parts of bytes, by `std`.
fn parts(bytes: &[u8]) -> Vec<Part> {
    let mut parts = Vec::new();
    for chunk in bytes.utf8_chunks() {
        parts.extend(chunk.valid().chars().map(Ok));
        if !chunk.invalid().is_empty() {
            parts.push(Err(chunk.invalid().len() as u8));
        }
    }
    parts
}

/// Records what a call returned, and returns whether that is `InputEmpty`.
fn reported(result: DecoderResult, parts: &mut Vec<Part>) -> bool {
    if let DecoderResult::Malformed(length, following) = result {
        parts.push(Err(length + following));
    }
    result == DecoderResult::InputEmpty
}

/// Returns the parts that a decoder yields of pieces of `length` bytes, with calls that write bytes, code units or
/// nothing.
fn decoded(bytes: &[u8], length: usize) -> [Vec<Part>; 3] {
    let mut delivered = [const { Vec::new() }; 3];
    for (form, parts) in delivered.iter_mut().enumerate() {
        let mut decoder = Utf8Decoder::new_inner();
        for piece in bytes.chunks(length).chain([&[][..]]) {
            let mut unread = piece;
            let last = piece.is_empty();
            loop {
                let (read, ended) = match form {
                    0 => {
                        let mut dst = [0; 8];
                        let (result, read, written) = decoder.decode_to_utf8_raw(unread, &mut dst, last);
                        parts.extend(std::str::from_utf8(&dst[..written]).unwrap().chars().map(Ok));
                        (read, reported(result, parts))
                    }
                    1 => {
                        let mut dst = [0; 8];
                        let (result, read, written) = decoder.decode_to_utf16_raw(unread, &mut dst, last);
                        parts.extend(char::decode_utf16(dst[..written].iter().copied()).map(|it| Ok(it.unwrap())));
                        (read, reported(result, parts))
                    }
                    _ => {
                        let (piece, read) = decoder.decode_borrowed(unread, last);
                        match piece {
                            Piece::Text(text) => parts.extend(text.chars().map(Ok)),
                            Piece::Char(character) => parts.push(Ok(character)),
                            Piece::Malformed(length) => parts.push(Err(length)),
                            Piece::InputEmpty => (),
                        }
                        (read, piece == Piece::InputEmpty)
                    }
                };
                unread = &unread[read..];
                if ended {
                    break assert!(unread.is_empty());
                }
            }
        }
        assert!(decoder.in_neutral_state());
    }
    delivered
}

/// Asserts that all calls treat the bytes as `std` does.
fn check(bytes: &[u8]) {
    let text = String::from_utf8_lossy(bytes);
    let parts = parts(bytes);
    let malformed = parts.iter().filter(|part| part.is_err()).count();
    let mut repaired = Vec::new();
    assert_eq!(repair_to(bytes, &mut repaired).unwrap(), malformed as u64, "{bytes:x?}");
    assert!(repaired == text.as_bytes() && repair(bytes) == text, "{bytes:x?}");
    for length in [1, bytes.len()] {
        assert!(
            decoded(bytes, length).iter().all(|delivered| *delivered == parts),
            "{bytes:x?}, {length}"
        );
    }
    let mut units = [0x71; 8];
    let count = convert_utf8_to_utf16(bytes, &mut units);
    assert!(units[..count].iter().copied().eq(text.encode_utf16()), "{bytes:x?}");
    assert!(units[count..].iter().all(|unit| *unit == 0x71), "{bytes:x?}");
    let valid = std::str::from_utf8(bytes).map_or_else(|error| error.valid_up_to(), str::len);
    assert_eq!(utf8_valid_up_to(bytes), valid, "{bytes:x?}");
    let is_latin1 = parts.iter().all(|part| matches!(part, Ok('\0'..='\u{FF}')));
    let is_bidi = parts
        .iter()
        .any(|part| part.is_err() || part.is_ok_and(is_right_to_left));
    assert_eq!(is_utf8_latin1(bytes), is_latin1, "{bytes:x?}");
    assert_eq!(is_utf8_bidi(bytes), is_bidi, "{bytes:x?}");
    assert_eq!(
        check_utf8_for_latin1_and_bidi(bytes),
        class_of(is_latin1, is_bidi),
        "{bytes:x?}"
    );
}

#[test]
fn of_three_bytes() {
    for first in EDGES {
        for second in EDGES {
            for third in EDGES {
                check(&[first, second, third]);
            }
        }
    }
}

#[test]
fn of_four_bytes() {
    for lead in 0xE0..0xF5 {
        for first in EDGES {
            for second in EDGES {
                for third in EDGES {
                    check(&[lead, first, second, third]);
                }
            }
        }
    }
}

/// The form of a decode call.
#[derive(Clone, Copy)]
enum Form {
    Utf16,
    Utf8,
    Borrowed,
}
use Form::{Borrowed, Utf16, Utf8};

/// Calls of one form, and of all forms in turn, in each order.
const FORMS: [[Form; 3]; 9] = [
    [Utf16, Utf16, Utf16],
    [Utf8, Utf8, Utf8],
    [Borrowed, Borrowed, Borrowed],
    [Utf16, Utf8, Borrowed],
    [Utf16, Borrowed, Utf8],
    [Utf8, Utf16, Borrowed],
    [Utf8, Borrowed, Utf16],
    [Borrowed, Utf16, Utf8],
    [Borrowed, Utf8, Utf16],
];

/// How many calls a piece takes at most.
const CALLS: usize = 32;

/// Returns the pieces of a list: cut at each index whose bit is set, the lowest for a cut before the first item. The
/// last is marked.
fn pieces<T>(all: &[T], cuts: u32) -> impl Iterator<Item = (&[T], bool)> {
    let mut places: Vec<usize> = (0..=all.len()).filter(|place| cuts >> place & 1 == 1).collect();
    let last = places.len();
    places.insert(0, 0);
    places.push(all.len());
    (0..=last).map(move |i| (&all[places[i]..places[i + 1]], i == last))
}

/// Calls of a decoder in a chain, and what they yielded.
struct Chain {
    decoder: Utf8Decoder,
    forms: [Form; 3],
    room: usize,
    calls: usize,
    delivered: Vec<Part>,
}

impl Chain {
    /// Records a result, and returns whether it is `InputEmpty`.
    fn ends(&mut self, result: DecoderResult) -> bool {
        if let DecoderResult::Malformed(length, following) = result {
            self.delivered.push(Err(length + following));
        }
        result == DecoderResult::InputEmpty
    }

    /// Makes the next call, of the form whose turn it is, into `room` units or, if that is not enough, into as many as
    /// any character takes. Returns the number of bytes read, and whether the call ended with `InputEmpty`.
    fn call(&mut self, src: &[u8], last: bool, enough: bool) -> (usize, bool) {
        let form = self.forms[self.calls % 3];
        self.calls += 1;
        match form {
            Utf16 => {
                let mut dst = [0x71; 8];
                let space = &mut dst[..if enough { 2 } else { self.room }];
                let (result, read, written) = self.decoder.decode_to_utf16_raw(src, space, last);
                let characters = char::decode_utf16(dst[..written].iter().copied());
                self.delivered
                    .extend(characters.map(|character| Ok(character.unwrap())));
                assert!(dst[written..].iter().all(|unit| *unit == 0x71));
                (read, self.ends(result))
            }
            Utf8 => {
                let mut dst = [0x71; 8];
                let space = &mut dst[..if enough { 4 } else { self.room }];
                let (result, read, written) = self.decoder.decode_to_utf8_raw(src, space, last);
                self.delivered
                    .extend(std::str::from_utf8(&dst[..written]).unwrap().chars().map(Ok));
                assert!(dst[written..].iter().all(|byte| *byte == 0x71));
                (read, self.ends(result))
            }
            Borrowed => {
                let (piece, read) = self.decoder.decode_borrowed(src, last);
                match piece {
                    Piece::Text(text) => {
                        assert_eq!(text.as_bytes(), &src[..read]);
                        self.delivered.extend(text.chars().map(Ok));
                    }
                    Piece::Char(character) => self.delivered.push(Ok(character)),
                    Piece::Malformed(length) => self.delivered.push(Err(length)),
                    Piece::InputEmpty => return (read, true),
                }
                (read, false)
            }
        }
    }

    /// Passes a piece until `InputEmpty` is returned, when all of it is read. A call that makes no progress is followed
    /// by one with enough space.
    fn hand_in(&mut self, piece: &[u8], last: bool) {
        let mut unread = piece;
        let mut rejected = false;
        for _ in 0..CALLS {
            let count = self.delivered.len();
            let (read, ended) = self.call(unread, last, rejected);
            unread = &unread[read..];
            if ended {
                assert!(unread.is_empty());
                return;
            }
            rejected = read == 0 && self.delivered.len() == count;
        }
        panic!("no end after {CALLS} calls");
    }
}

/// Asserts that the bytes, with these cuts, yield these parts, and that nothing is pending then.
fn assert_delivered(bytes: &[u8], cuts: u32, room: usize, forms: [Form; 3], parts: &[Part]) {
    let mut chain = Chain {
        decoder: Utf8Decoder::new_inner(),
        forms,
        room,
        calls: 0,
        delivered: Vec::new(),
    };
    for (piece, last) in pieces(bytes, cuts) {
        chain.hand_in(piece, last);
    }
    assert_eq!(chain.delivered, parts, "{bytes:x?}, {cuts:b}, {room}");
    assert!(chain.decoder.in_neutral_state(), "{bytes:x?}, {cuts:b}, {room}");
}

/// All sets of cuts, so also each cut in two, each in three, and one byte per piece.
#[test]
fn of_the_decoder() {
    let vectors = vectors();
    for Vector { bytes, parts, .. } in &vectors {
        for cuts in 0..2 << bytes.len() {
            for room in 0..6 {
                for forms in FORMS {
                    assert_delivered(bytes, cuts, room, forms, parts);
                }
            }
        }
    }
    assert_eq!(vectors.len(), 104);
}

/// Passes code units until all are read. Each call's bytes are the next of those expected, which are removed from
/// these.
fn encode(encoder: &mut Utf8Encoder, piece: &[u16], last: bool, room: usize, wanted: &mut &[u8]) {
    let mut unread = piece;
    let mut rejected = false;
    for _ in 0..CALLS {
        let mut dst = [0x71; 8];
        let space = &mut dst[..if rejected { 4 } else { room }];
        let (result, read, written) = encoder.encode_from_utf16_raw(unread, space, last);
        let (prefix, following) = wanted.split_at(written);
        assert_eq!(&dst[..written], prefix);
        assert!(dst[written..].iter().all(|byte| *byte == 0x71));
        unread = &unread[read..];
        *wanted = following;
        if result == EncoderResult::InputEmpty {
            assert!(unread.is_empty());
            return;
        }
        rejected = read == 0 && written == 0;
    }
    panic!("no end after {CALLS} calls");
}

/// Asserts that an encoder writes these bytes for code units with these cuts, and has nothing pending then.
fn assert_encoded(mut encoder: Utf8Encoder, units: &[u16], cuts: u32, room: usize, bytes: &[u8]) {
    let mut wanted = bytes;
    for (piece, last) in pieces(units, cuts) {
        encode(&mut encoder, piece, last, room, &mut wanted);
    }
    assert!(wanted.is_empty(), "{units:x?}, {cuts:b}, {room}");
    assert_eq!(encoder.max_buffer_length_from_utf16_without_replacement(0), Some(0));
}

/// From a new encoder, and from one with D83D pending.
#[test]
fn of_the_encoder() {
    let sources: Vec<Item<u16, u8>> = [UNITS, LIMITS].into_iter().flat_map(items).collect();
    assert_eq!(sources.len(), 50);
    for Item { read: units, written } in &sources {
        let after_a_unit = String::from_utf16_lossy(&[&[0xD83D], &units[..]].concat());
        for cuts in 0..2 << units.len() {
            for room in 0..6 {
                assert_encoded(Utf8Encoder::new_inner(), units, cuts, room, written);
                let mut encoder = Utf8Encoder::new_inner();
                let surrogate = encoder.encode_from_utf16_raw(&[0xD83D], &mut [], false);
                assert_eq!(surrogate, (EncoderResult::InputEmpty, 1, 0));
                assert_encoded(encoder, units, cuts, room, after_a_unit.as_bytes());
            }
        }
    }
}
