//! The vectors through each call of the decoder: whole into bytes and code units, and in pieces, whole and cut. And
//! clones of a decoder, of an encoder and of an iterator over chunks: the original and the clone go on independently.

use crate::common::rows::{named, Unit};
use crate::common::vectors::{length_of, part, vectors, Part, Vector};
use encoding_text::decoder::Piece;
use encoding_text::{utf8_chunks, DecoderResult, EncoderResult, Utf8Decoder, Utf8Encoder};

/// A byte or a code unit, with the decoder's call that writes it.
trait Output: Unit {
    fn decode(decoder: &mut Utf8Decoder, src: &[u8], dst: &mut [Self], last: bool) -> (DecoderResult, usize, usize);

    /// Appends a character.
    fn push(text: &mut Vec<Self>, character: char);
}

impl Output for u8 {
    fn decode(decoder: &mut Utf8Decoder, src: &[u8], dst: &mut [u8], last: bool) -> (DecoderResult, usize, usize) {
        decoder.decode_to_utf8_raw(src, dst, last)
    }

    fn push(text: &mut Vec<u8>, character: char) {
        text.extend_from_slice(character.encode_utf8(&mut [0; 4]).as_bytes());
    }
}

impl Output for u16 {
    fn decode(decoder: &mut Utf8Decoder, src: &[u8], dst: &mut [u16], last: bool) -> (DecoderResult, usize, usize) {
        decoder.decode_to_utf16_raw(src, dst, last)
    }

    fn push(text: &mut Vec<u16>, character: char) {
        text.extend_from_slice(character.encode_utf16(&mut [0; 2]));
    }
}

/// What decoding yields: bytes or code units, and for each report the number of them before it, and its length.
type Delivered<U> = (Vec<U>, Vec<(usize, u8)>);

/// Returns what decoding has to yield.
fn wanted<U: Output>(vector: &Vector) -> Delivered<U> {
    let (mut text, mut reports) = (Vec::new(), Vec::new());
    for part in &vector.parts {
        match *part {
            Ok(character) => U::push(&mut text, character),
            Err(length) => reports.push((text.len(), length)),
        }
    }
    (text, reports)
}

/// Returns what decoding yields, if the unread bytes are passed again after each report. Then all is read, and nothing
/// is pending.
fn decoded<U: Output>(vector: &Vector) -> Delivered<U> {
    let mut decoder = Utf8Decoder::new_inner();
    let mut unread = &vector.bytes[..];
    let (mut text, mut reports) = (Vec::new(), Vec::new());
    for _ in 0..8 {
        let mut dst = [U::UNWRITTEN; 16];
        let (result, read, written) = U::decode(&mut decoder, unread, &mut dst, true);
        unread = &unread[read..];
        text.extend_from_slice(&dst[..written]);
        match result {
            DecoderResult::Malformed(length, 0) => reports.push((text.len(), length)),
            DecoderResult::InputEmpty => {
                assert!(unread.is_empty() && decoder.in_neutral_state(), "{}", vector.row);
                return (text, reports);
            }
            _ => panic!("{result:?}, {}", vector.row),
        }
    }
    panic!("no end, {}", vector.row);
}

#[test]
fn delivers_the_parts() {
    let vectors = vectors();
    for vector in &vectors {
        assert_eq!(decoded::<u16>(vector), wanted(vector), "{}", vector.row);
        assert_eq!(decoded::<u8>(vector), wanted(vector), "{}", vector.row);
    }
    assert_eq!(vectors.len(), 104);
}

/// The parts of a vector take its bytes, each once.
#[test]
fn parts_take_all_bytes() {
    let vectors = vectors();
    for vector in &vectors {
        let length: usize = vector.parts.iter().map(length_of).sum();
        assert_eq!(length, vector.bytes.len(), "{}", vector.row);
    }
    assert_eq!(vectors.len(), 104);
}

/// Returns what the pieces of a vector yield, if at most `most` unread bytes are passed in each call, and the last of
/// them is marked. Then all is read.
fn in_pieces(vector: &Vector, most: usize) -> Delivered<u8> {
    let mut decoder = Utf8Decoder::new_inner();
    let mut unread = &vector.bytes[..];
    let (mut text, mut reports) = (Vec::new(), Vec::new());
    for _ in 0..24 {
        let handed = &unread[..most.min(unread.len())];
        let last = handed.len() == unread.len();
        let (piece, read) = decoder.decode_borrowed(handed, last);
        let prefix = &handed[..read];
        unread = &unread[read..];
        match piece {
            Piece::Text(piece) => {
                assert_eq!(piece.as_bytes(), prefix, "{}", vector.row);
                text.extend_from_slice(prefix);
            }
            Piece::Char(character) => u8::push(&mut text, character),
            Piece::Malformed(length) => reports.push((text.len(), length)),
            Piece::InputEmpty if last => {
                assert!(unread.is_empty(), "{}", vector.row);
                return (text, reports);
            }
            Piece::InputEmpty => {}
        }
    }
    panic!("no end, {}", vector.row);
}

/// The pieces of a vector are its parts, whole and cut after each byte, each two and each three.
#[test]
fn vectors_come_in_pieces() {
    let vectors = vectors();
    for vector in &vectors {
        for most in [1, 2, 3, 16] {
            assert_eq!(in_pieces(vector, most), wanted(vector), "{}, {most}", vector.row);
        }
    }
    assert_eq!(vectors.len(), 104);
}

/// Pending bytes, and two continuations with what the decoder finds in each: characters by their scalar values, and `?`
/// with the length of a malformed sequence.
const DECODER_ROWS: &str = "\
 | 61 | U+0061 | C3 A4 | U+00E4
C3 | A4 | U+00E4 | 61 | ?1 U+0061
E2 | 98 83 61 | U+2603 U+0061 | 98 | ?2
E2 98 | 83 | U+2603 | BA | U+263A
E2 98 | 83 | U+2603 | | ?2
F0 | 9F 98 80 | U+1F600 | 90 | ?2
F0 9F | 98 80 | U+1F600 | 62 | ?2 U+0062
F0 9F 98 | 80 | U+1F600 | 8E | U+1F60E
F0 9F 98 | | ?3 | F0 9F 98 80 | ?3 U+1F600";

/// Returns a decoder with these bytes pending.
fn decoder_at(pending: &[u8]) -> Utf8Decoder {
    let mut decoder = Utf8Decoder::new_inner();
    let reported = decoder.decode_to_utf8_raw(pending, &mut [0; 8], false);
    assert_eq!(reported, (DecoderResult::InputEmpty, pending.len(), 0), "{pending:x?}");
    decoder
}

/// Decodes the rest of a stream to UTF-16, one after another.
fn parts_of_units(decoder: &mut Utf8Decoder, rest: &[u8]) -> Vec<Part> {
    let (mut parts, mut unread, mut dst) = (Vec::new(), rest, [0; 16]);
    loop {
        let (result, read, written) = decoder.decode_to_utf16_raw(unread, &mut dst, true);
        unread = &unread[read..];
        parts.extend(char::decode_utf16(dst[..written].iter().copied()).map(|it| Ok(it.unwrap())));
        match result {
            DecoderResult::Malformed(length, 0) => parts.push(Err(length)),
            _ => return parts,
        }
    }
}

/// The same to UTF-8.
fn parts_of_bytes(decoder: &mut Utf8Decoder, rest: &[u8]) -> Vec<Part> {
    let (mut parts, mut unread, mut dst) = (Vec::new(), rest, [0; 16]);
    loop {
        let (result, read, written) = decoder.decode_to_utf8_raw(unread, &mut dst, true);
        unread = &unread[read..];
        parts.extend(std::str::from_utf8(&dst[..written]).unwrap().chars().map(Ok));
        match result {
            DecoderResult::Malformed(length, 0) => parts.push(Err(length)),
            _ => return parts,
        }
    }
}

/// The same without a destination.
fn parts_of_pieces(decoder: &mut Utf8Decoder, rest: &[u8]) -> Vec<Part> {
    let (mut parts, mut unread) = (Vec::new(), rest);
    loop {
        let (piece, read) = decoder.decode_borrowed(unread, true);
        unread = &unread[read..];
        match piece {
            Piece::Text(text) => parts.extend(text.chars().map(Ok)),
            Piece::Char(character) => parts.push(Ok(character)),
            Piece::Malformed(length) => parts.push(Err(length)),
            Piece::InputEmpty => return parts,
        }
    }
}

/// A continuation of a stream, and its parts.
struct Continuation {
    rest: Vec<u8>,
    parts: Vec<Part>,
}

/// Asserts that a decoder and its clones go on as a row says: the clone first, then the decoder, and then another one
/// that took over the state before that.
fn assert_decoders_go_on(row: &str, pending: &[u8], [first, second]: [&Continuation; 2]) {
    for parts in [parts_of_units, parts_of_bytes, parts_of_pieces] {
        let mut decoder = decoder_at(pending);
        let mut clone = decoder.clone();
        let mut other = decoder_at(&[0xC3]);
        other.clone_from(&decoder);
        assert_eq!(parts(&mut clone, &first.rest), first.parts, "clone, {row}");
        assert_eq!(decoder.in_neutral_state(), pending.is_empty(), "{row}");
        assert_eq!(parts(&mut decoder, &second.rest), second.parts, "{row}");
        assert_eq!(other.in_neutral_state(), pending.is_empty(), "{row}");
        assert_eq!(parts(&mut other, &first.rest), first.parts, "other, {row}");
    }
}

#[test]
fn decoders() {
    for row in DECODER_ROWS.lines() {
        let fields: Vec<&str> = row.split('|').map(str::trim).collect();
        let [pending, rest, parts, other_rest, other_parts] = fields[..] else {
            panic!("{row} is no row");
        };
        let continuation = |rest, parts: &str| Continuation {
            rest: named(rest),
            parts: parts.split_whitespace().map(part).collect(),
        };
        let first = continuation(rest, parts);
        let second = continuation(other_rest, other_parts);
        assert_decoders_go_on(row, &named::<u8>(pending), [&first, &second]);
        assert_decoders_go_on(row, &named::<u8>(pending), [&second, &first]);
        assert_decoders_go_on(row, &named::<u8>(pending), [&first, &first]);
    }
    assert_eq!(DECODER_ROWS.lines().count(), 9);
}

/// A pending surrogate, and two continuations with their UTF-8.
const ENCODER_ROWS: &str = "\
 | 0061 | 61 | D83D DE00 | F0 9F 98 80
D83D | DE00 | F0 9F 98 80 | 0061 | EF BF BD 61
D83D | DCA9 2603 | F0 9F 92 A9 E2 98 83 | | EF BF BD
D83D | DE00 | F0 9F 98 80 | D83D DE00 | EF BF BD F0 9F 98 80
DBFF | DFFF | F4 8F BF BF | DC00 | F4 8F B0 80
D800 | DC00 | F0 90 80 80 | D800 | EF BF BD EF BF BD";

/// Returns an encoder with this surrogate pending, or none.
fn encoder_at(pending: &[u16]) -> Utf8Encoder {
    let mut encoder = Utf8Encoder::new_inner();
    let reported = encoder.encode_from_utf16_raw(pending, &mut [], false);
    assert_eq!(reported, (EncoderResult::InputEmpty, pending.len(), 0), "{pending:x?}");
    encoder
}

/// Encodes the rest of a stream.
fn encoded(encoder: &mut Utf8Encoder, rest: &[u16]) -> Vec<u8> {
    let mut dst = [0; 16];
    let (result, read, written) = encoder.encode_from_utf16_raw(rest, &mut dst, true);
    assert_eq!((result, read), (EncoderResult::InputEmpty, rest.len()), "{rest:x?}");
    dst[..written].to_vec()
}

/// A text as a continuation: U+FFFD for the pending surrogate, and then the text.
fn encoded_text(encoder: &mut Utf8Encoder) -> Vec<u8> {
    let mut dst = [0; 16];
    let (result, read, written) = encoder.encode_from_utf8_raw("\u{2603}", &mut dst, true);
    assert_eq!((result, read), (EncoderResult::InputEmpty, 3));
    dst[..written].to_vec()
}

#[test]
fn encoders() {
    for row in ENCODER_ROWS.lines() {
        let fields: Vec<&str> = row.split('|').map(str::trim).collect();
        let [pending, rest, bytes, other_rest, other_bytes] = fields[..] else {
            panic!("{row} is no row");
        };
        let pending = named::<u16>(pending);
        let mut encoder = encoder_at(&pending);
        let mut encoders = [encoder.clone(), encoder.clone(), encoder.clone(), encoder_at(&[0xD800])];
        encoders[3].clone_from(&encoder);
        let text = if pending.is_empty() { "" } else { "\u{FFFD}" };
        for (rest, bytes, clone) in [(rest, bytes, 0), (other_rest, other_bytes, 1), (rest, bytes, 3)] {
            let room = encoders[clone].max_buffer_length_from_utf16_without_replacement(0);
            assert_eq!(room, Some(3 * pending.len()), "clone {clone}, {row}");
            let found = encoded(&mut encoders[clone], &named::<u16>(rest));
            assert_eq!(found, named::<u8>(bytes), "clone {clone}, {row}");
        }
        let found = encoded_text(&mut encoders[2]);
        assert_eq!(found, [text, "\u{2603}"].concat().as_bytes(), "{row}");
        let found = encoded(&mut encoder, &named::<u16>(other_rest));
        assert_eq!(found, named::<u8>(other_bytes), "{row}");
    }
    assert_eq!(ENCODER_ROWS.lines().count(), 6);
}

/// An iterator and its clone each go on with the next chunk.
#[test]
fn iterators_over_chunks() {
    let mut chunks = utf8_chunks(b"a\xFFb\xE2\x98c");
    assert_eq!(
        chunks.next().map(|chunk| (chunk.valid(), chunk.invalid())),
        Some(("a", &b"\xFF"[..]))
    );
    let clone = chunks.clone();
    let rest: [(&str, &[u8]); 2] = [("b", b"\xE2\x98"), ("c", b"")];
    assert!(chunks.by_ref().map(|chunk| (chunk.valid(), chunk.invalid())).eq(rest));
    assert!(clone.map(|chunk| (chunk.valid(), chunk.invalid())).eq(rest));
    assert_eq!(chunks.next(), None);
}
