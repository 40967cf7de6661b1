//! The decoder and the encoder over random pieces into destinations of random length, compared with `std` on the whole.

use crate::common::*;
use encoding_text::decoder::Piece;
use encoding_text::{DecoderResult, EncoderResult, Utf8Decoder, Utf8Encoder};

const ROUNDS: usize = 4000;

/// Returns the characters of bytes, and the length of each malformed sequence.
fn parts(bytes: &[u8]) -> Vec<Result<char, u8>> {
    let mut parts = Vec::new();
    for chunk in bytes.utf8_chunks() {
        parts.extend(chunk.valid().chars().map(Ok));
        if !chunk.invalid().is_empty() {
            parts.push(Err(chunk.invalid().len() as u8));
        }
    }
    parts
}

/// Cuts bytes at random indices. The last piece is marked, and may be empty.
fn pieces<'a>(random: &mut Random, bytes: &'a [u8]) -> Vec<(&'a [u8], bool)> {
    let mut pieces = Vec::new();
    let mut rest = bytes;
    while !rest.is_empty() {
        let (piece, following) = rest.split_at(1 + random.length(rest.len() - 1));
        pieces.push((piece, false));
        rest = following;
    }
    match pieces.last_mut() {
        Some(piece) if random.below(2) == 0 => piece.1 = true,
        _ => pieces.push((&[], true)),
    }
    pieces
}

fn reported(result: DecoderResult, parts: &mut Vec<Result<char, u8>>) {
    if let DecoderResult::Malformed(count, following) = result {
        assert_eq!(following, 0);
        parts.push(Err(count));
    }
}

#[test]
fn to_utf16() {
    let mut random = Random::new(41);
    for _ in 0..ROUNDS {
        let bytes = random.bytes();
        let mut decoder = Utf8Decoder::new_inner();
        let mut found = Vec::new();
        for (piece, last) in pieces(&mut random, &bytes) {
            let mut rest = piece;
            loop {
                let room = 2 + random.length(40);
                let mut dst = units_of(&mut random, room);
                let (result, read, written) = decoder.decode_to_utf16_raw(rest, dst.dst(), last);
                let units = dst.written(written);
                found.extend(char::decode_utf16(units.iter().copied()).map(|it| Ok(it.unwrap())));
                reported(result, &mut found);
                assert!(rest.is_empty() || read > 0 || matches!(result, DecoderResult::Malformed(..)));
                rest = &rest[read..];
                if result == DecoderResult::InputEmpty {
                    break;
                }
            }
            assert!(rest.is_empty());
        }
        assert!(decoder.in_neutral_state());
        assert_eq!(found, parts(&bytes));
    }
}

#[test]
fn to_utf8() {
    let mut random = Random::new(42);
    for _ in 0..ROUNDS {
        let bytes = random.bytes();
        let mut decoder = Utf8Decoder::new_inner();
        let mut found = Vec::new();
        for (piece, last) in pieces(&mut random, &bytes) {
            let mut rest = piece;
            loop {
                let room = 4 + random.length(40);
                let mut dst = bytes_of(&mut random, room);
                let (result, read, written) = decoder.decode_to_utf8_raw(rest, dst.dst(), last);
                found.extend(std::str::from_utf8(dst.written(written)).unwrap().chars().map(Ok));
                reported(result, &mut found);
                assert!(rest.is_empty() || read > 0 || matches!(result, DecoderResult::Malformed(..)));
                rest = &rest[read..];
                if result == DecoderResult::InputEmpty {
                    break;
                }
            }
            assert!(rest.is_empty());
        }
        assert!(decoder.in_neutral_state());
        assert_eq!(found, parts(&bytes));
    }
}

#[test]
fn borrowed() {
    let mut random = Random::new(43);
    for _ in 0..ROUNDS {
        let bytes = random.bytes();
        let mut decoder = Utf8Decoder::new_inner();
        let mut found = Vec::new();
        for (piece, last) in pieces(&mut random, &bytes) {
            let mut rest = piece;
            loop {
                let (result, read) = decoder.decode_borrowed(rest, last);
                match result {
                    Piece::Text(text) => {
                        assert_eq!((text.as_ptr(), text.len()), (rest.as_ptr(), read));
                        found.extend(text.chars().map(Ok));
                    }
                    Piece::Char(c) => found.push(Ok(c)),
                    Piece::Malformed(count) => found.push(Err(count)),
                    Piece::InputEmpty => break assert_eq!(read, rest.len()),
                }
                rest = &rest[read..];
            }
        }
        assert!(decoder.in_neutral_state());
        assert_eq!(found, parts(&bytes));
    }
}

/// A destination of the queried length holds the rest of a stream, with U+FFFD for each report if the query says so.
#[test]
fn queried_rooms_suffice() {
    let mut random = Random::new(44);
    for _ in 0..ROUNDS {
        let bytes = random.bytes();
        let (head, tail) = bytes.split_at(random.below(bytes.len() + 1).min(3));
        let mut decoder = Utf8Decoder::new_inner();
        if decoder.decode_to_utf8_raw(head, &mut [0; 12], false).0 != DecoderResult::InputEmpty {
            continue;
        }
        let mut units = vec![0; decoder.max_utf16_buffer_length(tail.len()).unwrap()];
        let mut text = vec![0; decoder.max_utf8_buffer_length(tail.len()).unwrap()];
        let mut plain = vec![0; decoder.max_utf8_buffer_length_without_replacement(tail.len()).unwrap()];
        let mut other = decoder.clone();
        let (mut read, mut written) = (0, 0);
        loop {
            let (result, more, count) = other.decode_to_utf16_raw(&tail[read..], &mut units[written..], true);
            (read, written) = (read + more, written + count);
            match result {
                DecoderResult::InputEmpty => break,
                DecoderResult::OutputFull => panic!("the queried room is full"),
                DecoderResult::Malformed(..) => units[written] = 0xFFFD,
            }
            written += 1;
        }
        let mut other = decoder.clone();
        let (mut read, mut written) = (0, 0);
        loop {
            let (result, more, count) = other.decode_to_utf8_raw(&tail[read..], &mut text[written..], true);
            (read, written) = (read + more, written + count);
            match result {
                DecoderResult::InputEmpty => break,
                DecoderResult::OutputFull => panic!("the queried room is full"),
                DecoderResult::Malformed(..) => text[written..written + 3].copy_from_slice("\u{FFFD}".as_bytes()),
            }
            written += 3;
        }
        assert_ne!(
            decoder.decode_to_utf8_raw(tail, &mut plain, true).0,
            DecoderResult::OutputFull
        );
    }
}

#[test]
fn decoder_queries() {
    let mut decoder = Utf8Decoder::new_inner();
    for pending in 0..4 {
        assert_eq!(decoder.in_neutral_state(), pending == 0);
        for n in [
            0,
            1,
            77,
            usize::MAX / 3 - 2,
            usize::MAX / 3 - 1,
            usize::MAX / 3,
            usize::MAX - 4,
            usize::MAX - 1,
            usize::MAX,
        ] {
            assert_eq!(decoder.max_utf16_buffer_length(n), n.checked_add(1 + pending));
            assert_eq!(
                decoder.max_utf8_buffer_length_without_replacement(n),
                n.checked_add(3 + pending)
            );
            let replacing = n
                .checked_add(pending)
                .and_then(|n| n.checked_mul(3))
                .and_then(|n| n.checked_add(3));
            assert_eq!(decoder.max_utf8_buffer_length(n), replacing);
        }
        let byte = [0xF0, 0x9F, 0x98, 0x80][pending];
        let _ = decoder.decode_to_utf8_raw(&[byte], &mut [0; 4], false);
    }
    assert!(decoder.in_neutral_state());
}

/// Encodes code units in random pieces, the last of them marked if `last` says so.
fn encode(random: &mut Random, encoder: &mut Utf8Encoder, units: &[u16], last: bool) -> Vec<u8> {
    let mut encoded = Vec::new();
    let mut rest = units;
    loop {
        let (piece, following) = rest.split_at(random.length(rest.len()));
        rest = following;
        let is_last = last && rest.is_empty();
        let mut unread = piece;
        loop {
            let room = 4 + random.length(40);
            let mut dst = bytes_of(random, room);
            let (result, read, written) = encoder.encode_from_utf16_raw(unread, dst.dst(), is_last);
            encoded.extend_from_slice(dst.written(written));
            unread = &unread[read..];
            if result == EncoderResult::InputEmpty {
                break;
            }
        }
        assert!(unread.is_empty());
        if rest.is_empty() {
            return encoded;
        }
    }
}

#[test]
fn from_utf16() {
    let mut random = Random::new(51);
    for _ in 0..ROUNDS {
        let units = random.units();
        let mut encoder = Utf8Encoder::new_inner();
        let encoded = encode(&mut random, &mut encoder, &units, true);
        assert_eq!(encoded, String::from_utf16_lossy(&units).as_bytes());
    }
}

/// Code units and texts in turn: a surrogate that is pending before a text becomes U+FFFD.
#[test]
fn from_texts_between() {
    let mut random = Random::new(52);
    for _ in 0..ROUNDS {
        let mut encoder = Utf8Encoder::new_inner();
        let (mut encoded, mut wanted) = (Vec::new(), String::new());
        for _ in 0..3 {
            let mut units = random.units();
            if random.below(2) == 0 {
                units.push(0xD800 + random.below(0x400) as u16);
            }
            encoded.extend(encode(&mut random, &mut encoder, &units, false));
            wanted += &String::from_utf16_lossy(&units);
            let text = random.text(2);
            wanted += &text;
            let mut rest = text.as_str();
            loop {
                let surrogate = encoder.max_buffer_length_from_utf8_without_replacement(0).unwrap();
                let room = random.length(40);
                let mut dst = bytes_of(&mut random, room);
                let (result, read, written) = encoder.encode_from_utf8_raw(rest, dst.dst(), false);
                encoded.extend_from_slice(dst.written(written));
                let fits = (0..=rest.len())
                    .filter(|end| rest.is_char_boundary(*end) && surrogate + end <= room)
                    .max();
                assert_eq!(read, fits.unwrap_or(0));
                assert_eq!(written, if fits.is_some() { surrogate + read } else { 0 });
                assert_eq!(result == EncoderResult::InputEmpty, fits == Some(rest.len()));
                rest = &rest[read..];
                if result == EncoderResult::InputEmpty {
                    break;
                }
            }
        }
        assert_eq!(encoded, wanted.as_bytes());
    }
}

#[test]
fn encoder_queries() {
    let new = Utf8Encoder::new_inner();
    let mut holding = new.clone();
    assert_eq!(
        holding.encode_from_utf16_raw(&[0xD83D], &mut [], false),
        (EncoderResult::InputEmpty, 1, 0)
    );
    for (encoder, surrogate) in [(new, 0), (holding, 1)] {
        for n in [
            0,
            1,
            77,
            usize::MAX / 3 - 1,
            usize::MAX / 3,
            usize::MAX / 3 + 1,
            usize::MAX - 3,
            usize::MAX - 2,
            usize::MAX,
        ] {
            let units = n.checked_add(surrogate).and_then(|n| n.checked_mul(3));
            assert_eq!(encoder.max_buffer_length_from_utf16_without_replacement(n), units);
            assert_eq!(
                encoder.max_buffer_length_from_utf8_without_replacement(n),
                n.checked_add(3 * surrogate)
            );
        }
    }
}
