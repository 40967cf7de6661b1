//! The streaming calls in pieces, with U+FFFD written for each report as a caller does. Peers are called directly:
//! these functions of `encoding_rs` aren't inlined.

use crate::ffi::{self, Decoder, Encoder};
use crate::kinds::Source;
use crate::room::Room;
#[cfg(feature = "peers")]
use encoding_rs::{CoderResult, UTF_8};
use std::str;

/// The shortest destination that each call gets: every character fits.
const LEAST: usize = 4;

impl Room {
    fn free_bytes(&mut self) -> &mut [u8] {
        let end = (self.written + self.limit.max(LEAST)).min(self.bytes.len());
        &mut self.bytes[self.written..end]
    }

    fn free_units(&mut self) -> &mut [u16] {
        let end = (self.written + self.limit.max(LEAST)).min(self.units.len());
        &mut self.units[self.written..end]
    }
}

/// Returns the pieces of a source, the last one marked.
fn pieces(source: &Source) -> impl Iterator<Item = (&[u8], bool)> {
    let mut pieces = source.bytes.chunks(source.piece).peekable();
    std::iter::from_fn(move || {
        let piece = pieces.next()?;
        Some((piece, pieces.peek().is_none()))
    })
}

pub fn decode_to_utf16(source: &Source, room: &mut Room) {
    let mut decoder = Decoder::default();
    room.written = 0;
    for (mut piece, last) in pieces(source) {
        loop {
            let call = decoder.to_utf16(piece, room.free_units(), last);
            room.written += call.written;
            piece = &piece[call.read..];
            match call.result {
                ffi::INPUT_EMPTY => break,
                ffi::MALFORMED => {
                    room.units[room.written] = 0xFFFD;
                    room.written += 1;
                }
                _ => {}
            }
        }
    }
}

#[cfg(feature = "peers")]
pub fn crate_decode_to_utf16(source: &Source, room: &mut Room) {
    let mut decoder = UTF_8.new_decoder_without_bom_handling();
    room.written = 0;
    for (mut piece, last) in pieces(source) {
        loop {
            let (result, read, written, _) = decoder.decode_to_utf16(piece, room.free_units(), last);
            room.written += written;
            piece = &piece[read..];
            if result == CoderResult::InputEmpty {
                break;
            }
        }
    }
}

pub fn decode_to_utf8(source: &Source, room: &mut Room) {
    let mut decoder = Decoder::default();
    room.written = 0;
    for (mut piece, last) in pieces(source) {
        loop {
            let call = decoder.to_utf8(piece, room.free_bytes(), last);
            room.written += call.written;
            piece = &piece[call.read..];
            match call.result {
                ffi::INPUT_EMPTY => break,
                ffi::MALFORMED => {
                    room.bytes[room.written..room.written + 3].copy_from_slice("\u{FFFD}".as_bytes());
                    room.written += 3;
                }
                _ => {}
            }
        }
    }
}

#[cfg(feature = "peers")]
pub fn crate_decode_to_utf8(source: &Source, room: &mut Room) {
    let mut decoder = UTF_8.new_decoder_without_bom_handling();
    room.written = 0;
    for (mut piece, last) in pieces(source) {
        loop {
            let (result, read, written, _) = decoder.decode_to_utf8(piece, room.free_bytes(), last);
            room.written += written;
            piece = &piece[read..];
            if result == CoderResult::InputEmpty {
                break;
            }
        }
    }
}

/// Cuts a slice into pieces of at most `length` elements, but not between elements for which `is_whole` returns false.
fn whole_pieces<T: Copy>(all: &[T], length: usize, is_whole: fn(T, T) -> bool) -> impl Iterator<Item = &[T]> {
    let mut rest = all;
    std::iter::from_fn(move || {
        if rest.is_empty() {
            return None;
        }
        let most = rest.len().min(length);
        let end = (1..=most).rev().find(|end| *end == rest.len() || is_whole(rest[end - 1], rest[*end]));
        let (piece, following) = rest.split_at(end.unwrap_or(most));
        rest = following;
        Some(piece)
    })
}

// The crate keeps no surrogate between calls: both get pieces that don't cut a pair.
fn pieces_of_units(source: &Source) -> impl Iterator<Item = &[u16]> {
    whole_pieces(&source.units, (source.piece / 2).max(2), |before, _| !(0xD800..0xDC00).contains(&before))
}

fn pieces_of_text(source: &Source) -> impl Iterator<Item = &[u8]> {
    whole_pieces(&source.bytes, source.piece.max(4), |_, next| next & 0xC0 != 0x80)
}

pub fn encode_from_utf16(source: &Source, room: &mut Room) {
    let mut encoder = Encoder::default();
    room.written = 0;
    for mut piece in pieces_of_units(source) {
        loop {
            let call = encoder.from_utf16(piece, room.free_bytes(), true);
            room.written += call.written;
            piece = &piece[call.read..];
            if call.result == ffi::INPUT_EMPTY {
                break;
            }
        }
    }
}

#[cfg(feature = "peers")]
pub fn crate_encode_from_utf16(source: &Source, room: &mut Room) {
    let mut encoder = UTF_8.new_encoder();
    room.written = 0;
    for mut piece in pieces_of_units(source) {
        loop {
            let (result, read, written, _) = encoder.encode_from_utf16(piece, room.free_bytes(), true);
            room.written += written;
            piece = &piece[read..];
            if result == CoderResult::InputEmpty {
                break;
            }
        }
    }
}

/// Stops at a piece that is no text.
pub fn encode_from_utf8(source: &Source, room: &mut Room) {
    let mut encoder = Encoder::default();
    room.written = 0;
    for mut piece in pieces_of_text(source) {
        loop {
            let call = encoder.from_utf8(piece, room.free_bytes(), true);
            room.written += call.written;
            piece = &piece[call.read..];
            if call.result == ffi::INVALID_ARGUMENT_U8 {
                room.reported[0] = ffi::INVALID_ARGUMENT_U8.into();
                return;
            }
            if call.result == ffi::INPUT_EMPTY {
                break;
            }
        }
    }
}

/// Validates each piece, as ours does.
#[cfg(feature = "peers")]
pub fn crate_encode_from_utf8(source: &Source, room: &mut Room) {
    let mut encoder = UTF_8.new_encoder();
    room.written = 0;
    for piece in pieces_of_text(source) {
        let Ok(mut text) = str::from_utf8(piece) else {
            room.reported[0] = ffi::INVALID_ARGUMENT_U8.into();
            return;
        };
        loop {
            let (result, read, written, _) = encoder.encode_from_utf8(text, room.free_bytes(), true);
            room.written += written;
            text = &text[read..];
            if result == CoderResult::InputEmpty {
                break;
            }
        }
    }
}
