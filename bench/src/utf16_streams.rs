//! Streams of UTF-16LE and UTF-16BE, plain and damaged: rows that only `count` has. U+FFFD is written for each report, as a caller
//! does.

use crate::ffi::{self, Utf16Decoder};
#[cfg(feature = "peers")]
use encoding_rs::{Decoder, DecoderResult, UTF_16BE, UTF_16LE};

/// In how many code units one is an unpaired surrogate, and none without a number.
const DAMAGE: [Option<usize>; 5] = [None, Some(100), Some(25), Some(8), Some(1)];

/// How many bytes a call gets: pieces of an odd length cut code units.
const PIECES: [usize; 2] = [usize::MAX, 61];

/// From how many bytes on a stream has all rows.
const LONG: usize = 4 << 10;

/// A stream, and how its calls get it.
pub struct Stream {
    pub big_endian: bool,
    pub bytes: Vec<u8>,
    pub piece: usize,
}

impl Stream {
    fn new(units: &[u16], big_endian: bool, piece: usize) -> Stream {
        let bytes = if big_endian {
            units.iter().flat_map(|unit| unit.to_be_bytes()).collect()
        } else {
            units.iter().flat_map(|unit| unit.to_le_bytes()).collect()
        };
        Stream { big_endian, bytes, piece }
    }
}

/// What the calls write.
pub struct Written {
    pub units: Vec<u16>,
    pub bytes: Vec<u8>,
}

impl Written {
    /// Creates destinations in which a report always has the space of the longest character.
    fn of(units: usize) -> Written {
        Written { units: vec![0; units + 2], bytes: vec![0; 3 * units + 4] }
    }
}

/// One engine's conversion of a stream.
type Convert = fn(&Stream, &mut Written);

/// The destinations, and the engines that write each.
const TO: [(&str, &[(&str, Convert)]); 2] = [
    ("UTF-16", &[
        ("ours", to_utf16),
        #[cfg(feature = "peers")]
        ("encoding_rs", crate_to_utf16),
    ]),
    ("UTF-8", &[
        ("ours", to_utf8),
        #[cfg(feature = "peers")]
        ("encoding_rs", crate_to_utf8),
    ]),
];

/// Returns letters with spaces, of which one in `every` code units is a high surrogate without a low one.
fn units(length: usize, every: Option<usize>) -> Vec<u16> {
    (1..=length)
        .map(|place| match every {
            Some(every) if place % every == 0 => 0xD83D,
            _ if place % 6 == 0 => 0x20,
            _ => 0x61 + (place * place % 26) as u16,
        })
        .collect()
}

/// Calls `count` with the name of each row, the name of its text, its engine, the length of its source in bytes, and what it
/// does. Short streams and pieces have few rows.
pub fn each(size: usize, mut count: impl FnMut(&str, &str, &str, usize, &mut dyn FnMut())) {
    let mut written = Written::of(size / 2);
    for (big_endian, order) in [(false, "UTF-16LE"), (true, "UTF-16BE")] {
        for (piece, every) in PIECES.iter().flat_map(|piece| DAMAGE.map(|every| (*piece, every))) {
            let (is_cut, is_long) = (piece < size, size >= LONG);
            let is_usual = !big_endian && every.is_none_or(|every| every == 8);
            if is_cut && !is_long || !is_usual && (is_cut || !is_long) {
                continue;
            }
            let units = units(size / 2, every);
            let stream = Stream::new(&units, big_endian, piece);
            let text = every.map_or("plain".to_string(), |every| format!("damaged once in {every}"));
            let cut = if is_cut { ", 61 bytes a call" } else { "" };
            for (to, engines) in TO {
                for (engine, convert) in engines {
                    let row = format!("{order} stream to {to}{cut}");
                    count(&row, &text, engine, size, &mut || convert(&stream, &mut written));
                }
            }
        }
    }
}

/// Calls `count` with the name of each row, and with what ours does with a stream of these code units.
pub fn of(units: &[u16], mut count: impl FnMut(&str, &mut dyn FnMut())) {
    let mut written = Written::of(units.len());
    for (big_endian, order) in [(false, "UTF-16LE"), (true, "UTF-16BE")] {
        let stream = Stream::new(units, big_endian, usize::MAX);
        for (to, engines) in TO {
            count(&format!("{order} stream to {to}"), &mut || (engines[0].1)(&stream, &mut written));
        }
    }
}

/// Calls `decode` with each piece and whether it is the last, and what it left with the next call, until all is read. It returns how
/// much it read, and whether all of it.
fn in_pieces(stream: &Stream, mut decode: impl FnMut(&[u8], bool) -> (usize, bool)) {
    let mut pieces = stream.bytes.chunks(stream.piece).peekable();
    while let Some(mut piece) = pieces.next() {
        let last = pieces.peek().is_none();
        loop {
            let (read, all) = decode(piece, last);
            piece = &piece[read..];
            if all {
                break;
            }
        }
    }
}

fn to_utf16(stream: &Stream, dst: &mut Written) {
    let mut decoder = Utf16Decoder::new(stream.big_endian);
    let mut written = 0;
    in_pieces(stream, |src, last| {
        let call = decoder.to_utf16(src, &mut dst.units[written..], last);
        written += call.written;
        if call.result == ffi::MALFORMED {
            dst.units[written] = 0xFFFD;
            written += 1;
        }
        (call.read, call.result == ffi::INPUT_EMPTY)
    });
}

fn to_utf8(stream: &Stream, dst: &mut Written) {
    let mut decoder = Utf16Decoder::new(stream.big_endian);
    let mut written = 0;
    in_pieces(stream, |src, last| {
        let call = decoder.to_utf8(src, &mut dst.bytes[written..], last);
        written += call.written;
        if call.result == ffi::MALFORMED {
            dst.bytes[written..written + 3].copy_from_slice("\u{FFFD}".as_bytes());
            written += 3;
        }
        (call.read, call.result == ffi::INPUT_EMPTY)
    });
}

#[cfg(feature = "peers")]
fn crate_decoder(stream: &Stream) -> Decoder {
    if stream.big_endian { UTF_16BE } else { UTF_16LE }.new_decoder_without_bom_handling()
}

#[cfg(feature = "peers")]
fn crate_to_utf16(stream: &Stream, dst: &mut Written) {
    let mut decoder = crate_decoder(stream);
    let mut written = 0;
    in_pieces(stream, |src, last| {
        let (result, read, more) = decoder.decode_to_utf16_without_replacement(src, &mut dst.units[written..], last);
        written += more;
        if let DecoderResult::Malformed(..) = result {
            dst.units[written] = 0xFFFD;
            written += 1;
        }
        (read, result == DecoderResult::InputEmpty)
    });
}

#[cfg(feature = "peers")]
fn crate_to_utf8(stream: &Stream, dst: &mut Written) {
    let mut decoder = crate_decoder(stream);
    let mut written = 0;
    in_pieces(stream, |src, last| {
        let (result, read, more) = decoder.decode_to_utf8_without_replacement(src, &mut dst.bytes[written..], last);
        written += more;
        if let DecoderResult::Malformed(..) = result {
            dst.bytes[written..written + 3].copy_from_slice("\u{FFFD}".as_bytes());
            written += 3;
        }
        (read, result == DecoderResult::InputEmpty)
    });
}
