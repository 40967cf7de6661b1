//! The encoder on its vectors, into destinations about as long as their UTF-8, and with and without a pending
//! surrogate.

use crate::common::rows::{fields, named, Unit};
use crate::common::{characters, runs, vectors};
use encoding_text::{EncoderResult, Utf8Encoder};

/// Returns an encoder whose pending surrogate is that of a field: none, or D83D.
fn encoder_at(surrogate: &str) -> Utf8Encoder {
    let mut encoder = Utf8Encoder::new_inner();
    match surrogate {
        "none" => {}
        "D83D" => {
            let answer = encoder.encode_from_utf16_raw(&[0xD83D], &mut [], false);
            assert_eq!(answer, (EncoderResult::InputEmpty, 1, 0));
        }
        _ => panic!("{surrogate}"),
    }
    encoder
}

/// Returns whether the pending surrogate of an encoder is that of a field. The query at 0 shows whether there is one,
/// and a low surrogate then shows which.
fn holds(mut encoder: Utf8Encoder, surrogate: &str) -> bool {
    let room = encoder.max_buffer_length_from_utf16_without_replacement(0);
    let (low, pair) = match surrogate {
        "none" => return room == Some(0),
        "D83D" => (0xDCA9, [0xF0, 0x9F, 0x92, 0xA9]),
        "D800" => (0xDC00, [0xF0, 0x90, 0x80, 0x80]),
        _ => panic!("{surrogate}"),
    };
    let mut dst = [0; 4];
    let (_, _, written) = encoder.encode_from_utf16_raw(&[low], &mut dst, true);
    room == Some(3) && written == 4 && dst == pair
}

/// What a call has to return, to write, and to leave pending.
struct Wanted<'a> {
    result: EncoderResult,
    read: usize,
    bytes: &'a [u8],
    surrogate: &'a str,
}

/// Asserts that a call into `room` bytes does what is expected, and that the rest is unchanged.
fn assert_call(
    row: &str,
    mut encoder: Utf8Encoder,
    room: usize,
    wanted: &Wanted,
    call: impl FnOnce(&mut Utf8Encoder, &mut [u8]) -> (EncoderResult, usize, usize),
) {
    let mut dst = [u8::UNWRITTEN; 64];
    let answer = call(&mut encoder, &mut dst[..room]);
    assert_eq!(answer, (wanted.result, wanted.read, wanted.bytes.len()), "{row}");
    let (written, following) = dst.split_at(wanted.bytes.len());
    assert_eq!(written, wanted.bytes, "{row}");
    assert!(
        following.iter().all(|byte| *byte == u8::UNWRITTEN),
        "{row}, after: {following:x?}"
    );
    assert!(holds(encoder, wanted.surrogate), "{row}");
}

/// Code units and their UTF-8, with their row.
struct Source {
    row: &'static str,
    units: Vec<u16>,
    bytes: Vec<u8>,
}

fn sources(rows: &'static str) -> Vec<Source> {
    let source = |row| {
        let (units, bytes) = fields(row);
        Source {
            row,
            units: named(units),
            bytes: named(bytes),
        }
    };
    rows.lines().map(source).collect()
}

/// Asserts that a new encoder reads all of a source, writes these bytes into a long destination, and leaves this
/// surrogate pending.
fn assert_encodes(source: &Source, last: bool, bytes: &[u8], surrogate: &str) {
    let wanted = Wanted {
        result: EncoderResult::InputEmpty,
        read: source.units.len(),
        bytes,
        surrogate,
    };
    assert_call(source.row, Utf8Encoder::new_inner(), 64, &wanted, |encoder, dst| {
        encoder.encode_from_utf16_raw(&source.units, dst, last)
    });
}

/// The same is written whether marked last or not, except for a high surrogate that ends a call not marked last.
#[test]
fn encodes_vectors() {
    let vectors = sources(vectors::UNITS);
    for source in &vectors {
        assert_encodes(source, true, &source.bytes, "none");
        if source.units == [0xD800] {
            assert_encodes(source, false, &[], "D800");
        } else {
            assert_encodes(source, false, &source.bytes, "none");
        }
    }
    assert_eq!(vectors.len(), 16);
}

/// Asserts that a new encoder reads `units` units of a source into `room` bytes, writes the expected prefix of its
/// bytes, and leaves nothing pending.
fn assert_encodes_into(source: &Source, room: usize, result: EncoderResult, (units, bytes): (usize, usize)) {
    let wanted = Wanted {
        result,
        read: units,
        bytes: &source.bytes[..bytes],
        surrogate: "none",
    };
    assert_call(source.row, Utf8Encoder::new_inner(), room, &wanted, |encoder, dst| {
        encoder.encode_from_utf16_raw(&source.units, dst, true)
    });
}

/// Returns the number of units and the number of bytes before the last character, by `std`.
fn before_the_last(source: &Source) -> (usize, usize) {
    let (units, character) = *characters(&source.units).last().unwrap();
    (source.units.len() - units, source.bytes.len() - character.len_utf8())
}

/// Asserts that all is written into 64 bytes that contain 0, 1, 2 and so on, and that the rest of these is unchanged.
fn assert_keeps_what_is_after(source: &Source) {
    let mut dst: [u8; 64] = std::array::from_fn(|place| place as u8);
    let mut wanted = dst;
    wanted[..source.bytes.len()].copy_from_slice(&source.bytes);
    let answer = Utf8Encoder::new_inner().encode_from_utf16_raw(&source.units, &mut dst, true);
    let all = (EncoderResult::InputEmpty, source.units.len(), source.bytes.len());
    assert_eq!(answer, all, "{}", source.row);
    assert_eq!(dst, wanted, "{}", source.row);
}

/// Exactly the length is enough for all, and one byte less for all characters but the last.
#[test]
fn writes_what_fits() {
    let limits = sources(vectors::LIMITS);
    for source in &limits {
        let size = source.bytes.len();
        let all = (source.units.len(), size);
        assert_encodes_into(source, size, EncoderResult::InputEmpty, all);
        assert_encodes_into(source, size - 1, EncoderResult::OutputFull, before_the_last(source));
        assert_keeps_what_is_after(source);
    }
    assert_eq!(limits.len(), 34);
}

/// The length that a query returns is enough for its units.
#[test]
fn three_bytes_a_unit() {
    let mut encoder = Utf8Encoder::new_inner();
    let mut dst = [0; 12];
    let units = [0x2C9F, 0x2CA9, 0x2CA3, 0x2C9F];
    assert_eq!(encoder.max_buffer_length_from_utf16_without_replacement(4), Some(12));
    let answer = encoder.encode_from_utf16_raw(&units, &mut dst, true);
    assert_eq!(answer, (EncoderResult::InputEmpty, 4, 12));
    assert_eq!(
        dst,
        [0xE2, 0xB2, 0x9F, 0xE2, 0xB2, 0xA9, 0xE2, 0xB2, 0xA3, 0xE2, 0xB2, 0x9F]
    );
}

/// An empty text is read with either mark.
#[test]
fn empty_text() {
    let wanted = Wanted {
        result: EncoderResult::InputEmpty,
        read: 0,
        bytes: &[],
        surrogate: "none",
    };
    assert_text("no text", "none", "", 0, &wanted);
}

/// Code units: pending before, source, `room`, mark, result, units read, bytes written, pending after. Texts, with
/// either mark: pending before, text, `room`, result, bytes read, bytes written, pending after.
const ROWS: &str = "\
units | none | 0063 D83D DCA9 | 4 | more | OutputFull | 1 | 63 | none
units | none | 0063 D83D DCA9 | 4 | last | OutputFull | 1 | 63 | none
units | none | 263A D83D | 6 | last | InputEmpty | 2 | E2 98 BA EF BF BD | none
units | none | D83D DCA9 | 3 | more | OutputFull | 0 | | none
units | none | D83D DCA9 | 3 | last | OutputFull | 0 | | none
units | none | D83D | 0 | more | InputEmpty | 1 | | D83D
units | none | 0063 D83D | 1 | more | InputEmpty | 2 | 63 | D83D
units | none | 0063 D83D | 0 | more | OutputFull | 0 | | none
units | none | D83D DCA9 D83D | 3 | more | OutputFull | 0 | | none
units | D83D | DCA9 | 3 | last | OutputFull | 0 | | D83D
units | D83D | 0062 | 4 | more | InputEmpty | 1 | EF BF BD 62 | none
units | D83D | 0062 | 3 | more | OutputFull | 0 | EF BF BD | none
units | D83D | D83D | 3 | more | InputEmpty | 1 | EF BF BD | D83D
units | D83D | | 0 | more | InputEmpty | 0 | | D83D
units | D83D | | 2 | last | OutputFull | 0 | | D83D
units | D83D | | 3 | last | InputEmpty | 0 | EF BF BD | none
units | D83D | DCA9 | 4 | last | InputEmpty | 1 | F0 9F 92 A9 | none
text | none | aä | 2 | OutputFull | 1 | 61 | none
text | none | aä | 3 | InputEmpty | 3 | 61 C3 A4 | none
text | none | aä | 0 | OutputFull | 0 | | none
text | D83D | a | 4 | InputEmpty | 1 | EF BF BD 61 | none
text | D83D | a | 3 | OutputFull | 0 | EF BF BD | none
text | D83D | | 2 | OutputFull | 0 | | D83D";

/// Parses the last fields of a row: the result, how much is read, and what is pending then; and the bytes that are
/// written.
fn wanted<'a>(row: &str, [result, read, surrogate]: [&'a str; 3], bytes: &'a [u8]) -> Wanted<'a> {
    Wanted {
        result: match result {
            "InputEmpty" => EncoderResult::InputEmpty,
            "OutputFull" => EncoderResult::OutputFull,
            _ => panic!("{row}"),
        },
        read: read.parse().unwrap(),
        bytes,
        surrogate,
    }
}

/// Asserts that the call on a text does what is expected, with either mark: the crate's call, and the library's, which
/// the crate's doesn't use.
fn assert_text(row: &str, before: &str, text: &str, room: usize, wanted: &Wanted) {
    for last in [false, true] {
        assert_call(row, encoder_at(before), room, wanted, |encoder, dst| {
            encoder.encode_from_utf8_raw(text, dst, last)
        });
        let mut encoder = runs::Encoder::that_holds((before == "D83D").then_some(0xD83D));
        let mut dst = [u8::UNWRITTEN; 64];
        let answer = runs::encode_from_utf8(&mut encoder, text, &mut dst[..room], last);
        assert_eq!(answer, (wanted.result, wanted.read, wanted.bytes.len()), "{row}");
        let (written, following) = dst.split_at(wanted.bytes.len());
        assert_eq!(written, wanted.bytes, "{row}");
        assert!(following.iter().all(|byte| *byte == u8::UNWRITTEN), "{row}");
        assert_eq!(
            encoder.surrogate(),
            (wanted.surrogate == "D83D").then_some(0xD83D),
            "{row}"
        );
    }
}

#[test]
fn rows_with_and_without_a_pending_surrogate() {
    let mut count = 0;
    for row in ROWS.lines() {
        let fields: Vec<&str> = row.split('|').map(str::trim).collect();
        let [.., result, read, bytes, surrogate] = fields[..] else {
            panic!("{row}");
        };
        let bytes = named(bytes);
        let wanted = wanted(row, [result, read, surrogate], &bytes);
        match fields[..fields.len() - 4] {
            ["units", before, units, room, mark @ ("more" | "last")] => {
                let units: Vec<u16> = named(units);
                assert_call(
                    row,
                    encoder_at(before),
                    room.parse().unwrap(),
                    &wanted,
                    |encoder, dst| encoder.encode_from_utf16_raw(&units, dst, mark == "last"),
                );
            }
            ["text", before, text, room] => assert_text(row, before, text, room.parse().unwrap(), &wanted),
            _ => panic!("{row}"),
        }
        count += 1;
    }
    assert_eq!(count, 23);
}

/// The two halves of a pair in two calls.
#[test]
fn a_pair_cut_between_calls() {
    let mut encoder = Utf8Encoder::new_inner();
    let first = encoder.encode_from_utf16_raw(&[0xD83D], &mut [], false);
    assert_eq!(first, (EncoderResult::InputEmpty, 1, 0));
    let mut dst = [0; 4];
    let second = encoder.encode_from_utf16_raw(&[0xDCA9], &mut dst, true);
    assert_eq!(second, (EncoderResult::InputEmpty, 1, 4));
    assert_eq!(dst, [0xF0, 0x9F, 0x92, 0xA9]);
}

/// Asserts the results of the queries: the most bytes for `length` units, and for a text of `length` bytes.
fn assert_queries(surrogate: &str, length: usize, from_utf16: Option<usize>, from_utf8: Option<usize>) {
    let encoder = encoder_at(surrogate);
    let answers = (
        encoder.max_buffer_length_from_utf16_without_replacement(length),
        encoder.max_buffer_length_from_utf8_without_replacement(length),
    );
    assert_eq!(answers, (from_utf16, from_utf8), "{surrogate}, {length}");
}

#[test]
fn queries() {
    assert_queries("none", 4, Some(12), Some(4));
    assert_queries("D83D", 4, Some(15), Some(7));
    assert_queries("D83D", usize::MAX - 3, None, Some(usize::MAX));
    assert_queries("D83D", usize::MAX - 2, None, None);
}

/// A pending surrogate counts once U+FFFD is written for it.
#[test]
fn counts_what_is_replaced() {
    let mut encoder = Utf8Encoder::new_inner();
    let mut dst = [0; 9];
    let high = encoder.encode_from_utf16_with_count(&[0xD83D], &mut dst, false);
    assert_eq!(high, (EncoderResult::InputEmpty, 1, 0, 0));
    let others = encoder.encode_from_utf16_with_count(&[0xDCA9, 0xDC00, 0xD83D], &mut dst, false);
    assert_eq!(others, (EncoderResult::InputEmpty, 3, 7, 1));
    let full = encoder.encode_from_utf8_with_count("b", &mut dst[..2], true);
    assert_eq!(full, (EncoderResult::OutputFull, 0, 0, 0));
    let replaced = encoder.encode_from_utf8_with_count("b", &mut dst, true);
    assert_eq!(replaced, (EncoderResult::InputEmpty, 1, 4, 1));
    let none = encoder.encode_from_utf8_with_count("b", &mut dst, true);
    assert_eq!(none, (EncoderResult::InputEmpty, 1, 1, 0));
}
