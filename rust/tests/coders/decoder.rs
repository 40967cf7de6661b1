//! Single calls of the decoder, of each form and of forms mixed, and the queries of buffer lengths.

use crate::common::rows::{named, Unit};
use crate::common::vectors::part;
use encoding_text::decoder::Piece;
use encoding_text::{DecoderResult, Utf8Decoder};

/// What a call returns: the result, the number of bytes read, and the number of units written.
type Reported = (DecoderResult, usize, usize);

/// Parses a number in decimal digits. The greatest one is `MAX`, and one below it `MAX - 1`.
fn number(field: &str) -> usize {
    match field.strip_prefix("MAX - ") {
        Some(less) => usize::MAX - less.parse::<usize>().unwrap(),
        None if field == "MAX" => usize::MAX,
        None => field.parse().unwrap(),
    }
}

/// Parses a length, or none.
fn length(field: &str) -> Option<usize> {
    (field != "None").then(|| number(field))
}

/// Returns whether a field marks its call as the last one.
fn is_last(field: &str) -> bool {
    match field {
        "last" => true,
        "more" => false,
        _ => panic!("{field} is no mark"),
    }
}

/// Returns the length of the malformed sequence that a field names.
fn malformed(field: &str) -> u8 {
    field.strip_prefix("Malformed ").unwrap().parse().unwrap()
}

/// Returns the result that a field names.
fn result_of(field: &str) -> DecoderResult {
    match field {
        "InputEmpty" => DecoderResult::InputEmpty,
        "OutputFull" => DecoderResult::OutputFull,
        _ => DecoderResult::Malformed(malformed(field), 0),
    }
}

/// Returns the piece that a field names; a text has these bytes.
fn piece_of<'a>(field: &str, text: &'a [u8]) -> Piece<'a> {
    if field.starts_with("Text ") {
        return Piece::Text(std::str::from_utf8(text).unwrap());
    }
    match field {
        "InputEmpty" => Piece::InputEmpty,
        _ if field.starts_with("U+") => Piece::Char(part(field).unwrap()),
        _ => Piece::Malformed(malformed(field)),
    }
}

/// Asserts that the call of a row has its result and writes the units that end the row, and that the rest is unchanged.
fn assert_writes<U: Unit>(
    row: &str,
    call: &[&str],
    decoder: &mut Utf8Decoder,
    decode: fn(&mut Utf8Decoder, &[u8], &mut [U], bool) -> Reported,
) {
    let [src, room, last, result, read, written] = call[..] else {
        panic!("{row} is no such call");
    };
    let units: Vec<U> = named(written);
    let mut dst = [U::UNWRITTEN; 16];
    let mut wanted = dst;
    wanted[..units.len()].copy_from_slice(&units);
    let reported = decode(decoder, &named(src), &mut dst[..number(room)], is_last(last));
    assert_eq!(reported, (result_of(result), number(read), units.len()), "{row}");
    assert_eq!(dst, wanted, "{row}");
}

/// Asserts that the call without a destination returns the piece of a row and the number of bytes read.
fn assert_piece(row: &str, call: &[&str], decoder: &mut Utf8Decoder) {
    let [src, last, piece, read] = call[..] else {
        panic!("{row} is no such call");
    };
    let src = named(src);
    let text = named(piece.strip_prefix("Text ").unwrap_or(""));
    let reported = decoder.decode_borrowed(&src, is_last(last));
    assert_eq!(reported, (piece_of(piece, &text), number(read)), "{row}");
}

/// Asserts the results of the queries: for this length, the most code units, bytes, and bytes with replacements.
fn assert_queries(row: &str, query: &[&str], decoder: &Utf8Decoder) {
    let [queried, units, bytes, replacing] = query[..] else {
        panic!("{row} is no query");
    };
    let queried = number(queried);
    let reported = [
        decoder.max_utf16_buffer_length(queried),
        decoder.max_utf8_buffer_length_without_replacement(queried),
        decoder.max_utf8_buffer_length(queried),
    ];
    assert_eq!(reported, [units, bytes, replacing].map(length), "{row}");
}

/// Makes the calls of a table one after another, and returns the number of rows. A row `new` starts a new decoder.
fn checked_rows(rows: &str) -> usize {
    let mut decoder = Utf8Decoder::new_inner();
    for row in rows.lines() {
        let fields: Vec<&str> = row.split('|').map(str::trim).collect();
        match &fields[..] {
            ["new"] => decoder = Utf8Decoder::new_inner(),
            ["neutral"] => assert!(decoder.in_neutral_state(), "{row}"),
            ["pending"] => assert!(!decoder.in_neutral_state(), "{row}"),
            ["utf16", call @ ..] => assert_writes(row, call, &mut decoder, Utf8Decoder::decode_to_utf16_raw),
            ["utf8", call @ ..] => assert_writes(row, call, &mut decoder, Utf8Decoder::decode_to_utf8_raw),
            ["piece", call @ ..] => assert_piece(row, call, &mut decoder),
            ["lengths", query @ ..] => assert_queries(row, query, &decoder),
            _ => panic!("{row} is no row"),
        }
    }
    rows.lines().count()
}

/// Calls: source, `room`, mark, result, bytes read, code units written. If bytes stay pending, the next calls show
/// which. A byte order mark is decoded like any other character. 6148914691236517205 is a third of `MAX`.
const ROWS: &str = "\
new
utf16 | C3 A4 61 | 1 | more | OutputFull | 2 | 00E4
neutral
utf8 | 61 C3 A4 | 2 | more | OutputFull | 1 | 61
neutral
utf8 | 61 C3 A4 | 3 | more | InputEmpty | 3 | 61 C3 A4
neutral
new
utf16 | C3 | 1 | more | OutputFull | 0 |
neutral
utf16 | C3 | 2 | more | InputEmpty | 1 |
pending
utf16 | A4 | 1 | more | OutputFull | 0 |
pending
utf16 | A4 | 2 | more | InputEmpty | 1 | 00E4
neutral
utf16 | 61 C3 | 2 | more | OutputFull | 1 | 61
neutral
utf16 | 61 C3 | 3 | more | InputEmpty | 2 | 61
pending
utf16 | A4 | 2 | more | InputEmpty | 1 | 00E4
neutral
new
utf8 | 61 C3 | 4 | more | OutputFull | 1 | 61
neutral
utf8 | 61 C3 | 5 | more | InputEmpty | 2 | 61
pending
utf8 | A4 | 3 | more | OutputFull | 0 |
pending
utf8 | A4 | 4 | more | InputEmpty | 1 | C3 A4
neutral
new
utf16 | 61 C3 | 2 | more | OutputFull | 1 | 61
neutral
new
utf16 | 61 C3 | 3 | more | InputEmpty | 2 | 61
utf16 | A4 | 2 | more | InputEmpty | 1 | 00E4
new
utf16 | 80 | 1 | last | OutputFull | 0 |
neutral
utf16 | 80 | 2 | last | Malformed 1 | 1 |
neutral
new
utf16 | F4 8F BF | 4 | more | InputEmpty | 3 |
pending
utf16 | FF | 4 | last | Malformed 3 | 0 |
neutral
utf16 | FF | 4 | last | Malformed 1 | 1 |
utf16 |  | 4 | last | InputEmpty | 0 |
neutral
new
utf16 | E0 | 4 | last | Malformed 1 | 1 |
neutral
utf16 | E1 | 4 | more | InputEmpty | 1 |
utf16 | 80 80 | 4 | more | InputEmpty | 2 | 1000
new
utf16 | C3 | 4 | last | Malformed 1 | 1 |
neutral
utf16 | A4 | 4 | last | Malformed 1 | 1 |
new
utf16 | E2 | 2 | more | InputEmpty | 1 |
utf16 |  | 0 | last | Malformed 1 | 0 |
neutral
utf16 | 80 | 1 | last | OutputFull | 0 |
utf16 | 80 | 2 | last | Malformed 1 | 1 |
new
utf16 | EF | 4 | more | InputEmpty | 1 |
utf16 | BF | 4 | more | InputEmpty | 1 |
utf16 | BE | 4 | last | InputEmpty | 1 | FFFE
new
utf16 | EF | 4 | more | InputEmpty | 1 |
utf16 | BC | 4 | last | Malformed 2 | 1 |
new
utf16 | EF | 4 | last | Malformed 1 | 1 |
new
utf16 | E2 98 | 2 | more | InputEmpty | 2 |
lengths | 10 | 13 | 15 | 39
utf16 | 83 | 2 | more | InputEmpty | 1 | 2603
new
lengths | MAX - 1 | MAX | None | None
lengths | MAX | None | None | None
lengths | MAX - 3 | MAX - 2 | MAX | None
lengths | MAX - 2 | MAX - 1 | None | None
lengths | 6148914691236517204 | 6148914691236517205 | 6148914691236517207 | MAX
lengths | 6148914691236517205 | 6148914691236517206 | 6148914691236517208 | None";

#[test]
fn rows_hold() {
    assert_eq!(checked_rows(ROWS), 85);
}

/// Calls: source, mark, piece, bytes read; those of the other forms are as in the rows above.
const BORROWED_ROWS: &str = "\
new
piece | 61 C3 A4 E2 | more | Text 61 C3 A4 | 3
neutral
piece | E2 | more | InputEmpty | 1
pending
piece | 82 AC 5A | more | U+20AC | 2
neutral
piece | 5A | last | Text 5A | 1
piece |  | last | InputEmpty | 0
neutral
new
piece | E2 82 | last | Malformed 2 | 2
neutral
new
piece | FF 61 | more | Malformed 1 | 1
neutral
new
piece | E2 82 | more | InputEmpty | 2
pending
piece | 61 | more | Malformed 2 | 0
neutral
piece | 61 | more | Text 61 | 1
neutral
new
utf16 | C3 | 2 | more | InputEmpty | 1 |
pending
piece | A4 61 | last | U+00E4 | 1
neutral
utf8 | 61 | 4 | last | InputEmpty | 1 | 61
neutral
new
piece | F0 9F | more | InputEmpty | 2
utf8 | 92 | 4 | more | InputEmpty | 1 |
pending
piece |  | more | InputEmpty | 0
pending
piece | A9 | last | U+1F4A9 | 1
neutral
piece | E2 | more | InputEmpty | 1
utf16 | 28 | 2 | more | Malformed 1 | 0 |
neutral
piece | 28 | last | Text 28 | 1
utf8 | E2 98 | 8 | more | InputEmpty | 2 |
utf16 | 83 | 1 | more | OutputFull | 0 |
pending
piece |  | last | Malformed 2 | 0
neutral
new
piece | F4 8F BF | more | InputEmpty | 3
piece | FF | last | Malformed 3 | 0
piece | FF | last | Malformed 1 | 1
piece |  | last | InputEmpty | 0
neutral
new
piece | E0 | last | Malformed 1 | 1
piece | E1 | more | InputEmpty | 1
piece | 80 80 | more | U+1000 | 2
neutral
new
piece | C3 | last | Malformed 1 | 1
neutral
piece | A4 | last | Malformed 1 | 1
new
piece | EF | more | InputEmpty | 1
piece | BF | more | InputEmpty | 1
piece | BE | last | U+FFFE | 1
new
piece | EF | more | InputEmpty | 1
piece | BC | last | Malformed 2 | 1
neutral
new
piece | EF BB BF 61 | more | Text EF BB BF 61 | 4
new
piece | 61 ED A0 80 | more | Text 61 | 1
piece | ED A0 80 | more | Malformed 1 | 1
piece | A0 80 | more | Malformed 1 | 1
piece | 80 | more | Malformed 1 | 1
neutral";

#[test]
fn borrowed_rows_hold() {
    assert_eq!(checked_rows(BORROWED_ROWS), 78);
}

/// Of a queried length three bytes take no code unit, and what is left is the query's number for the last byte. `61`
/// takes a byte, and the four that are left are the query's number for zero bytes.
#[test]
fn what_is_left_suffices() {
    let mut decoder = Utf8Decoder::new_inner();
    let mut units = [0x71; 5];
    assert_eq!(decoder.max_utf16_buffer_length(4), Some(units.len()));
    let reported = decoder.decode_to_utf16_raw(&[0xF0, 0x9F, 0x92], &mut units, false);
    assert_eq!(reported, (DecoderResult::InputEmpty, 3, 0));
    assert_eq!(units, [0x71; 5]);
    let needed = decoder.max_utf16_buffer_length(1);
    assert_eq!(needed, Some(5));
    assert!(needed <= Some(units.len()));

    let mut decoder = Utf8Decoder::new_inner();
    let mut bytes = [0x71; 5];
    assert_eq!(decoder.max_utf8_buffer_length_without_replacement(2), Some(bytes.len()));
    let reported = decoder.decode_to_utf8_raw(&[0x61, 0xC3], &mut bytes, false);
    assert_eq!(reported, (DecoderResult::InputEmpty, 2, 1));
    assert_eq!(bytes, [0x61, 0x71, 0x71, 0x71, 0x71]);
    let needed = decoder.max_utf8_buffer_length_without_replacement(0);
    assert_eq!(needed, Some(4));
    assert!(needed <= Some(bytes[1..].len()));
}

/// U+FFFD, written after a report, takes three bytes of a queried length, and five are left, though three are enough.
/// It takes one code unit, and one is left, which is enough.
#[test]
fn a_replacement_leaves_enough_room() {
    let mut decoder = Utf8Decoder::new_inner();
    let mut bytes = [0x71; 9];
    assert_eq!(decoder.max_utf8_buffer_length(2), Some(bytes.len()));
    let reported = decoder.decode_to_utf8_raw(&[0x61, 0xFF], &mut bytes, true);
    assert_eq!(reported, (DecoderResult::Malformed(1, 0), 2, 1));
    bytes[1..4].copy_from_slice(&[0xEF, 0xBF, 0xBD]);
    assert_eq!(bytes, [0x61, 0xEF, 0xBF, 0xBD, 0x71, 0x71, 0x71, 0x71, 0x71]);
    let needed = decoder.max_utf8_buffer_length(0);
    assert_eq!((needed, bytes[4..].len()), (Some(3), 5));
    assert!(needed <= Some(bytes[4..].len()));

    let mut decoder = Utf8Decoder::new_inner();
    let mut units = [0x71; 3];
    assert_eq!(decoder.max_utf16_buffer_length(2), Some(units.len()));
    let reported = decoder.decode_to_utf16_raw(&[0x61, 0xFF], &mut units, true);
    assert_eq!(reported, (DecoderResult::Malformed(1, 0), 2, 1));
    units[1] = 0xFFFD;
    assert_eq!(units, [0x61, 0xFFFD, 0x71]);
    let needed = decoder.max_utf16_buffer_length(0);
    assert_eq!(needed, Some(1));
    assert!(needed <= Some(units[2..].len()));
}
