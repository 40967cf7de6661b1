//! Runs of the decoder and of the encoder: rows, and the vectors by turns of few units. And the repair of a stream by
//! blocks: for blocks and destinations of any length, the text of the whole is written.

use crate::common::rows::{fields, named, Unit};
use crate::common::runs::*;
use crate::common::vectors::{vectors, Vector, LIMITS, UNITS};
use encoding_text::{DecoderResult, EncoderResult};

/// The run that writes bytes, or code units.
type Run<U> = fn(&mut Decoder, &[u8], &[Turn], &mut [U], &mut [Report]) -> DecodeRunResult;

/// Source, turns, length of the destination, how much is read, the last result, output, reports.
const DECODER_ROWS: &str = "\
new
utf16 | F0 9F 92 A9 C2 7F | 14 1 2 last | 7 | 6 | empty | D83D DCA9 007F | 2 1
neutral
utf16 | 61 |  | 4 | 0 | none |  |
utf8 | 61 |  | 4 | 0 | none |  |
neutral
utf16 | 61 E2 98 | 3 3 2 last | 4 | 3 | empty | 0061 | 1 2
utf16 | 61 E2 98 | 1 3 2 last | 4 | 1 | full | 0061 |
neutral
utf16 | 61 E2 98 | 2 3 2 last | 4 | 3 | bad 2 | 0061 | 1 2
utf16 | C3 A4 | 1 1 2 last, 1 0 0 last, 1 1 2 last | 3 | 2 | empty | 00E4 |
utf16 | C3 A4 | 1 1 2 last, 1 0 0 last | 3 | 1 | empty |  |
pending
utf16 | A4 |  | 3 | 0 | none |  |
pending
utf16 | A4 | 1 1 2 last | 3 | 1 | empty | 00E4 |
neutral
utf8 | ED A0 80 | 4 3 4 last | 6 | 3 | empty |  | 0 1 0 1 0 1
utf8 | C3 A4 61 | 3 1 4 more | 8 | 3 | empty | C3 A4 61 |
utf8 | 61 E2 98 | 1 9 4 more | 8 | 1 | full | 61 |
utf8 | 61 E2 98 | 2 9 8 more | 8 | 3 | empty | 61 |
pending
utf8 | 83 62 | 1 2 8 more | 8 | 2 | empty | E2 98 83 62 |
neutral
utf16 | FF 61 FF 62 | 3 4 4 last | 5 | 4 | empty | 0061 0062 | 0 1 1 1
utf16 | F4 8F BF FF | 10 1 2 last | 5 | 4 | empty |  | 0 3 0 1";

/// Returns the last result that a field names.
fn decoder_answer(field: &str) -> Option<DecoderResult> {
    match field {
        "none" => None,
        "empty" => Some(DecoderResult::InputEmpty),
        "full" => Some(DecoderResult::OutputFull),
        "bad 1" => Some(DecoderResult::Malformed(1, 0)),
        "bad 2" => Some(DecoderResult::Malformed(2, 0)),
        "bad 3" => Some(DecoderResult::Malformed(3, 0)),
        _ => panic!("no decoder_answer: {field}"),
    }
}

/// Returns the reports that a field names, each by its offset and its length.
fn reports_of(field: &str) -> Vec<Report> {
    let words: Vec<&str> = field.split_whitespace().collect();
    let report = |pair: &[&str]| Report {
        place: pair[0].parse().unwrap(),
        length: pair[1].parse().unwrap(),
    };
    words.chunks(2).map(report).collect()
}

/// Asserts that the run of a row reads as much as it says, writes the text and the reports that end the row, and leaves
/// the rest unchanged.
fn assert_runs<U: Unit>(run: Run<U>, decoder: &mut Decoder, row: &str) {
    let row_fields: Vec<&str> = row.split('|').map(str::trim).collect();
    let [_, src, turns, room, read, last, text, returned] = row_fields[..] else {
        panic!("no run: {row}");
    };
    let (turns, text, returned) = (turns_of(turns), named::<U>(text), reports_of(returned));
    let mut dst = [U::UNWRITTEN; 8];
    let space = &mut dst[..room.parse().unwrap()];
    let mut reports = vec![UNREPORTED; turns.len() + 1];
    let outcome = run(decoder, &named::<u8>(src), &turns, space, &mut reports);
    assert_eq!(outcome.read, read.parse().unwrap(), "{row}");
    assert_eq!(outcome.ended(), decoder_answer(last), "{row}");
    let (written, following) = dst.split_at(outcome.written);
    assert_eq!(written, text, "{row}");
    assert!(following.iter().all(|unit| *unit == U::UNWRITTEN), "{row}");
    let (reported, following) = reports.split_at(outcome.reports);
    assert_eq!(reported, returned, "{row}");
    assert!(following.iter().all(|report| *report == UNREPORTED), "{row}");
}

/// A row `new` starts a new decoder, and the next rows continue with it.
#[test]
fn decoder_rows_hold() {
    let mut decoder = Decoder::default();
    let mut count = 0;
    for row in DECODER_ROWS.lines() {
        match row.split('|').next().map(str::trim) {
            Some("new") => decoder = Decoder::default(),
            Some("neutral") => assert!(decoder.in_neutral_state(), "{row}"),
            Some("pending") => assert!(!decoder.in_neutral_state(), "{row}"),
            Some("utf16") => assert_runs(run_to_utf16, &mut decoder, row),
            Some("utf8") => assert_runs(run_to_utf8, &mut decoder, row),
            _ => panic!("no row: {row}"),
        }
        count += 1;
    }
    assert_eq!(count, 26);
}

/// Asserts that turns of `take` bytes read all of the bytes, and yield this text and these reports.
fn assert_delivered<U: Unit>(run: Run<U>, bytes: &[u8], take: usize, text: &[U], returned: &[Report]) {
    let turns = turns_for(bytes.len(), take, 16);
    let mut reports = vec![UNREPORTED; turns.len()];
    let mut dst = [U::UNWRITTEN; 16];
    let outcome = run(&mut Decoder::default(), bytes, &turns, &mut dst, &mut reports);
    let ended = (outcome.read, outcome.ended());
    let end = (bytes.len(), Some(DecoderResult::InputEmpty));
    assert_eq!(ended, end, "{bytes:x?}, {take}");
    assert_eq!(&dst[..outcome.written], text, "{bytes:x?}, {take}");
    assert_eq!(&reports[..outcome.reports], returned, "{bytes:x?}, {take}");
}

/// Asserts that the run yields the parts of each vector, written as these units.
fn assert_vectors_run<U: Unit>(run: Run<U>, units: fn(char) -> Vec<U>) {
    let vectors = vectors();
    for Vector { bytes, parts, .. } in &vectors {
        let (mut text, mut returned) = (Vec::new(), Vec::new());
        for part in parts {
            match *part {
                Ok(character) => text.extend(units(character)),
                Err(length) => returned.push(Report {
                    place: text.len(),
                    length,
                }),
            }
        }
        assert_delivered(run, bytes, 1, &text, &returned);
        assert_delivered(run, bytes, 16, &text, &returned);
    }
    assert_eq!(vectors.len(), 104);
}

#[test]
fn vectors_run_to_utf16() {
    assert_vectors_run(run_to_utf16, |character| character.encode_utf16(&mut [0; 2]).to_vec());
}

#[test]
fn vectors_run_to_utf8() {
    assert_vectors_run(run_to_utf8, |character| character.to_string().into_bytes());
}

/// Source, turns, length of the destination, how much is read, the last result, output, and what is pending then.
const ENCODER_ROWS: &str = "\
D83D DCA9 0062 | 4 1 4 last | 10 | 3 | empty | F0 9F 92 A9 62 | none
D83D DCA9 | 3 1 3 last | 10 | 1 | full | | D83D
D83D D83D | 1 1 4 last | 6 | 1 | empty | | D83D
D83D D83D | 2 1 4 last | 6 | 1 | full | EF BF BD | none
D83D D83D | 3 1 4 last | 6 | 2 | empty | EF BF BD EF BF BD | none
D83D | 1 1 0 more | 0 | 1 | empty | | D83D
D83D | | 6 | 0 | none | | none";

/// Returns the last result that a field names.
fn encoder_answer(field: &str) -> Option<EncoderResult> {
    match field {
        "none" => None,
        "empty" => Some(EncoderResult::InputEmpty),
        "full" => Some(EncoderResult::OutputFull),
        _ => panic!("no encoder_answer: {field}"),
    }
}

/// Returns the pending surrogate that a field names.
fn surrogate(field: &str) -> Option<u16> {
    (field != "none").then(|| u16::named(field))
}

/// Asserts that the run of a row reads as much as it says, writes its bytes, leaves the rest unchanged, and has this
/// surrogate pending.
fn assert_row_holds(row: &str) {
    let row_fields: Vec<&str> = row.split('|').map(str::trim).collect();
    let [src, turns, room, read, last, bytes, unit] = row_fields[..] else {
        panic!("no run: {row}");
    };
    let mut encoder = Encoder::default();
    let mut dst = [0x71; 10];
    let space = &mut dst[..room.parse().unwrap()];
    let outcome = run_from_utf16(&mut encoder, &named::<u16>(src), &turns_of(turns), space);
    assert_eq!(outcome.read, read.parse().unwrap(), "{row}");
    assert_eq!(outcome.ended(), encoder_answer(last), "{row}");
    let (written, following) = dst.split_at(outcome.written);
    assert_eq!(written, named::<u8>(bytes), "{row}");
    assert!(following.iter().all(|byte| *byte == 0x71), "{row}");
    assert_eq!(encoder.surrogate(), surrogate(unit), "{row}");
}

#[test]
fn encoder_rows_hold() {
    ENCODER_ROWS.lines().for_each(assert_row_holds);
    assert_eq!(ENCODER_ROWS.lines().count(), 7);
}

/// Asserts that turns that each take `take` code units write the UTF-8 of all of them into three bytes for each.
fn assert_encoded(units: &[u16], bytes: &[u8], take: usize) {
    let mut encoder = Encoder::default();
    let mut dst = [0x71; 64];
    let space = &mut dst[..3 * units.len()];
    let outcome = run_from_utf16(&mut encoder, units, &turns_for(units.len(), take, 4), space);
    let ended = (outcome.read, outcome.ended());
    let end = (units.len(), Some(EncoderResult::InputEmpty));
    assert_eq!(ended, end, "{units:x?}, {take}");
    let (written, following) = dst.split_at(outcome.written);
    assert_eq!(written, bytes, "{units:x?}, {take}");
    assert!(following.iter().all(|byte| *byte == 0x71), "{units:x?}, {take}");
    assert_eq!(encoder.surrogate(), None, "{units:x?}, {take}");
}

/// By turns of one code unit, of two and of three.
fn assert_encoded_by_turns(units: &[u16], bytes: &[u8]) {
    for take in [1, 2, 3] {
        assert_encoded(units, bytes, take);
    }
}

/// Asserts that the rows hold by turns, and returns the number of rows.
fn pending_by_turns(rows: &str) -> usize {
    for (units, bytes) in rows.lines().map(fields) {
        assert_encoded_by_turns(&named::<u16>(units), &named::<u8>(bytes));
    }
    rows.lines().count()
}

#[test]
fn vectors_by_turns() {
    assert_eq!(pending_by_turns(UNITS), 16);
}

#[test]
fn limits_by_turns() {
    assert_eq!(pending_by_turns(LIMITS), 34);
}

/// The units whose UTF-8 fills the destination.
#[test]
fn three_bytes_a_unit_by_turns() {
    let units = [0x2C9F, 0x2CA9, 0x2CA3, 0x2C9F];
    let bytes = [0xE2, 0xB2, 0x9F, 0xE2, 0xB2, 0xA9, 0xE2, 0xB2, 0xA3, 0xE2, 0xB2, 0x9F];
    assert_encoded_by_turns(&units, &bytes);
}

/// a, U+20AC, U+1F4A9, then a truncated sequence of three bytes, two bytes of an overlong form and three of a
/// surrogate.
const BYTES: [u8; 16] = [
    0x61, 0xE2, 0x82, 0xAC, 0xF0, 0x9F, 0x92, 0xA9, 0xF0, 0x9F, 0x92, 0xC0, 0x80, 0xED, 0xA0, 0x80,
];

/// Its text: Encoding Standard, UTF-8 decode without BOM.
const TEXT: &str = "a€💩\u{FFFD}\u{FFFD}\u{FFFD}\u{FFFD}\u{FFFD}\u{FFFD}";

/// The number of malformed sequences.
const MALFORMED: usize = 6;

/// How often the stream repeats the bytes.
const TIMES: usize = 40;

/// Asserts that blocks of `block` bytes, each into `room` bytes, yield the text.
fn assert_repaired(stream: &[u8], text: &str, block: usize, room: usize) {
    let mut decoder = Decoder::default();
    let (mut read, mut replaced, mut written) = (0, 0, Vec::new());
    for _ in 0..4 * stream.len() {
        let end = stream.len().min(read + block);
        let last = end == stream.len();
        let mut dst = [0x71; 64];
        let done = repair_block(&mut decoder, &stream[read..end], &mut dst[..room], last);
        let (prefix, following) = dst.split_at(done.written);
        assert!(following.iter().all(|byte| *byte == 0x71), "{block}, {room}");
        written.extend_from_slice(prefix);
        read += done.read;
        replaced += done.replaced;
        if last && done.finished {
            assert_eq!((read, replaced), (stream.len(), MALFORMED * TIMES), "{block}, {room}");
            assert_eq!(written, text.as_bytes(), "{block}, {room}");
            return;
        }
    }
    panic!("no end: {block}, {room}");
}

#[test]
fn blocks_and_rooms() {
    let stream = BYTES.repeat(TIMES);
    let text = TEXT.repeat(TIMES);
    let mut count = 0;
    for block in [1, 2, 3, 5, 16, 17, 100, 640] {
        for room in [4, 5, 6, 7, 8, 9, 10, 31, 64] {
            assert_repaired(&stream, &text, block, room);
            count += 1;
        }
    }
    assert_eq!(count, 8 * 9);
}

/// If the destination is too short for a call, nothing is read or written, and the decoder is unchanged.
#[test]
fn little_room() {
    let mut decoder = Decoder::default();
    let mut dst = [0x71; 2];
    let none = repair_block(&mut decoder, &[0xFF], &mut dst, true);
    assert_eq!((none.read, none.written, none.finished), (0, 0, false));
    assert_eq!(dst, [0x71; 2]);
    let mut dst = [0x71; 4];
    let one = repair_block(&mut decoder, &[0xFF], &mut dst, true);
    assert_eq!((one.replaced, one.finished), (1, true));
    assert_eq!(dst, [0xEF, 0xBF, 0xBD, 0x71]);
}

/// Text that fits is finished, even if no byte is left for more.
#[test]
fn text_that_fits() {
    for room in 3..7 {
        let mut dst = [0x71; 6];
        let done = repair_block(&mut Decoder::default(), b"abc", &mut dst[..room], true);
        assert_eq!((done.read, done.written, done.finished), (3, 3, true), "{room}");
        assert_eq!(&dst, b"abcqqq", "{room}");
    }
}

/// An empty last block is finished in any space if nothing is pending, and otherwise if U+FFFD fits.
#[test]
fn empty_last_block() {
    for room in 0..=3 {
        let mut dst = [0x71; 3];
        let mut decoder = Decoder::default();
        let none = repair_block(&mut decoder, &[], &mut dst[..room], true);
        assert_eq!((none.written, none.finished), (0, true), "{room}");
        assert!(repair_block(&mut decoder, &[0xE2, 0x98], &mut [0x71; 4], false).finished);
        let pending = repair_block(&mut decoder, &[], &mut dst[..room], true);
        let is_long = room >= 3;
        assert_eq!(
            (pending.written, pending.finished),
            (if is_long { 3 } else { 0 }, is_long),
            "{room}"
        );
    }
}
