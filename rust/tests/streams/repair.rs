//! `repair_to` into sinks that take, fail and are interrupted as rows say: each row also counts the writes. Repair and
//! chunks compared with `std`. And `Repair` and `DecodeUtf16` over readers that return random pieces, fail and are
//! interrupted, into buffers of any length.

use crate::common::rows::named;
use crate::common::*;
use crate::faults::{assert_unchanged, kind_named, with_payload, Bounded, KINDS, TOO_MANY};
use encoding_text::{next_malformed, repair, repair_to, utf8_chunks, DecodeUtf16, Repair};
use std::borrow::Cow;
use std::io::{self, ErrorKind, Read, Write};

/// A sink whose writes do in turn what each of these words says. What they took is kept, and the length of each write.
#[derive(Default)]
struct Scripted {
    words: Vec<&'static str>,
    lengths: Vec<usize>,
    taken: Vec<u8>,
}

impl Write for Scripted {
    fn write(&mut self, bytes: &[u8]) -> io::Result<usize> {
        assert!(self.lengths.len() < TOO_MANY, "writes without end");
        let word = self.words.get(self.lengths.len()).copied().unwrap_or("all");
        self.lengths.push(bytes.len());
        if let Some(kind) = kind_named(word) {
            return Err(kind.into());
        }
        let count = if word == "all" {
            bytes.len()
        } else {
            word.parse().unwrap()
        };
        self.taken.extend_from_slice(&bytes[..count]);
        Ok(count)
    }

    fn flush(&mut self) -> io::Result<()> {
        panic!("nobody asked for a flush")
    }
}

/// The source, what the writes do, the result, the length of each write, and what the sink took. A write that takes
/// nothing is an error, and an interrupted one is tried again, as `write_all` does. None follows another error.
const ROWS: &str = "\
 | all | 0 | |
61 | all | 0 | 1 | 61
61 FF 62 E2 98 | all | 2 | 8 | 61 EF BF BD 62 EF BF BD
61 FF 62 | Interrupted, all | 1 | 5 5 | 61 EF BF BD 62
61 FF 62 | 2, Interrupted, Interrupted, 1, all | 1 | 5 3 3 3 2 | 61 EF BF BD 62
61 FF 62 | 0 | WriteZero | 5 |
61 FF 62 | 2, 0 | WriteZero | 5 3 | 61 EF
61 FF 62 | TimedOut | TimedOut | 5 |
61 FF 62 | 2, Interrupted, BrokenPipe | BrokenPipe | 5 3 3 | 61 EF
61 FF 62 | 4, StorageFull | StorageFull | 5 1 | 61 EF BF BD";

#[test]
fn rows_hold() {
    for row in ROWS.lines() {
        let fields: Vec<&str> = row.split('|').map(str::trim).collect();
        let [src, words, result, lengths, taken] = fields[..] else {
            panic!("{row} is no row");
        };
        let mut sink = Scripted {
            words: words.split(',').map(str::trim).collect(),
            ..Scripted::default()
        };
        let found = match repair_to(&named::<u8>(src), &mut sink) {
            Ok(malformed) => malformed.to_string(),
            Err(error) => format!("{:?}", error.kind()),
        };
        assert_eq!(found, result, "{row}");
        let lengths: Vec<usize> = lengths.split_whitespace().map(|word| word.parse().unwrap()).collect();
        assert_eq!(sink.lengths, lengths, "{row}");
        assert_eq!(sink.taken, named::<u8>(taken), "{row}");
    }
    assert_eq!(ROWS.lines().count(), 10);
}

/// A number of letters before a malformed sequence, and the lengths of the writes: all that is written together has at
/// most 4,096 bytes, and longer text is written directly.
const LENGTHS: [(usize, &[usize]); 7] = [
    (0, &[3]),
    (4092, &[4095]),
    (4093, &[4096]),
    (4094, &[4094, 3]),
    (4096, &[4096, 3]),
    (4097, &[4097, 3]),
    (100_000, &[100_000, 3]),
];

#[test]
fn lengths_of_writes() {
    for (letters, lengths) in LENGTHS {
        let mut bytes = vec![b'a'; letters];
        bytes.push(0xFF);
        let mut sink = Scripted::default();
        assert_eq!(repair_to(&bytes, &mut sink).unwrap(), 1, "{letters}");
        assert_eq!(sink.lengths, lengths, "{letters}");
        assert_eq!(sink.taken[letters..], *"\u{FFFD}".as_bytes(), "{letters}");
    }
}

/// What waits is written before longer text.
#[test]
fn short_before_long() {
    let bytes = [b"a\xFF", "b".repeat(5000).as_bytes(), b"\xFFc"].concat();
    let mut sink = Scripted::default();
    assert_eq!(repair_to(&bytes, &mut sink).unwrap(), 2);
    assert_eq!(sink.lengths, [4, 5000, 4]);
    assert_eq!(sink.taken, String::from_utf8_lossy(&bytes).as_bytes());
}

/// Short chunks are written together: 40,000 of them, of 80,000 bytes, by twenty writes.
#[test]
fn short_chunks() {
    let bytes = b"a\xFF".repeat(20_000);
    let mut sink = Scripted::default();
    assert_eq!(repair_to(&bytes, &mut sink).unwrap(), 20_000);
    assert_eq!(sink.lengths, [&[4096; 19][..], &[80_000 - 19 * 4096]].concat());
    assert_eq!(sink.taken, "a\u{FFFD}".repeat(20_000).as_bytes());
}

/// A sink that takes a number of bytes, and then fails with an error of one kind.
struct FailingWith {
    room: usize,
    kind: ErrorKind,
    failures: usize,
}

impl Write for FailingWith {
    fn write(&mut self, bytes: &[u8]) -> io::Result<usize> {
        if self.room == 0 {
            self.failures += 1;
            assert!(self.failures < TOO_MANY, "writes without end");
            return Err(with_payload(self.kind));
        }
        let count = bytes.len().min(self.room);
        self.room -= count;
        Ok(count)
    }

    fn flush(&mut self) -> io::Result<()> {
        panic!("nobody asked for a flush")
    }
}

/// Each error but an interruption is that of the sink: its kind and its payload. No write follows it, at whichever byte
/// it was.
#[test]
fn errors_are_unchanged() {
    let bytes = [b"a\xFF", "b".repeat(5000).as_bytes(), b"\xFFc"].concat();
    for kind in KINDS.into_iter().filter(|kind| *kind != ErrorKind::Interrupted) {
        for room in [0, 3, 4, 1000, 5004, 5007] {
            let mut sink = FailingWith {
                room,
                kind,
                failures: 0,
            };
            assert_unchanged(repair_to(&bytes, &mut sink).unwrap_err(), kind);
            assert_eq!(sink.failures, 1, "{kind} after {room}");
        }
    }
}

/// Returns bytes that are longer than any buffer in between, and malformed at a few indices or nearly everywhere.
fn long(random: &mut Random) -> Vec<u8> {
    let mut bytes: Vec<u8> = (0..40).flat_map(|_| random.text(8).into_bytes()).collect();
    let step = [3, 50, 4000][random.below(3)];
    for place in (random.below(step)..bytes.len()).step_by(step) {
        bytes[place] = random.next() as u8;
    }
    bytes
}

fn check(bytes: &[u8]) {
    let repaired = repair(bytes);
    let wanted = String::from_utf8_lossy(bytes);
    assert_eq!(repaired, wanted);
    match (&repaired, &wanted) {
        (Cow::Borrowed(text), Cow::Borrowed(_)) => assert_eq!(text.as_ptr(), bytes.as_ptr()),
        (Cow::Owned(text), Cow::Owned(_)) => assert!(text.capacity() <= text.len() + 64),
        _ => panic!("{bytes:x?} is borrowed by only one of the two"),
    }
    let chunks = || utf8_chunks(bytes).map(|chunk| (chunk.valid(), chunk.invalid()));
    assert!(chunks().eq(bytes.utf8_chunks().map(|chunk| (chunk.valid(), chunk.invalid()))));
    let malformed = chunks().filter(|(_, invalid)| !invalid.is_empty()).count();
    let first = bytes.utf8_chunks().next().filter(|chunk| !chunk.invalid().is_empty());
    let place = first.map(|chunk| chunk.valid().len()..chunk.valid().len() + chunk.invalid().len());
    assert_eq!(next_malformed(bytes), place);
    let mut text = Vec::new();
    assert_eq!(repair_to(bytes, &mut text).unwrap(), malformed as u64);
    assert_eq!(text, wanted.as_bytes());
}

#[test]
fn random_bytes() {
    let mut random = Random::new(61);
    check(b"");
    for _ in 0..4000 {
        check(&random.bytes());
    }
    for _ in 0..40 {
        check(&long(&mut random));
    }
}

/// A sink that takes a number of bytes, a few at a time, and then fails.
struct Failing {
    taken: Vec<u8>,
    most: usize,
    failures: usize,
}

impl Write for Failing {
    fn write(&mut self, bytes: &[u8]) -> io::Result<usize> {
        let count = bytes.len().min(5).min(self.most - self.taken.len());
        self.taken.extend_from_slice(&bytes[..count]);
        if count == 0 {
            self.failures += 1;
            assert!(self.failures < TOO_MANY, "writes without end");
            return Err(io::Error::other("full"));
        }
        Ok(count)
    }

    fn flush(&mut self) -> io::Result<()> {
        panic!("nobody asked for a flush")
    }
}

#[test]
fn a_failing_sink_has_a_prefix() {
    let mut random = Random::new(62);
    for _ in 0..200 {
        let bytes = random.bytes();
        let wanted = String::from_utf8_lossy(&bytes);
        let most = random.below(wanted.len() + 2);
        let mut sink = Failing {
            taken: Vec::new(),
            most,
            failures: 0,
        };
        assert_eq!(repair_to(&bytes, &mut sink).is_ok(), most >= wanted.len());
        assert_eq!(sink.taken, &wanted.as_bytes()[..most.min(wanted.len())]);
    }
}

/// Returns bytes in random pieces, with interruptions and other errors between them, and counts the reads after the
/// end.
struct Pieces<'a> {
    random: Random,
    rest: &'a [u8],
    asked_after: usize,
}

impl Read for Pieces<'_> {
    fn read(&mut self, buffer: &mut [u8]) -> io::Result<usize> {
        match self.random.below(5) {
            0 => return Err(io::ErrorKind::Interrupted.into()),
            1 => return Err(io::Error::other("broken for now")),
            _ => {}
        }
        self.asked_after += usize::from(self.rest.is_empty());
        assert!(self.asked_after < TOO_MANY, "reads without end");
        let count = 1 + self.random.length(buffer.len().max(1) - 1);
        let (piece, rest) = self.rest.split_at(count.min(self.rest.len()));
        buffer[..piece.len()].copy_from_slice(piece);
        self.rest = rest;
        Ok(piece.len())
    }
}

fn malformed(bytes: &[u8]) -> u64 {
    bytes.utf8_chunks().filter(|chunk| !chunk.invalid().is_empty()).count() as u64
}

#[test]
fn repairs_random_pieces() {
    let mut random = Random::new(71);
    for _ in 0..4000 {
        let bytes = random.bytes();
        let pieces = Pieces {
            random: Random::new(random.next()),
            rest: &bytes,
            asked_after: 0,
        };
        let mut reader = Repair::with_capacity(random.length(600), pieces);
        let most = 1 + random.length(300);
        let wanted = String::from_utf8_lossy(&bytes);
        let mut at = 0;
        for reads in 0.. {
            assert!(reads < TOO_MANY, "reads without end");
            let length = if random.below(9) == 0 {
                0
            } else {
                1 + random.below(most)
            };
            let mut buffer = bytes_of(&mut random, length);
            let Ok(count) = reader.read(buffer.dst()) else {
                buffer.written(0);
                continue;
            };
            assert_eq!(buffer.written(count), &wanted.as_bytes()[at..at + count]);
            // a character is cut only if it is longer than the buffer
            let is_cut = !wanted.is_char_boundary(at + count);
            let next = (at + 1..=wanted.len())
                .find(|end| wanted.is_char_boundary(*end))
                .unwrap_or(at);
            assert!(
                !is_cut || (count == length && at + count < next),
                "cut at {at} + {count} of {length}"
            );
            at += count;
            if count == 0 && length > 0 {
                break;
            }
        }
        assert_eq!(at, wanted.len());
        assert_eq!(reader.replaced(), malformed(&bytes));
        assert_eq!(reader.read(&mut [0; 9]).unwrap(), 0);
        assert_eq!(reader.into_inner().asked_after, 1);
    }
}

#[test]
fn decode_utf16() {
    let mut random = Random::new(72);
    for _ in 0..4000 {
        let bytes = random.bytes();
        let pieces = Pieces {
            random: Random::new(random.next()),
            rest: &bytes,
            asked_after: 0,
        };
        let mut reader = DecodeUtf16::with_capacity(random.length(600), pieces);
        let most = 1 + random.length(300);
        let wanted: Vec<u16> = String::from_utf8_lossy(&bytes).encode_utf16().collect();
        let mut at = 0;
        for reads in 0.. {
            assert!(reads < TOO_MANY, "reads without end");
            let length = if random.below(9) == 0 {
                0
            } else {
                1 + random.below(most)
            };
            let mut buffer = units_of(&mut random, length);
            let Ok(count) = reader.read(buffer.dst()) else {
                buffer.written(0);
                continue;
            };
            assert_eq!(buffer.written(count), &wanted[at..at + count]);
            at += count;
            let is_cut = wanted.get(at).is_some_and(|unit| unit & 0xFC00 == 0xDC00);
            assert!(!is_cut || length <= 1);
            if count == 0 && length > 0 {
                break;
            }
        }
        assert_eq!(at, wanted.len());
        assert_eq!(reader.replaced(), malformed(&bytes));
        assert_eq!(reader.get_ref().asked_after, 1);
    }
}

#[test]
fn long_streams() {
    let mut random = Random::new(73);
    let mut bytes: Vec<u8> = (0..400).flat_map(|_| random.bytes()).collect();
    bytes.push(0xE2);
    let wanted = String::from_utf8_lossy(&bytes);
    let mut text = String::new();
    let mut reader = Repair::new(&bytes[..]);
    Bounded::new(&mut reader).read_to_string(&mut text).unwrap();
    assert_eq!(text, wanted);
    assert_eq!(reader.replaced(), malformed(&bytes));
    let mut units = vec![0; bytes.len()];
    let mut reader = DecodeUtf16::new(&bytes[..]);
    let mut written = 0;
    while let count @ 1.. = reader.read(&mut units[written..]).unwrap() {
        written += count;
    }
    assert!(wanted.encode_utf16().eq(units[..written].iter().copied()));
}

#[test]
fn debug_tells_the_reader() {
    let reader = Repair::new(&b"\xFF"[..]);
    assert_eq!(format!("{reader:?}"), "Repair { reader: [255], replaced: 0, .. }");
}
