//! `Repair` and `DecodeUtf16` over readers that return, fail and panic as rows say: each row also counts the reads.
//! What they request from their inner reader, its errors, and the inner reader itself.

use crate::common::rows::{named, Unit};
use crate::faults::{assert_unchanged, kind_named, with_payload, Bounded, KINDS, TOO_MANY};
use encoding_text::{DecodeUtf16, Repair};
use std::fmt::UpperHex;
use std::io::{self, ErrorKind, Read};
use std::panic::{catch_unwind, AssertUnwindSafe};

/// A reader that does in turn what each of these words says, and then returns no byte.
struct Scripted {
    words: Vec<&'static str>,
    reads: usize,
}

impl Read for Scripted {
    fn read(&mut self, buffer: &mut [u8]) -> io::Result<usize> {
        let word = self.words.get(self.reads).copied().unwrap_or("none");
        self.reads += 1;
        assert!(self.reads < TOO_MANY, "reads without end");
        // a reader may write anywhere in the buffer, and only the bytes that it counts are text
        buffer.fill(b'Z');
        if let Some(kind) = kind_named(word) {
            return Err(kind.into());
        }
        match word {
            "none" => Ok(0),
            "one too many" => Ok(buffer.len() + 1),
            "far too many" => Ok(usize::MAX),
            "panic" => panic!("the inner reader panics"),
            _ => {
                let bytes = named(word);
                buffer[..bytes.len()].copy_from_slice(&bytes);
                Ok(bytes.len())
            }
        }
    }
}

/// A reader of text over a [`Scripted`] one.
trait Text {
    /// A unit of the text.
    type Unit: Unit + UpperHex;

    fn over(capacity: usize, reader: Scripted) -> Self;
    fn read_units(&mut self, buffer: &mut [Self::Unit]) -> io::Result<usize>;
    fn reads(&self) -> usize;
    fn replacements(&self) -> u64;
}

impl Text for Repair<Scripted> {
    type Unit = u8;

    fn over(capacity: usize, reader: Scripted) -> Self {
        Repair::with_capacity(capacity, reader)
    }

    fn read_units(&mut self, buffer: &mut [u8]) -> io::Result<usize> {
        self.read(buffer)
    }

    fn reads(&self) -> usize {
        self.get_ref().reads
    }

    fn replacements(&self) -> u64 {
        self.replaced()
    }
}

impl Text for DecodeUtf16<Scripted> {
    type Unit = u16;

    fn over(capacity: usize, reader: Scripted) -> Self {
        DecodeUtf16::with_capacity(capacity, reader)
    }

    fn read_units(&mut self, buffer: &mut [u16]) -> io::Result<usize> {
        self.read(buffer)
    }

    fn reads(&self) -> usize {
        self.get_ref().reads
    }

    fn replacements(&self) -> u64 {
        self.replaced()
    }
}

/// Reads into a buffer of this length. Returns the units, the kind of the error, `none` or `panic`, in the words of a
/// row. What isn't returned is unchanged.
fn read_once<T: Text>(text: &mut T, length: usize) -> String {
    let mut buffer = vec![T::Unit::UNWRITTEN; length];
    let result = catch_unwind(AssertUnwindSafe(|| text.read_units(&mut buffer)));
    let count = *result.as_ref().ok().and_then(|read| read.as_ref().ok()).unwrap_or(&0);
    let (written, following) = buffer.split_at(count);
    assert!(following.iter().all(|unit| *unit == T::Unit::UNWRITTEN));
    match result {
        Err(_) => String::from("panic"),
        Ok(Err(error)) => format!("{:?}", error.kind()),
        Ok(Ok(0)) => String::from("none"),
        Ok(Ok(_)) => {
            let width = 2 * size_of::<T::Unit>();
            let words: Vec<String> = written.iter().map(|unit| format!("{unit:0width$X}")).collect();
            words.join(" ")
        }
    }
}

/// Asserts that the reads of a row have their results, and that the inner reader was read that often by then.
fn assert_row_holds<T: Text>(row: &'static str, capacity: usize) {
    let fields: Vec<&str> = row.split('|').map(str::trim).collect();
    let [words, reads, replaced] = fields[..] else {
        panic!("{row} is no row");
    };
    let words = words.split(',').map(str::trim).collect();
    let mut text = T::over(capacity, Scripted { words, reads: 0 });
    for (index, read) in reads.split(',').map(str::trim).enumerate() {
        let (length, wanted) = read.split_once(": ").unwrap();
        let result = read_once(&mut text, length.parse().unwrap());
        let found = format!("{result} after {}", text.reads());
        assert_eq!(found, wanted, "read {index} of {row}, {capacity} at once");
    }
    assert_eq!(text.replacements(), replaced.parse().unwrap(), "{row}");
}

/// Asserts that each row holds if few or many bytes are requested at once, and returns the number of rows.
fn checked_rows<T: Text>(rows: &'static str) -> usize {
    for row in rows.lines() {
        assert_row_holds::<T>(row, 4);
        assert_row_holds::<T>(row, 8192);
    }
    rows.lines().count()
}

/// What the reads of the inner reader do. Then reads of the text: the length of the buffer, the result, and how often
/// the inner reader has been read by then. At last the number of malformed sequences replaced.
const REPAIR_ROWS: &str = "\
61 62, none | 8: 61 62 after 1, 8: none after 2, 8: none after 2 | 0
61 E2, 98 83, none | 8: 61 after 1, 8: E2 98 83 after 2, 8: none after 3 | 0
61 62 63, none | 2: 61 62 after 1, 2: 63 after 1, 2: none after 2 | 0
61, none | 0: none after 0, 8: 61 after 1, 0: none after 1, 8: none after 2, 0: none after 2 | 0
61, TimedOut | 8: 61 after 1, 0: none after 1, 8: TimedOut after 2, 0: none after 2 | 0
F0 9F 98 80, none | 1: F0 after 1, 0: none after 1, 2: 9F 98 after 1, 8: 80 after 1, 8: none after 2 | 0
61 FF 62, none | 3: 61 after 1, 3: EF BF BD after 1, 3: 62 after 1, 3: none after 2 | 1
61, TimedOut, 62, none | 8: 61 after 1, 8: TimedOut after 2, 0: none after 2, 8: 62 after 3, 0: none after 3, 8: none after 4, 0: none after 4 | 0
FF, TimedOut | 1: EF after 1, 1: BF after 1, 1: BD after 1, 1: TimedOut after 2 | 1
Interrupted, 61, none | 8: Interrupted after 1, 8: 61 after 2, 8: none after 3 | 0
61 E2, Interrupted, 98, Interrupted, 83 | 8: 61 after 1, 8: Interrupted after 2, 8: Interrupted after 4, 8: E2 98 83 after 5 | 0
61, TimedOut, none | 8: 61 after 1, 8: TimedOut after 2, 8: none after 3, 8: none after 3 | 0
61, WouldBlock, WouldBlock, 62 | 8: 61 after 1, 8: WouldBlock after 2, 8: WouldBlock after 3, 8: 62 after 4 | 0
FF, WouldBlock, FF, none | 8: EF BF BD after 1, 8: WouldBlock after 2, 8: EF BF BD after 3, 8: none after 4 | 2
E2 98, BrokenPipe, 83 61 | 8: BrokenPipe after 2, 8: E2 98 83 61 after 3 | 0
E2 98, UnexpectedEof, none | 8: UnexpectedEof after 2, 8: EF BF BD after 3, 8: none after 3 | 1
none, 61 | 8: none after 1, 8: none after 1 | 0
none, TimedOut | 8: none after 1, 8: none after 1 | 0
61 E2, none, 98 83 | 8: 61 after 1, 8: EF BF BD after 2, 8: none after 2 | 1
one too many, 61, none | 8: panic after 1, 8: 61 after 2, 8: none after 3 | 0
far too many, 61, none | 8: panic after 1, 8: 61 after 2, 8: none after 3 | 0
one too many, none, 61 | 8: panic after 1, 8: none after 2, 8: none after 2 | 0
E2 98, one too many, 83 61 | 8: panic after 2, 8: E2 98 83 61 after 3 | 0
FF E2, far too many, Interrupted, 62 | 8: EF BF BD after 1, 8: panic after 2, 8: Interrupted after 3, 8: EF BF BD 62 after 4 | 2
61, one too many, one too many, 62 | 1: 61 after 1, 1: panic after 2, 1: panic after 3, 1: 62 after 4 | 0
none, one too many | 8: none after 1, 8: none after 1 | 0
E2 98, panic, 83 61 | 8: panic after 2, 8: E2 98 83 61 after 3 | 0";

#[test]
fn repair_rows() {
    assert_eq!(checked_rows::<Repair<Scripted>>(REPAIR_ROWS), 27);
}

/// The same with code units.
const DECODE_ROWS: &str = "\
61 62, none | 8: 0061 0062 after 1, 8: none after 2, 8: none after 2 | 0
61 E2, 98 83, none | 8: 0061 after 1, 8: 2603 after 2, 8: none after 3 | 0
61 62 63, none | 2: 0061 0062 after 1, 2: 0063 after 1, 2: none after 2 | 0
61, none | 0: none after 0, 8: 0061 after 1, 0: none after 1, 8: none after 2, 0: none after 2 | 0
F0 9F 98 80, none | 1: D83D after 1, 0: none after 1, 1: DE00 after 1, 1: none after 2 | 0
61, TimedOut, 62, none | 8: 0061 after 1, 8: TimedOut after 2, 0: none after 2, 8: 0062 after 3, 0: none after 3, 8: none after 4, 0: none after 4 | 0
61 FF 62, TimedOut | 1: 0061 after 1, 1: FFFD after 1, 1: 0062 after 1, 1: TimedOut after 2 | 1
Interrupted, 61, none | 8: Interrupted after 1, 8: 0061 after 2, 8: none after 3 | 0
61 E2, Interrupted, 98, Interrupted, 83 | 8: 0061 after 1, 8: Interrupted after 2, 8: Interrupted after 4, 8: 2603 after 5 | 0
61, TimedOut, none | 8: 0061 after 1, 8: TimedOut after 2, 8: none after 3, 8: none after 3 | 0
61, WouldBlock, WouldBlock, 62 | 8: 0061 after 1, 8: WouldBlock after 2, 8: WouldBlock after 3, 8: 0062 after 4 | 0
F0 9F, BrokenPipe, 98 80 | 8: BrokenPipe after 2, 8: D83D DE00 after 3 | 0
E2 98, UnexpectedEof, none | 8: UnexpectedEof after 2, 8: FFFD after 3, 8: none after 3 | 1
none, 61 | 8: none after 1, 8: none after 1 | 0
61 E2, none, 98 83 | 8: 0061 after 1, 8: FFFD after 2, 8: none after 2 | 1
one too many, 61, none | 8: panic after 1, 8: 0061 after 2, 8: none after 3 | 0
far too many, none, 61 | 8: panic after 1, 8: none after 2, 8: none after 2 | 0
F0 9F 98, one too many, 80 61 | 8: panic after 2, 8: D83D DE00 0061 after 3 | 0
FF E2, far too many, Interrupted, 62 | 8: FFFD after 1, 8: panic after 2, 8: Interrupted after 3, 8: FFFD 0062 after 4 | 2
E2 98, panic, 83 61 | 8: panic after 2, 8: 2603 0061 after 3 | 0";

#[test]
fn decode_rows() {
    assert_eq!(checked_rows::<DecodeUtf16<Scripted>>(DECODE_ROWS), 20);
}

/// A reader of as many letters as are requested, which keeps the lengths of its buffers.
#[derive(Default)]
struct Letters {
    requested: Vec<usize>,
}

impl Read for Letters {
    fn read(&mut self, buffer: &mut [u8]) -> io::Result<usize> {
        assert!(self.requested.len() < 100, "reads without end");
        self.requested.push(buffer.len());
        buffer.fill(b'a');
        Ok(buffer.len())
    }
}

/// The capacity is what is requested at once, and at least one byte, whatever the length of the caller's buffer is.
#[test]
fn requests() {
    for (capacity, requested) in [(0, 1), (1, 1), (2, 2), (8192, 8192), (100_000, 100_000)] {
        let mut text = Repair::with_capacity(capacity, Letters::default());
        assert_eq!(text.read(&mut [0; 9]).unwrap(), requested.min(9), "{capacity}");
        assert_eq!(text.into_inner().requested, [requested], "{capacity}");
        let mut text = DecodeUtf16::with_capacity(capacity, Letters::default());
        assert_eq!(text.read(&mut [0; 9]).unwrap(), requested.min(9), "{capacity}");
        assert_eq!(text.into_inner().requested, [requested], "{capacity}");
    }
}

/// Returns how much was read: something.
fn not_ended(result: io::Result<usize>) -> usize {
    let count = result.unwrap();
    assert_ne!(count, 0);
    count
}

/// By default a read is made for each 8,192 bytes, in whatever pieces the text is read.
#[test]
fn default_requests() {
    for length in [1, 7, 100, 8192] {
        let mut text = Repair::new(Letters::default());
        let mut count = 0;
        while count < 3 * 8192 {
            count += not_ended(text.read(&mut vec![0; length]));
        }
        assert_eq!(text.get_ref().requested, [8192; 3], "{length}");
        let mut text = DecodeUtf16::new(Letters::default());
        let mut count = 0;
        while count < 3 * 8192 {
            count += not_ended(text.read(&mut vec![0; length]));
        }
        assert_eq!(text.get_ref().requested, [8192; 3], "{length}");
    }
}

/// A reader whose reads each take the next error.
struct Failing {
    errors: Vec<io::Error>,
}

impl Read for Failing {
    fn read(&mut self, _: &mut [u8]) -> io::Result<usize> {
        Err(self.errors.remove(0))
    }
}

/// Each error is that of the inner reader: its kind, its payload and its number.
#[test]
fn errors_are_unchanged() {
    for kind in KINDS {
        let errors = || vec![with_payload(kind), io::Error::from_raw_os_error(5), with_payload(kind)];
        let mut text = Repair::new(Failing { errors: errors() });
        assert_unchanged(text.read(&mut [0; 9]).unwrap_err(), kind);
        assert_eq!(text.read(&mut [0; 9]).unwrap_err().raw_os_error(), Some(5), "{kind}");
        assert_unchanged(text.read(&mut [0; 1]).unwrap_err(), kind);
        let mut text = DecodeUtf16::new(Failing { errors: errors() });
        assert_unchanged(text.read(&mut [0; 9]).unwrap_err(), kind);
        assert_eq!(text.read(&mut [0; 9]).unwrap_err().raw_os_error(), Some(5), "{kind}");
        assert_unchanged(text.read(&mut [0; 1]).unwrap_err(), kind);
    }
}

/// A reader that is interrupted before each byte.
struct Interrupted<'a> {
    rest: &'a [u8],
    is_next: bool,
}

impl Read for Interrupted<'_> {
    fn read(&mut self, buffer: &mut [u8]) -> io::Result<usize> {
        self.is_next = !self.is_next;
        if self.is_next {
            return Err(ErrorKind::Interrupted.into());
        }
        self.rest.read(&mut buffer[..1])
    }
}

/// Methods of `Read` that try again after an interruption yield the whole text.
#[test]
fn methods_that_try_again() {
    let bytes = b"a\xE2\x98\x83\xFF\xF0\x9F\x98\x80\xE2\x98";
    let reader = || Interrupted {
        rest: bytes,
        is_next: false,
    };
    let mut text = String::new();
    let mut repair = Repair::new(reader());
    assert_eq!(Bounded::new(&mut repair).read_to_string(&mut text).unwrap(), 14);
    assert_eq!(
        (text.as_str(), repair.replaced()),
        ("a\u{2603}\u{FFFD}\u{1F600}\u{FFFD}", 2)
    );
    let mut first = [0; 7];
    let mut repair = Repair::new(reader());
    Bounded::new(&mut repair).read_exact(&mut first).unwrap();
    assert_eq!(first, *"a\u{2603}\u{FFFD}".as_bytes());
}

/// What was requested at once is missing from the inner reader, also what waits for a longer buffer. What is read from
/// it directly is missing from the text.
#[test]
fn the_inner_reader() {
    let mut text = Repair::with_capacity(4, &b"ab\xE2\x98\x83cdefgh"[..]);
    let mut bytes = [0; 2];
    assert_eq!(text.get_ref(), b"ab\xE2\x98\x83cdefgh");
    assert_eq!((text.read(&mut bytes).unwrap(), bytes), (2, *b"ab"));
    assert_eq!(text.get_ref(), b"\x83cdefgh");
    // of the character 98 and 83 wait, and of the block c, d and e
    assert_eq!((text.read(&mut bytes[..1]).unwrap(), bytes), (1, *b"\xE2b"));
    assert_eq!(text.get_mut().read(&mut bytes).unwrap(), 2);
    assert_eq!(bytes, *b"fg");
    let mut rest = String::from("a");
    assert_eq!(text.read(&mut bytes).unwrap(), 2);
    assert_eq!(bytes, *b"\x98\x83");
    assert_eq!(text.read(&mut bytes[..1]).unwrap(), 1);
    assert_eq!(bytes[0], b'c');
    assert_eq!(text.read_to_string(&mut rest).unwrap(), 3);
    assert_eq!(rest, "adeh");
}

/// The same of code units.
#[test]
fn the_inner_reader_of_units() {
    let mut text = DecodeUtf16::with_capacity(4, &b"\xF0\x9F\x98\x80abcdefg"[..]);
    let mut units = [0; 9];
    assert_eq!(text.get_ref(), b"\xF0\x9F\x98\x80abcdefg");
    assert_eq!((text.read(&mut units[..1]).unwrap(), units[0]), (1, 0xD83D));
    assert_eq!(text.get_ref(), b"abcdefg");
    assert_eq!(text.get_mut().read(&mut [0; 1]).unwrap(), 1);
    assert_eq!((text.read(&mut units[..1]).unwrap(), units[0]), (1, 0xDE00));
    assert_eq!((text.read(&mut units[..1]).unwrap(), units[0]), (1, 0x62));
    assert_eq!(text.get_ref(), b"fg");
    assert_eq!(text.read(&mut units).unwrap(), 3);
    assert_eq!(units[..3], [0x63, 0x64, 0x65]);
    assert_eq!(text.read(&mut units).unwrap(), 2);
    assert_eq!(units[..2], [0x66, 0x67]);
}

/// The inner reader comes back as it is. What was read from it and isn't returned is lost.
#[test]
fn into_inner() {
    let bytes = b"a\xE2\x98\x83bcdefgh";
    for (capacity, left) in [(1, &bytes[1..]), (3, &bytes[3..]), (8, &bytes[8..]), (99, &[])] {
        let mut text = Repair::with_capacity(capacity, &bytes[..]);
        assert_eq!(text.read(&mut [0; 1]).unwrap(), 1, "{capacity}");
        assert_eq!(text.into_inner(), left, "{capacity}");
        let mut text = DecodeUtf16::with_capacity(capacity, &bytes[..]);
        assert_eq!(text.read(&mut [0; 1]).unwrap(), 1, "{capacity}");
        assert_eq!(text.into_inner(), left, "{capacity}");
    }
    assert_eq!(Repair::new(&bytes[..]).into_inner(), bytes);
    assert_eq!(DecodeUtf16::new(&bytes[..]).into_inner(), bytes);
}

/// An inner reader that is exchanged while a character is incomplete: the character goes on with the new bytes. One that
/// is exchanged after the end is not read.
#[test]
fn an_inner_reader_that_is_exchanged() {
    let mut text = Repair::new(Box::new((&b"\xE2\x98"[..]).chain(Failing {
        errors: vec![ErrorKind::WouldBlock.into()],
    })) as Box<dyn Read>);
    let mut bytes = [0; 9];
    assert_eq!(text.read(&mut bytes).unwrap_err().kind(), ErrorKind::WouldBlock);
    *text.get_mut() = Box::new(&b"\x83a"[..]);
    assert_eq!(text.read(&mut bytes).unwrap(), 4);
    assert_eq!(bytes[..4], *"\u{2603}a".as_bytes());
    assert_eq!(text.read(&mut bytes).unwrap(), 0);
    *text.get_mut() = Box::new(&b"b"[..]);
    assert_eq!(text.read(&mut bytes).unwrap(), 0);
}
