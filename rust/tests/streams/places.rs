//! The malformed sequences that `Repair` and `DecodeUtf16` hand out: those of the whole, for any pieces and buffers.

use crate::faults::TOO_MANY;
use encoding_text::{next_malformation, DecodeUtf16, Malformation, Repair, StreamMalformation};
use std::io::{self, Read};

/// A reader that returns pieces of random lengths, and sometimes fails instead.
struct Pieces<'a> {
    rest: &'a [u8],
    longest: usize,
    state: u64,
}

impl Pieces<'_> {
    fn below(&mut self, n: usize) -> usize {
        self.state = self
            .state
            .wrapping_mul(6364136223846793005)
            .wrapping_add(1442695040888963407);
        (self.state >> 33) as usize % n
    }
}

impl Read for Pieces<'_> {
    fn read(&mut self, buffer: &mut [u8]) -> io::Result<usize> {
        if self.below(7) == 0 {
            return Err(io::ErrorKind::Interrupted.into());
        }
        let longest = self.longest;
        let count = (1 + self.below(longest)).min(buffer.len()).min(self.rest.len());
        let (piece, rest) = self.rest.split_at(count);
        buffer[..count].copy_from_slice(piece);
        self.rest = rest;
        Ok(count)
    }
}

/// Returns the malformed sequences of all bytes.
fn wanted(bytes: &[u8]) -> Vec<StreamMalformation> {
    let (mut found, mut at) = (Vec::new(), 0);
    while let Some((range, kind)) = next_malformation(&bytes[at..]) {
        found.push(StreamMalformation {
            offset: (at + range.start) as u64,
            length: range.len() as u8,
            kind,
        });
        at += range.end;
    }
    found
}

/// Returns the places of a stream in pieces, by calls with buffers of this length.
fn places<U: Copy + Default>(
    room: usize,
    mut read: impl FnMut(&mut [U], &mut dyn FnMut(StreamMalformation)) -> io::Result<usize>,
) -> Vec<StreamMalformation> {
    let mut found = Vec::new();
    for _ in 0..TOO_MANY {
        match read(&mut vec![U::default(); room], &mut |place| found.push(place)) {
            Ok(0) => return found,
            Ok(_) => {}
            Err(error) => assert_eq!(error.kind(), io::ErrorKind::Interrupted),
        }
    }
    panic!("reads without end");
}

/// Rows of the Unicode Standard's Tables 3-8 to 3-11, and one of each kind.
#[test]
fn kinds() {
    use Malformation::*;
    let bytes = b"a\x80\xFF\xE0\x80\xED\xA0\x80\xF4\x91\xE2\x98z\xF0\x9F\x98";
    let rows = [
        (1, 1, UnexpectedContinuation),
        (2, 1, DisallowedByte),
        (3, 1, Overlong),
        (4, 1, UnexpectedContinuation),
        (5, 1, Surrogate),
        (6, 1, UnexpectedContinuation),
        (7, 1, UnexpectedContinuation),
        (8, 1, TooLarge),
        (9, 1, UnexpectedContinuation),
        (10, 2, Truncated),
        (13, 3, IncompleteAtEnd),
    ];
    for capacity in 1..20 {
        let mut reader = Repair::with_capacity(capacity, &bytes[..]);
        let found = places(64, |buffer, found| reader.read_reporting(buffer, found));
        let found: Vec<_> = found.iter().map(|one| (one.offset, one.length, one.kind)).collect();
        assert_eq!(found, rows, "{capacity}");
    }
}

#[test]
fn any_pieces_and_buffers() {
    let parts: [&[u8]; 9] = [
        b"abc",
        "na\u{EF}ve \u{2603}".as_bytes(),
        "\u{1F4A9}".as_bytes(),
        b"\xE2\x98",
        b"\xF0\x9F\x98",
        b"\xFF",
        b"\x80",
        b"\xED\xA0",
        &[b'x'; 700],
    ];
    let mut random = Pieces {
        rest: &[],
        longest: 1,
        state: 5,
    };
    for round in 0..400 {
        let mut bytes = Vec::new();
        for _ in 0..random.below(30) {
            bytes.extend(parts[random.below(parts.len())]);
        }
        let pieces = |state| Pieces {
            rest: &bytes,
            longest: [1, 2, 7, 300][round % 4],
            state,
        };
        let room = [1, 2, 3, 5, 64, 5000][round % 6];
        let mut repair = Repair::with_capacity([1, 3, 100, 8192][round / 4 % 4], pieces(round as u64));
        let found = places(room, |buffer, found| repair.read_reporting(buffer, found));
        assert_eq!(found, wanted(&bytes), "{bytes:X?}");
        assert_eq!(repair.replaced(), found.len() as u64);
        let mut decode = DecodeUtf16::with_capacity([1, 3, 100, 8192][round / 4 % 4], pieces(round as u64));
        let found = places(room, |buffer, found| decode.read_reporting(buffer, found));
        assert_eq!(found, wanted(&bytes), "{bytes:X?}");
    }
}

/// The stream is longer than each buffer of the reader.
#[test]
fn offsets_of_a_long_stream() {
    let block = [b'a'; 4093];
    let mut bytes = block.repeat(500);
    bytes.extend(b"\xE2\x98");
    for capacity in [8192, 1 << 17] {
        let mut reader = Repair::with_capacity(capacity, &bytes[..]);
        let found = places(capacity, |buffer, found| reader.read_reporting(buffer, found));
        assert_eq!(found.len(), 1);
        assert_eq!((found[0].offset, found[0].length), (4093 * 500, 2));
    }
}
