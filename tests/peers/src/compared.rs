//! Compares single calls of both decoders, of random streams and of hard ones.
//!
//! Both decoders get the same pieces of a stream. At the end of each piece they have read the same bytes, and what they
//! promise of a call is compared: see [`assert_same_calls`].

use crate::{ours, theirs, Random};

/// Where a call writes.
#[derive(Clone, Copy, Debug)]
pub enum To {
    Bytes,
    Units,
    Text,
    Owned,
}

impl To {
    const ALL: [To; 4] = [To::Bytes, To::Units, To::Text, To::Owned];

    /// The least length of a destination for which encoding_rs promises something: one character fits.
    pub fn least(self) -> usize {
        match self {
            To::Units => 2,
            _ => 4,
        }
    }
}

/// What a decoder says of the bytes that come next.
pub struct Known {
    pub encoding: &'static str,
    pub latin1: Option<usize>,
    /// Of each number of bytes: `max_utf16_buffer_length`, `max_utf8_buffer_length` and
    /// `max_utf8_buffer_length_without_replacement`, with `usize::MAX` for `None`. Where encoding_rs returns `usize::MAX`
    /// as a length, ours is `None`.
    pub queries: Vec<[usize; 3]>,
}

impl Known {
    /// Raises each query to that of another decoder, if that is greater.
    fn raise_to(&mut self, other: &Known) {
        for (query, other) in self.queries.iter_mut().flatten().zip(other.queries.iter().flatten()) {
            *query = (*query).max(*other);
        }
    }
}

/// What a decoder made of a piece.
#[derive(Default)]
pub struct Piece {
    /// The text before each malformed sequence, the offset in the stream where that ends, and its length. Then the rest
    /// of the text.
    pub parts: Vec<(Vec<u16>, Option<(usize, u8)>)>,
    /// How many bytes were read after each malformed sequence.
    pub read_after: Vec<u8>,
}

/// Which decoder, of which stream.
#[derive(Clone, Copy)]
struct Case<'a> {
    number: usize,
    marks: usize,
    pieces: &'a [&'a [u8]],
}

impl Case<'_> {
    fn streams(self) -> (ours::Stream, theirs::Stream) {
        (
            ours::Stream::new(self.number, self.marks),
            theirs::Stream::new(self.number, self.marks),
        )
    }

    /// Returns each piece, and whether it is the last one.
    fn marked(&self) -> impl Iterator<Item = (&[u8], bool)> {
        let count = self.pieces.len();
        self.pieces
            .iter()
            .enumerate()
            .map(move |(index, piece)| (*piece, index + 1 == count))
    }
}

/// Compares what is known before each piece: the encoding, the Latin1 prefix of the piece, and the queries.
///
/// Both promise that the queried lengths suffice, which the calls of [`assert_same_calls`] check. Neither promises the
/// least such length: encoding_rs adds up to two bytes if the start of a mark is pending. Ours isn't above it, with one
/// exception. If the start of a mark is pending, encoding_rs knows which mark, and ours promises the greatest length of
/// the three encodings, as long as a mark may decide. Then it isn't above the greatest of encoding_rs's three.
fn assert_same_knowledge(case: Case, what: &str) {
    const MAX: usize = usize::MAX;
    let mut mine = ours::Stream::new(case.number, case.marks);
    let mut others = [0, 1, 2].map(|number| theirs::Stream::new(number, case.marks));
    let mut before = Vec::new();
    for (piece, last) in case.marked() {
        let mut numbers = vec![piece.len()];
        numbers.extend(0..8);
        for bound in [MAX / 3, MAX / 3 * 2, MAX / 2] {
            numbers.extend(bound - 4..=bound + 4);
        }
        numbers.extend(MAX - 8..=MAX);
        let known = mine.known(piece, &numbers);
        let mut wanted = others[case.number].known(piece, &numbers);
        assert_eq!(known.encoding, wanted.encoding, "{what}");
        assert_eq!(known.latin1, wanted.latin1, "{what}");
        let marks: [&[u8]; 4] = [b"\xEF", b"\xEF\xBB", b"\xFF", b"\xFE"];
        if case.marks == 0 && marks.contains(&&before[..]) {
            for other in &others {
                wanted.raise_to(&other.known(piece, &numbers));
            }
        }
        for ((n, queries), others) in numbers.iter().zip(&known.queries).zip(&wanted.queries) {
            for (query, other) in queries.iter().zip(others) {
                assert!(
                    query <= other,
                    "{n} bytes after {before:X?}: {query} is above {other}, {what}"
                );
            }
        }
        mine.replace(To::Bytes, piece, last, || None);
        for other in &mut others {
            other.replace(To::Bytes, piece, last, || None);
        }
        before.extend_from_slice(piece);
    }
    assert_eq!(mine.encoding(), others[case.number].encoding(), "{what}");
}

/// Compares the calls for each piece.
///
/// Into a destination of the queried length, a call of either reads all or reports a malformed sequence. Then the text
/// and the report are the same, with the offset where the malformed sequence ends: that is what was read, less the
/// second number of `Malformed`. So are the counts for UTF-8, where both promise that this number is 0. In UTF-16,
/// encoding_rs reads the code unit after an unpaired high surrogate, and the number is 2. Ours reads no further than the
/// malformed sequence, and the number is that of the bytes that earlier calls read: at most 1.
///
/// Into a shorter destination, a call of either may end once less than one character's space is left. How much of that
/// it fills isn't promised, so the text of all calls for a piece is compared, and what they report.
fn assert_same_calls(case: Case, to: To, mut length: impl FnMut() -> Option<usize>, what: &str) {
    let (mut mine, mut other) = case.streams();
    for (piece, last) in case.marked() {
        let found = mine.report(to, piece, last, &mut length);
        let wanted = other.report(to, piece, last, &mut length);
        assert_eq!(found.parts, wanted.parts, "{to:?}, {what}");
        for (after, other_after) in found.read_after.into_iter().zip(wanted.read_after) {
            assert!(
                matches!((after, other_after), (0, 0) | (0 | 1, 2)),
                "{after} {other_after}, {what}"
            );
            assert!(other_after == 0 || mine.encoding() != "UTF-8", "{what}");
        }
    }
    let (mut mine, mut other) = case.streams();
    for (piece, last) in case.marked() {
        let found = mine.replace(to, piece, last, &mut length);
        assert_eq!(found, other.replace(to, piece, last, &mut length), "{to:?}, {what}");
    }
}

/// Compares all calls for a stream in these pieces, into destinations of the queried lengths and of these.
fn assert_same(case: Case, mut length: impl FnMut() -> usize) {
    let what = format!("encoding {}, marks {}: {:X?}", case.number, case.marks, case.pieces);
    assert_same_knowledge(case, &what);
    for to in To::ALL {
        assert_same_calls(case, to, || None, &what);
        assert_same_calls(case, to, || Some(to.least() + length()), &what);
    }
}

/// Compares random streams in random pieces, and returns how many.
pub fn random_streams(seed: u64) -> usize {
    const STREAMS: usize = 500;
    let mut random = Random(seed);
    for stream in 0..STREAMS {
        let bytes = random.stream();
        let pieces = random.pieces(&bytes);
        let longest = [1, 3, 50, 3000][random.below(4)];
        let case = Case {
            number: stream % 3,
            marks: stream / 3 % 3,
            pieces: &pieces,
        };
        assert_same(case, || random.below(longest));
    }
    STREAMS
}

/// Streams that are hard to cut: marks, mark after mark, what isn't quite one, incomplete sequences and code units at the
/// end, and surrogates that are unpaired, in either order of bytes.
const HARD: [&[u8]; 38] = [
    b"",
    b"\xEF",
    b"\xEF\xBB",
    b"\xEF\xBB\xBF",
    b"\xFF",
    b"\xFE",
    b"\xFF\xFE",
    b"\xFE\xFF",
    b"\xEF\xBB\xBFa\xFF",
    b"\xEF\xBB\xBF\xEF\xBB\xBFa",
    b"\xEF\xBB\xBF\xFF\xFEa",
    b"\xFF\xFE\xFF\xFEa\0",
    b"\xFF\xFE\xFE\xFFa\0",
    b"\xFE\xFF\xFE\xFF\0a",
    b"\xFE\xFF\xEF\xBB\xBF",
    b"\xEF\xBB\xEF\xBB\xBF",
    b"\xEF\xEF\xBB\xBF",
    b"\xEF\xBBa",
    b"\xEF\xDCa\0",
    b"\xEF\xD8\xA9\xDC",
    b"\xFF\xFF\xFEa",
    b"\xFE\xFE\xFFa",
    b"\xFF\xD8\xFE\xFF",
    b"\x3D\xD8a",
    b"\xFF\xFE\x3D\xD8a",
    b"\xD8\x3Da",
    b"\x3D\xD8\xA9\xDC\x3D\xD8",
    b"\xD8\x3D\xDC\xA9\xD8\x3D\xDC",
    b"\x3D\xD8\x3D\xD8\xA9\xDC",
    b"\xA9\xDC\x3D\xD8a\0\xA9\xDC",
    b"\xDC\xA9\xD8\x3D\0a\xD8\x3D",
    b"\xD8\x3D\0\0\xD8\x3D",
    b"\x3D\xD8\0\0a\0",
    b"\xE2\x98",
    b"a\xE2\x98Z",
    b"\xF0\x9F\x98",
    b"\xF0\x9F\x98\x80\xF0\x9F",
    b"\xF4\x90\x80\x80\xED\xA0\x80\xC0\xAF",
];

/// Compares the hard streams, whole, and cut at any two places, into short destinations. Returns how many there are.
pub fn hard_streams() -> usize {
    for bytes in HARD {
        assert_eq!(ours::mark(bytes), theirs::mark(bytes), "{bytes:X?}");
        for number in 0..3 {
            assert_eq!(
                ours::whole(number, bytes),
                theirs::whole(number, bytes),
                "{number} {bytes:X?}"
            );
        }
        for (first, second) in (0..=bytes.len()).flat_map(|second| (0..=second).map(move |first| (first, second))) {
            let pieces = [&bytes[..first], &bytes[first..second], &bytes[second..]];
            for (number, marks) in (0..3).flat_map(|number| (0..3).map(move |marks| (number, marks))) {
                let case = Case {
                    number,
                    marks,
                    pieces: &pieces,
                };
                for more in 0..4 {
                    assert_same(case, || more);
                }
            }
        }
    }
    HARD.len()
}
