//! Long texts: one character again and again, more than every block, buffer and threshold has. So the lengths in each
//! encoding are those of the character times their number.

use std::fmt::Debug;
use std::panic::{catch_unwind, AssertUnwindSafe};

/// How many characters a text has: no multiple of a block.
pub const COUNT: usize = 100_003;

/// Each element of a destination before a call. A destination of bytes is a text, which some calls require.
const UNWRITTEN: u8 = b'Q';

/// A text in each encoding, and how many elements one character has in it.
pub struct LongText {
    pub character: char,
    pub utf8: String,
    pub utf16: Vec<u16>,
    pub bytes: usize,
    pub units: usize,
}

impl LongText {
    fn of(character: char) -> LongText {
        let utf8 = String::from(character).repeat(COUNT);
        LongText {
            character,
            utf16: utf8.encode_utf16().collect(),
            utf8,
            bytes: character.len_utf8(),
            units: character.len_utf16(),
        }
    }

    /// Returns the bytes of Latin1, if the character is one of it.
    pub fn latin1(&self) -> Option<Vec<u8>> {
        u8::try_from(u32::from(self.character))
            .ok()
            .map(|byte| vec![byte; COUNT])
    }

    /// Returns the bytes of UTF-16BE or UTF-16LE.
    pub fn bytes_of_units(&self, is_big: bool) -> Vec<u8> {
        let pairs = self.utf16.iter().map(|unit| match is_big {
            true => unit.to_be_bytes(),
            false => unit.to_le_bytes(),
        });
        pairs.flatten().collect()
    }
}

/// Returns texts of characters of each length, of Latin1 and not, ASCII first.
pub fn long_texts() -> [LongText; 5] {
    ['a', 'é', 'α', '你', '😀'].map(LongText::of)
}

fn fresh<D: From<u8> + Clone>(length: usize) -> Vec<D> {
    vec![D::from(UNWRITTEN); length]
}

fn assert_wrote<D: From<u8> + PartialEq + Debug>(dst: &[D], wanted: &[D]) {
    let (written, rest) = dst.split_at(wanted.len());
    assert!(written == wanted);
    assert!(rest.iter().all(|element| *element == D::from(UNWRITTEN)));
}

/// Asserts that a call writes all into a destination of the length of its result, and all but a character into one that is
/// an element shorter. The call returns how much it read and wrote; a character has `from` elements in its source, and
/// `to` in the destination.
pub fn assert_fills<D: From<u8> + Clone + PartialEq + Debug>(
    wanted: &[D],
    (from, to): (usize, usize),
    mut call: impl FnMut(&mut [D]) -> (usize, usize),
) {
    for missing in [0, 1] {
        let room = wanted.len() - missing;
        let mut dst = fresh(room + 40);
        let (read, written) = call(&mut dst[..room]);
        let whole = COUNT - missing;
        assert_eq!((read, written), (whole * from, whole * to), "{missing} missing");
        assert_wrote(&dst, &wanted[..written]);
    }
}

/// Asserts that a call writes all into a destination of this length, and that it panics and writes nothing if the
/// destination is an element shorter. The call returns how much it wrote.
pub fn assert_needs<D: From<u8> + Clone + PartialEq + Debug>(
    wanted: &[D],
    room: usize,
    call: impl Fn(&mut [D]) -> usize,
) {
    let mut dst = fresh(room + 40);
    assert_eq!(call(&mut dst[..room]), wanted.len());
    assert_wrote(&dst, wanted);
    let mut dst = fresh(room + 40);
    assert!(catch_unwind(AssertUnwindSafe(|| call(&mut dst[..room - 1]))).is_err());
    assert_wrote(&dst, &[]);
}
