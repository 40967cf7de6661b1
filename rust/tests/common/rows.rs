//! Rows of text: fields between bars, of words between spaces, which are hexadecimal. And the units that surround a
//! source and what is written.
use std::fmt::Debug;

/// A byte or a code unit.
pub trait Unit: Copy + PartialEq + Debug {
    /// Starts a character.
    const BEFORE: Self;
    /// Ends a truncated character.
    const AFTER: Self;
    /// Fills a destination. No row writes it.
    const UNWRITTEN: Self;
    /// Follows what is written into a text.
    const ZERO: Self;

    /// Returns the unit that a word names.
    fn named(word: &str) -> Self;
}

impl Unit for u8 {
    const BEFORE: u8 = 0xC3;
    const AFTER: u8 = 0x83;
    const UNWRITTEN: u8 = 0x71;
    const ZERO: u8 = 0;

    fn named(word: &str) -> u8 {
        u8::from_str_radix(word, 16).unwrap()
    }
}

impl Unit for u16 {
    const BEFORE: u16 = 0xD83D;
    const AFTER: u16 = 0xDCA9;
    const UNWRITTEN: u16 = 0x71;
    const ZERO: u16 = 0;

    fn named(word: &str) -> u16 {
        u16::from_str_radix(word, 16).unwrap()
    }
}

/// A character or a malformed sequence: the units that are read and those that are written.
pub struct Item<S, D> {
    pub read: Vec<S>,
    pub written: Vec<D>,
}

/// Returns the two fields of a row.
pub fn fields(row: &str) -> (&str, &str) {
    row.split_once('|').unwrap()
}

/// Returns the bytes or code units that a field names.
pub fn named<T: Unit>(field: &str) -> Vec<T> {
    field.split_whitespace().map(T::named).collect()
}

/// Parses rows of two fields: what is read, and what is written.
pub fn items<S: Unit, D: Unit>(rows: &str) -> Vec<Item<S, D>> {
    let item = |row| {
        let (read, written) = fields(row);
        Item {
            read: named(read),
            written: named(written),
        }
    };
    rows.lines().map(item).collect()
}

/// Parses rows of two fields backwards: what is written, and what is read.
pub fn items_backwards<S: Unit, D: Unit>(rows: &str) -> Vec<Item<S, D>> {
    let turned = |item: Item<D, S>| Item {
        read: item.written,
        written: item.read,
    };
    items(rows).into_iter().map(turned).collect()
}

/// Returns `count` fillers, with `before` of them before the edge and the others after it.
pub fn around<T: Copy>(filler: &[T], count: usize, before: usize, edge: &[T]) -> Vec<T> {
    (0..=count)
        .flat_map(|i| if i == before { edge } else { filler })
        .copied()
        .collect()
}

/// Asserts that these units are at index `at`, and that what is unwritten is before and after them.
pub fn assert_written<T: Unit>(wanted: &[T], at: usize, dst: &[T]) {
    let (before, rest) = dst.split_at(at);
    let (written, following) = rest.split_at(wanted.len());
    assert_eq!(written, wanted);
    assert!(before.iter().all(|unit| *unit == T::UNWRITTEN), "before: {before:x?}");
    assert!(
        following.iter().all(|unit| *unit == T::UNWRITTEN),
        "after: {following:x?}"
    );
}
