//! Random text, damaged text and code units, from a generator with a fixed seed.
#![allow(dead_code)]

pub mod long_texts;
pub mod rows;
pub mod runs;
pub mod text_destinations;
pub mod vectors;
pub mod walk;

use encoding_text::mem::Latin1Bidi;

/// Splitmix64.
pub struct Random(u64);

/// Characters at the edges of the ranges that take one, two, three and four bytes, of Latin1, and of right-to-left
/// blocks.
const EDGES: [char; 32] = [
    '\0',
    '\u{1B}',
    'a',
    '\u{7F}',
    '\u{80}',
    'é',
    '\u{FF}',
    '\u{100}',
    '\u{58F}',
    '\u{590}',
    'א',
    '\u{7FF}',
    '\u{800}',
    '\u{8FF}',
    '\u{900}',
    '\u{200F}',
    '\u{202B}',
    '☃',
    '\u{D7FF}',
    '\u{E000}',
    '\u{FB1C}',
    '\u{FB1D}',
    '\u{FDFF}',
    '\u{FE70}',
    '\u{FEFF}',
    '\u{FFFD}',
    '\u{FFFF}',
    '\u{10000}',
    '\u{10800}',
    '😀',
    '\u{1E800}',
    '\u{10FFFF}',
];

impl Random {
    pub fn new(seed: u64) -> Random {
        Random(seed)
    }

    pub fn next(&mut self) -> u64 {
        self.0 = self.0.wrapping_add(0x9E37_79B9_7F4A_7C15);
        let mut z = self.0;
        z = (z ^ (z >> 30)).wrapping_mul(0xBF58_476D_1CE4_E5B9);
        z = (z ^ (z >> 27)).wrapping_mul(0x94D0_49BB_1331_11EB);
        z ^ (z >> 31)
    }

    /// Returns a number below the bound, or 0 if that is 0.
    pub fn below(&mut self, bound: usize) -> usize {
        (self.next() % bound.max(1) as u64) as usize
    }

    /// Returns a number up to the bound, small ones far more often.
    pub fn length(&mut self, most: usize) -> usize {
        let bound = 1 << self.below(usize::BITS as usize - most.leading_zeros() as usize + 1);
        self.below(bound).min(most)
    }

    /// Returns text of runs of one kind: ASCII, Latin1, two, three or four bytes a character, edges.
    pub fn text(&mut self, most_runs: usize) -> String {
        let mut text = String::new();
        for _ in 0..self.below(most_runs + 1) {
            let kind = self.below(7);
            for _ in 0..self.length(90) {
                let drawn = self.next() as u32;
                let scalar = match kind {
                    0 | 1 => drawn % 0x80,
                    2 => drawn % 0x100,
                    3 => 0x400 + drawn % 0x100,
                    4 => 0x4E00 + drawn % 0x5000,
                    5 => 0x1F300 + drawn % 0x300,
                    _ => EDGES[drawn as usize % EDGES.len()] as u32,
                };
                text.push(char::from_u32(scalar).unwrap());
            }
        }
        text
    }

    /// Returns text of Latin1, half of it ASCII.
    pub fn latin1(&mut self) -> Vec<u8> {
        let bound = if self.below(2) == 0 { 0x80 } else { 0x100 };
        (0..self.length(300)).map(|_| self.below(bound) as u8).collect()
    }

    /// Returns well-formed, damaged or random bytes.
    pub fn bytes(&mut self) -> Vec<u8> {
        let mut bytes = self.text(4).into_bytes();
        match self.below(4) {
            0 => {}
            1 => bytes = (0..self.length(300)).map(|_| self.next() as u8).collect(),
            _ => {
                for _ in 0..=self.below(4) {
                    let place = self.below(bytes.len());
                    match self.below(3) {
                        0 if !bytes.is_empty() => bytes[place] = self.next() as u8,
                        1 if !bytes.is_empty() => drop(bytes.remove(place)),
                        _ => bytes.truncate(place),
                    }
                }
            }
        }
        bytes
    }

    /// Returns code units of text, sometimes with unpaired surrogates.
    pub fn units(&mut self) -> Vec<u16> {
        let mut units: Vec<u16> = self.text(4).encode_utf16().collect();
        if self.below(2) == 0 {
            for _ in 0..=self.below(4) {
                let place = self.below(units.len() + 1);
                units.insert(place, 0xD800 + self.below(0x800) as u16);
            }
        }
        units
    }
}

/// A destination of a given length between other elements, which are checked when it is dropped.
pub struct Framed<T: Copy + PartialEq + std::fmt::Debug> {
    all: Vec<T>,
    before: Vec<T>,
    start: usize,
    end: usize,
    kept_from: usize,
}

impl<T: Copy + PartialEq + std::fmt::Debug> Framed<T> {
    /// Creates a destination with random elements everywhere, made by the function.
    pub fn new(random: &mut Random, length: usize, element: impl Fn(u64) -> T) -> Framed<T> {
        let start = random.below(40);
        let all: Vec<T> = (0..start + length + 40).map(|_| element(random.next())).collect();
        Framed {
            before: all.clone(),
            all,
            start,
            end: start + length,
            kept_from: start + length,
        }
    }

    pub fn dst(&mut self) -> &mut [T] {
        &mut self.all[self.start..self.end]
    }

    /// Returns the first `count` elements. Those after them have to be unchanged.
    pub fn written(&mut self, count: usize) -> &[T] {
        assert!(count <= self.end - self.start);
        self.kept_from = self.start + count;
        &self.all[self.start..self.kept_from]
    }
}

impl<T: Copy + PartialEq + std::fmt::Debug> Drop for Framed<T> {
    fn drop(&mut self) {
        if !std::thread::panicking() {
            assert_eq!(
                self.all[..self.start],
                self.before[..self.start],
                "before the destination"
            );
            assert_eq!(
                self.all[self.kept_from..],
                self.before[self.kept_from..],
                "after what is written"
            );
        }
    }
}

pub fn bytes_of(random: &mut Random, length: usize) -> Framed<u8> {
    Framed::new(random, length, |drawn| drawn as u8)
}

pub fn units_of(random: &mut Random, length: usize) -> Framed<u16> {
    Framed::new(random, length, |drawn| drawn as u16)
}

/// Returns the well-formed prefix by `std`.
pub fn prefix(bytes: &[u8]) -> &str {
    match std::str::from_utf8(bytes) {
        Ok(text) => text,
        Err(error) => std::str::from_utf8(&bytes[..error.valid_up_to()]).unwrap(),
    }
}

/// Returns the index of the first unpaired surrogate, or the length, by `std`.
pub fn valid_units(units: &[u16]) -> usize {
    char::decode_utf16(units.iter().copied())
        .map_while(|it| it.ok())
        .map(char::len_utf16)
        .sum()
}

/// Returns how much is read and the text that is written if as many characters as fit go into `room` bytes.
pub fn longest(characters: impl IntoIterator<Item = (usize, char)>, room: usize) -> (usize, String) {
    let mut read = 0;
    let mut text = String::new();
    for (units, character) in characters {
        if text.len() + character.len_utf8() > room {
            break;
        }
        read += units;
        text.push(character);
    }
    (read, text)
}

/// Returns the characters of code units with U+FFFD for each unpaired surrogate, and the number of units of each.
pub fn characters(units: &[u16]) -> Vec<(usize, char)> {
    char::decode_utf16(units.iter().copied())
        .map(|it| it.map_or((1, '\u{FFFD}'), |character| (character.len_utf16(), character)))
        .collect()
}

/// Returns whether the character is in a block of a right-to-left script, or a control that makes what follows
/// right-to-left.
pub fn is_right_to_left(c: char) -> bool {
    matches!(c, '\u{590}'..='\u{8FF}' | '\u{FB1D}'..='\u{FDFF}' | '\u{FE70}'..='\u{FEFE}' | '\u{10800}'..='\u{10FFF}'
        | '\u{1E800}'..='\u{1EFFF}' | '\u{200F}' | '\u{202B}' | '\u{202E}' | '\u{2067}')
}

/// Returns whether the unit is a right-to-left character, or a high surrogate of the two ranges above U+FFFF.
pub fn is_unit_right_to_left(u: u16) -> bool {
    char::from_u32(u.into()).is_some_and(is_right_to_left) || matches!(u, 0xD802 | 0xD803 | 0xD83A | 0xD83B)
}

/// Returns the class of a text by whether it is Latin1 and whether it is right-to-left or malformed.
pub fn class_of(is_latin1: bool, is_bidi: bool) -> Latin1Bidi {
    match (is_latin1, is_bidi) {
        (true, _) => Latin1Bidi::Latin1,
        (_, true) => Latin1Bidi::Bidi,
        _ => Latin1Bidi::LeftToRight,
    }
}
