//! Random and damaged texts for comparing.

use crate::kinds::{text, Random, Source, KINDS};

/// Bytes at the edges of the ranges of well-formed sequences, of ASCII and its escapes, of right-to-left characters.
const BYTES: [u8; 42] = [
    0x00, 0x0E, 0x0F, 0x1B, 0x41, 0x7F, 0x80, 0x8F, 0x90, 0x9F, 0xA0, 0xA3, 0xA4, 0xAC, 0xAE, 0xB9, 0xBB, 0xBF, 0xC0,
    0xC1, 0xC2, 0xC3, 0xC4, 0xD6, 0xD7, 0xDF, 0xE0, 0xE1, 0xE2, 0xEC, 0xED, 0xEE, 0xEF, 0xF0, 0xF1, 0xF3, 0xF4, 0xF5,
    0xF8, 0xFC, 0xFE, 0xFF,
];

/// Scalar values at whose edges something changes: lengths in UTF-8 and UTF-16, Latin1, right-to-left ranges.
const SCALARS: [u32; 40] = [
    0x00, 0x7F, 0x80, 0xFF, 0x100, 0x58F, 0x590, 0x7FF, 0x800, 0x8FF, 0x900, 0xFFF, 0x1000, 0x200E, 0x200F, 0x202A,
    0x202B, 0x202E, 0x2066, 0x2067, 0xD7FF, 0xE000, 0xFB1C, 0xFB1D, 0xFDFF, 0xFE00, 0xFE6F, 0xFE70, 0xFEFE, 0xFEFF,
    0xFFFD, 0xFFFF, 0x10000, 0x107FF, 0x10800, 0x10FFF, 0x11000, 0x1E800, 0x1EFFF, 0x10FFFF,
];

/// Code units at such edges, mostly surrogates.
const UNITS: [u16; 26] = [
    0x00, 0x41, 0x7F, 0x80, 0xFF, 0x100, 0x590, 0x7FF, 0x800, 0x8FF, 0x200F, 0x202B, 0xD7FF, 0xD800, 0xD802, 0xD803,
    0xD83A, 0xD83B, 0xDBFF, 0xDC00, 0xDFFF, 0xE000, 0xFB1D, 0xFEFE, 0xFFFD, 0xFFFF,
];

fn one_of<T: Copy>(items: &[T], random: &mut Random) -> T {
    items[random.below(items.len() as u32) as usize]
}

/// Returns an index in a list of that length, its end included.
fn place(length: usize, random: &mut Random) -> usize {
    random.below(length as u32 + 1) as usize
}

/// Returns how long a text has to be: 0 to 300, and sometimes up to 5,000.
fn length(random: &mut Random) -> usize {
    let most = if random.below(64) == 0 { 5_000 } else { 300 };
    place(most, random)
}

/// Returns how many changes a text gets: mostly one, none, or some.
fn changes(random: &mut Random) -> usize {
    [0, 1, 1, 1, 2, 3, 8][random.below(7) as usize]
}

/// Returns a source: a text, its code units damaged separately, and its bytes as Latin1.
pub fn source(random: &mut Random) -> Source {
    let length = length(random);
    let bytes = if random.below(3) == 0 { whole(length, random) } else { damaged(length, random) };
    let mut units: Vec<u16> = String::from_utf8_lossy(&bytes).encode_utf16().collect();
    if random.below(8) == 0 {
        units.iter_mut().for_each(|unit| *unit = one_of(&UNITS, random));
    }
    for _ in 0..changes(random) {
        damage_units(&mut units, random);
    }
    let mut source = Source::of(bytes.clone(), units, bytes);
    let most = one_of(&[16, 400], random);
    source.piece = 1 + place(most, random);
    source
}

/// Returns a well-formed text: one of a kind, or characters at random, with some more inserted anywhere.
fn whole(length: usize, random: &mut Random) -> Vec<u8> {
    let mut characters: Vec<char> = match random.below(2) {
        0 => text(one_of(&KINDS, random), length, random).chars().collect(),
        _ => (0..length / 3).map(|_| character(random)).collect(),
    };
    for _ in 0..changes(random) {
        characters.insert(place(characters.len(), random), character(random));
    }
    characters.iter().collect::<String>().into_bytes()
}

/// Returns a text joined from others and changed anywhere.
fn damaged(length: usize, random: &mut Random) -> Vec<u8> {
    let mut bytes = plain(length, random);
    if random.below(4) == 0 {
        join(&mut bytes, length, random);
    }
    for _ in 0..changes(random) {
        damage(&mut bytes, random);
    }
    bytes
}

/// Returns a text of a kind, or bytes or sequences at random.
fn plain(length: usize, random: &mut Random) -> Vec<u8> {
    match random.below(8) {
        0 => (0..length).map(|_| random.below(256) as u8).collect(),
        1 => (0..length).map(|_| one_of(&BYTES, random)).collect(),
        2 | 3 => sequences(length, random),
        _ => text(one_of(&KINDS, random), length, random).into_bytes(),
    }
}

/// Returns runs of letters, characters at edges and of any kind, cut ones and edge bytes, joined.
fn sequences(length: usize, random: &mut Random) -> Vec<u8> {
    let mut bytes = Vec::new();
    while bytes.len() < length {
        match random.below(6) {
            0 => bytes.extend((0..random.below(40)).map(|i| b'a' + (i % 26) as u8)),
            1 => bytes.push(one_of(&BYTES, random)),
            2 => {
                let whole = character(random).to_string();
                bytes.extend(&whole.as_bytes()[..random.below(whole.len() as u32) as usize]);
            }
            _ => bytes.extend(character(random).to_string().as_bytes()),
        }
    }
    bytes
}

/// Returns a character near an edge, or any below a random bound.
fn character(random: &mut Random) -> char {
    let scalar = match random.below(2) {
        0 => one_of(&SCALARS, random).wrapping_add(random.below(3)).wrapping_sub(1),
        _ => {
            let bits = random.below(14);
            random.below(0x11_0000 >> bits)
        }
    };
    char::from_u32(scalar).unwrap_or('\u{FFFD}')
}

/// Joins a prefix of the text and the rest of another.
fn join(bytes: &mut Vec<u8>, length: usize, random: &mut Random) {
    bytes.truncate(place(bytes.len(), random));
    let other = plain(length, random);
    bytes.extend(&other[place(other.len(), random)..]);
}

/// Changes, flips, inserts or deletes a byte, or cuts the text.
fn damage(bytes: &mut Vec<u8>, random: &mut Random) {
    let at = place(bytes.len(), random);
    match random.below(6) {
        0 => bytes.insert(at, one_of(&BYTES, random)),
        1 if random.below(4) == 0 => bytes.truncate(at),
        _ if at == bytes.len() => bytes.push(one_of(&BYTES, random)),
        1 => drop(bytes.remove(at)),
        2 => bytes[at] ^= 1 << random.below(8),
        3 => bytes[at] = random.below(256) as u8,
        _ => bytes[at] = one_of(&BYTES, random),
    }
}

/// Changes, inserts or deletes a code unit.
fn damage_units(units: &mut Vec<u16>, random: &mut Random) {
    let at = place(units.len(), random);
    match random.below(4) {
        0 => units.insert(at, one_of(&UNITS, random)),
        _ if at == units.len() => units.push(one_of(&UNITS, random)),
        1 => drop(units.remove(at)),
        2 => units[at] = random.below(0x1_0000) as u16,
        _ => units[at] = one_of(&UNITS, random),
    }
}
