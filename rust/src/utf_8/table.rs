//! Which second bytes may follow which first bytes, as bits of a table.

/// An entry for each second byte, followed by one for each first byte from 0x80 on. An entry uses the bits above the
/// two lowest. A byte may follow the first byte of a sequence of three or four if and only if their entries have no bit
/// in common.
#[repr(align(64))]
pub struct Utf8Data {
    /// The entries.
    pub table: [u8; 384],
}

/// The entries, which the crate computes from the ranges of second bytes in Table 3-7 of the Unicode Standard.
///
/// They are tested against well-formedness, and not proved: the library has a table of its own.
pub static UTF8_DATA: Utf8Data = Utf8Data { table: entries() };

/// Not the first byte of a sequence of several bytes.
const NEVER: u8 = 0x04;
/// Any continuation byte may follow.
const ANY: u8 = 0x08;
/// This and the next three: first bytes that only some continuation bytes may follow.
const E0: u8 = 0x10;
const ED: u8 = 0x20;
const F0: u8 = 0x40;
const F4: u8 = 0x80;

const fn second_entry(byte: u8) -> u8 {
    match byte {
        0x80..=0x8F => NEVER | E0 | F0,
        0x90..=0x9F => NEVER | E0 | F4,
        0xA0..=0xBF => NEVER | ED | F4,
        _ => NEVER | ANY | E0 | ED | F0 | F4,
    }
}

const fn first_entry(byte: u8) -> u8 {
    match byte {
        0xE0 => E0,
        0xED => ED,
        0xF0 => F0,
        0xF4 => F4,
        0xC2..=0xDF | 0xE1..=0xEF | 0xF1..=0xF3 => ANY,
        _ => NEVER,
    }
}

const fn entries() -> [u8; 384] {
    let mut table = [0; 384];
    let mut place = 0;
    while place < 256 {
        table[place] = second_entry(place as u8);
        if place >= 0x80 {
            table[place + 0x80] = first_entry(place as u8);
        }
        place += 1;
    }
    table
}
