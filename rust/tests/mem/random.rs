//! The checks and conversions of `mem` and `utf_8` compared with `std`, on random and damaged text.

use crate::common::*;
use encoding_text::mem::*;
use encoding_text::utf_8::*;

const ROUNDS: usize = 4000;

fn is_latin1(text: &str) -> bool {
    text.chars().all(|c| c <= '\u{FF}')
}

fn latin1_prefix_len(text: &str) -> usize {
    text.find(|c| c > '\u{FF}').unwrap_or(text.len())
}

#[test]
fn checks_of_bytes() {
    let mut random = Random::new(1);
    for _ in 0..ROUNDS {
        let bytes = random.bytes();
        let text = prefix(&bytes);
        let is_text = text.len() == bytes.len();
        assert_eq!(is_ascii(&bytes), bytes.is_ascii());
        assert_eq!(is_utf8_latin1(&bytes), is_text && is_latin1(text));
        assert_eq!(utf8_latin1_up_to(&bytes), latin1_prefix_len(text));
        assert_eq!(is_str_latin1(text), is_latin1(text));
        assert_eq!(str_latin1_up_to(text), latin1_prefix_len(text));
    }
}

#[test]
fn checks_of_units() {
    let mut random = Random::new(2);
    for _ in 0..ROUNDS {
        let mut units = random.units();
        assert_eq!(is_basic_latin(&units), units.iter().all(|u| *u < 0x80));
        assert_eq!(is_utf16_latin1(&units), units.iter().all(|u| *u < 0x100));
        assert_eq!(utf16_valid_up_to(&units), valid_units(&units));
        let repaired: Vec<u16> = String::from_utf16_lossy(&units).encode_utf16().collect();
        ensure_utf16_validity(&mut units);
        assert_eq!(units, repaired);
    }
}

#[test]
fn copies() {
    let mut random = Random::new(3);
    for _ in 0..ROUNDS {
        let bytes = random.bytes();
        let length = bytes.iter().position(|b| *b >= 0x80).unwrap_or(bytes.len());
        let room = bytes.len() + random.below(40);
        let mut dst = bytes_of(&mut random, room);
        assert_eq!(copy_ascii_to_ascii(&bytes, dst.dst()), length);
        assert_eq!(dst.written(length), &bytes[..length]);
        let mut dst = units_of(&mut random, room);
        assert_eq!(copy_ascii_to_basic_latin(&bytes, dst.dst()), length);
        assert!(dst
            .written(length)
            .iter()
            .copied()
            .eq(bytes[..length].iter().map(|b| u16::from(*b))));
        let units: Vec<u16> = random.units();
        let length = units.iter().position(|u| *u >= 0x80).unwrap_or(units.len());
        let mut dst = bytes_of(&mut random, units.len());
        assert_eq!(copy_basic_latin_to_ascii(&units, dst.dst()), length);
        assert!(units[..length]
            .iter()
            .copied()
            .eq(dst.written(length).iter().map(|b| u16::from(*b))));
    }
}

#[test]
fn to_utf16() {
    let mut random = Random::new(4);
    for _ in 0..ROUNDS {
        let bytes = random.bytes();
        let text = prefix(&bytes);
        let repaired: Vec<u16> = String::from_utf8_lossy(&bytes).encode_utf16().collect();
        let units: Vec<u16> = text.encode_utf16().collect();
        let more = random.below(40);
        let mut dst = units_of(&mut random, bytes.len() + 1 + more);
        let written = convert_utf8_to_utf16(&bytes, dst.dst());
        assert_eq!(dst.written(written), repaired);
        let mut dst = units_of(&mut random, text.len() + more);
        let written = convert_str_to_utf16(text, dst.dst());
        assert_eq!(dst.written(written), units);
        let mut dst = units_of(&mut random, bytes.len() + more);
        let written = convert_utf8_to_utf16_without_replacement(&bytes, dst.dst());
        assert_eq!(written, (text.len() == bytes.len()).then_some(units.len()));
        assert_eq!(dst.written(units.len()), units);
        let mut dst = units_of(&mut random, bytes.len() + more);
        convert_latin1_to_utf16(&bytes, dst.dst());
        assert!(dst
            .written(bytes.len())
            .iter()
            .copied()
            .eq(bytes.iter().map(|b| u16::from(*b))));
    }
}

#[test]
fn from_utf16() {
    let mut random = Random::new(5);
    for _ in 0..ROUNDS {
        let units = random.units();
        let repaired = String::from_utf16_lossy(&units);
        let more = random.below(40);
        let mut dst = bytes_of(&mut random, 3 * units.len() + more);
        let written = convert_utf16_to_utf8(&units, dst.dst());
        assert_eq!(dst.written(written), repaired.as_bytes());
        let room = random.below(repaired.len() + 8);
        let (read, text) = longest(characters(&units), room);
        let mut dst = bytes_of(&mut random, room);
        assert_eq!(convert_utf16_to_utf8_partial(&units, dst.dst()), (read, text.len()));
        assert_eq!(dst.written(text.len()), text.as_bytes());
        let mut dst = bytes_of(&mut random, units.len() + more);
        convert_utf16_to_latin1_lossy(&units, dst.dst());
        assert!(units
            .iter()
            .map(|u| *u as u8)
            .eq(dst.written(units.len()).iter().copied()));
    }
}

#[test]
fn from_latin1() {
    let mut random = Random::new(6);
    for _ in 0..ROUNDS {
        let latin1 = random.latin1();
        let text: String = latin1.iter().map(|b| char::from(*b)).collect();
        let more = random.below(40);
        let mut dst = bytes_of(&mut random, 2 * latin1.len() + more);
        let written = convert_latin1_to_utf8(&latin1, dst.dst());
        assert_eq!(dst.written(written), text.as_bytes());
        let room = random.below(text.len() + 8);
        let (read, partial) = longest(latin1.iter().map(|b| (1, char::from(*b))), room);
        let mut dst = bytes_of(&mut random, room);
        assert_eq!(
            convert_latin1_to_utf8_partial(&latin1, dst.dst()),
            (read, partial.len())
        );
        assert_eq!(dst.written(partial.len()), partial.as_bytes());
        let mut dst = bytes_of(&mut random, text.len() + more);
        let written = convert_utf8_to_latin1_lossy(text.as_bytes(), dst.dst());
        assert_eq!(dst.written(written), latin1);
    }
}

/// Returns a text after a conversion into it: `zeros` bytes after what is written become zero, and then the
/// continuation bytes that follow.
fn following(before: &str, written: usize, zeros: usize) -> Vec<u8> {
    let mut after = before.as_bytes()[written..].to_vec();
    let zeros = zeros.min(after.len());
    let end = (zeros..after.len())
        .find(|place| before.is_char_boundary(written + place))
        .unwrap_or(after.len());
    after[..end].fill(0);
    after
}

#[test]
fn into_text() {
    let mut random = Random::new(7);
    for _ in 0..ROUNDS {
        let before = random.text(6);
        let (units, latin1) = (random.units(), random.latin1());
        let (read, text) = longest(characters(&units), before.len());
        let mut dst = before.clone();
        assert_eq!(convert_utf16_to_str_partial(&units, &mut dst), (read, text.len()));
        assert_eq!(
            dst.as_bytes(),
            [text.as_bytes(), &following(&before, text.len(), 0)].concat()
        );
        assert!(std::str::from_utf8(dst.as_bytes()).is_ok());
        if 3 * units.len() <= before.len() {
            let mut again = before.clone();
            assert_eq!(convert_utf16_to_str(&units, &mut again), text.len());
            assert_eq!(again, dst);
        }
        let (read, text) = longest(latin1.iter().map(|b| (1, char::from(*b))), before.len());
        let mut dst = before.clone();
        assert_eq!(convert_latin1_to_str_partial(&latin1, &mut dst), (read, text.len()));
        assert_eq!(
            dst.as_bytes(),
            [text.as_bytes(), &following(&before, text.len(), 16)].concat()
        );
        assert!(std::str::from_utf8(dst.as_bytes()).is_ok());
        if 2 * latin1.len() <= before.len() {
            let mut again = before.clone();
            assert_eq!(convert_latin1_to_str(&latin1, &mut again), text.len());
            assert_eq!(again, dst);
        }
    }
}

#[cfg(feature = "alloc")]
#[test]
fn owned() {
    use std::borrow::Cow;
    let mut random = Random::new(8);
    for _ in 0..ROUNDS {
        let latin1 = random.latin1();
        let text: String = latin1.iter().map(|b| char::from(*b)).collect();
        let decoded = decode_latin1(&latin1);
        let encoded = encode_latin1_lossy(&text);
        assert_eq!(decoded, text);
        assert_eq!(encoded, latin1);
        assert_eq!(matches!(decoded, Cow::Borrowed(_)), latin1.is_ascii());
        assert_eq!(matches!(encoded, Cow::Borrowed(_)), latin1.is_ascii());
        if let (Cow::Borrowed(decoded), Cow::Borrowed(encoded)) = (decoded, encoded) {
            assert_eq!(decoded.as_ptr(), latin1.as_ptr());
            assert_eq!(encoded.as_ptr(), text.as_ptr());
        }
    }
}

#[test]
fn prefixes() {
    let mut random = Random::new(31);
    for _ in 0..4000 {
        let bytes = random.bytes();
        assert_eq!(utf8_valid_up_to(&bytes), prefix(&bytes).len());
    }
}

/// Every two bytes, and every lead byte followed by edges.
#[test]
fn short_sequences() {
    const EDGES: [u8; 12] = [0x00, 0x7F, 0x80, 0x8F, 0x90, 0x9F, 0xA0, 0xBF, 0xC0, 0xC2, 0xED, 0xFF];
    for first in 0..=u8::MAX {
        for second in 0..=u8::MAX {
            assert_eq!(utf8_valid_up_to(&[first, second]), prefix(&[first, second]).len());
            for third in EDGES {
                for fourth in EDGES {
                    let bytes = [first, second, third, fourth];
                    assert_eq!(utf8_valid_up_to(&bytes), prefix(&bytes).len(), "{bytes:x?}");
                }
            }
        }
    }
}

#[test]
fn to_utf16_up_to_invalid() {
    let mut random = Random::new(32);
    for _ in 0..4000 {
        let bytes = random.bytes();
        let room = random.below(bytes.len() + 8);
        let mut units = Vec::new();
        let mut read = 0;
        for c in prefix(&bytes).chars().take_while(|c| {
            read += c.len_utf16();
            read <= room
        }) {
            units.extend_from_slice(c.encode_utf16(&mut [0; 2]));
        }
        let read = String::from_utf16(&units).unwrap().len();
        let mut dst = units_of(&mut random, room);
        assert_eq!(
            convert_utf8_to_utf16_up_to_invalid(&bytes, dst.dst()),
            (read, units.len())
        );
        assert_eq!(dst.written(units.len()), units);
    }
}

#[test]
fn partial() {
    let mut random = Random::new(33);
    for _ in 0..4000 {
        let units = random.units();
        let repaired = String::from_utf16_lossy(&units);
        let room = random.below(repaired.len() + 8);
        let mut dst = bytes_of(&mut random, room);
        let (read, written) = convert_utf16_to_utf8_partial_inner(&units, dst.dst());
        assert!(read == units.len() || room - written <= 3);
        let whole: String = characters(&units)
            .iter()
            .scan(0, |at, (units, c)| {
                let is_read = *at < read;
                *at += units;
                is_read.then_some(*c)
            })
            .collect();
        assert_eq!(dst.written(written), whole.as_bytes());
        if !units.is_empty() {
            let room = random.below(4);
            let (read, text) = longest(characters(&units), room);
            let mut dst = bytes_of(&mut random, room);
            assert_eq!(
                convert_utf16_to_utf8_partial_tail(&units, dst.dst()),
                (read, text.len())
            );
            assert_eq!(dst.written(text.len()), text.as_bytes());
        }
    }
}

/// Entries without a common bit mean sequences, of three bytes and of four.
#[test]
fn table() {
    let table = &UTF8_DATA.table;
    for lead in 0x80..=u8::MAX {
        for second in 0..=u8::MAX {
            let is_met = table[usize::from(second)] & table[usize::from(lead) + 0x80] == 0;
            let sequence: &[u8] = match lead {
                0xE0..=0xEF => &[lead, second, 0x80],
                0xF0.. => &[lead, second, 0x80, 0x80],
                _ => &[lead, second],
            };
            assert_eq!(
                is_met,
                std::str::from_utf8(sequence).is_ok_and(|text| text.chars().count() == 1),
                "{sequence:x?}"
            );
        }
    }
    assert!(table.iter().all(|entry| entry & 3 == 0));
    assert_eq!(&raw const UTF8_DATA as usize % 64, 0);
}
