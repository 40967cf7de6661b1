//! UTF-16LE and UTF-16BE, compared with `std`: every length of source and destination, and every value of a byte.

use encoding_text::utf_16::{decode_utf16_bytes, encode_utf16_bytes, ByteOrder};

const ORDERS: [ByteOrder; 2] = [ByteOrder::LittleEndian, ByteOrder::BigEndian];

/// Returns the code unit of each two bytes, by `std`.
fn units(order: ByteOrder, bytes: &[u8]) -> Vec<u16> {
    let unit = match order {
        ByteOrder::LittleEndian => u16::from_le_bytes,
        ByteOrder::BigEndian => u16::from_be_bytes,
    };
    bytes.chunks_exact(2).map(|pair| unit([pair[0], pair[1]])).collect()
}

/// The length of the longest source, in code units: longer than a vector of 64 lanes.
const LONGEST: usize = 70;

/// Different bytes, so that two swapped ones show.
fn bytes(length: usize) -> Vec<u8> {
    (0..length).map(|i| (i * 37 + 11) as u8).collect()
}

#[test]
fn every_length() {
    for order in ORDERS {
        for length in 0..2 * LONGEST + 2 {
            let src = bytes(length);
            let all = units(order, &src);
            for room in 0..LONGEST + 2 {
                let count = all.len().min(room);
                let mut dst = vec![0xFFFF; room];
                assert_eq!(
                    decode_utf16_bytes(order, &src, &mut dst),
                    (2 * count, count),
                    "{order:?} {length} {room}"
                );
                assert_eq!(dst[..count], all[..count], "{order:?} {length} {room}");
                assert!(
                    dst[count..].iter().all(|unit| *unit == 0xFFFF),
                    "{order:?} {length} {room}"
                );

                let (read, mut back) = (all.len().min(room / 2), vec![0xFF; room]);
                assert_eq!(
                    encode_utf16_bytes(order, &all, &mut back),
                    (read, 2 * read),
                    "{order:?} {length} {room}"
                );
                assert_eq!(back[..2 * read], src[..2 * read], "{order:?} {length} {room}");
                assert!(
                    back[2 * read..].iter().all(|byte| *byte == 0xFF),
                    "{order:?} {length} {room}"
                );
            }
        }
    }
}

#[test]
fn every_code_unit() {
    let all: Vec<u16> = (0..=0xFFFF).collect();
    for order in ORDERS {
        let mut bytes = vec![0; 2 * all.len()];
        assert_eq!(encode_utf16_bytes(order, &all, &mut bytes), (all.len(), bytes.len()));
        assert_eq!(units(order, &bytes), all);
        let mut dst = vec![0; all.len()];
        assert_eq!(decode_utf16_bytes(order, &bytes, &mut dst), (bytes.len(), all.len()));
        assert_eq!(dst, all);
    }
}
