//! Checks of code units, and their repair, compared with plain loops: one or two among others of one kind at each
//! index, over each length, from each of sixteen offsets. And unpaired surrogates and pairs at each index of long
//! sources, over the boundaries of blocks of 64, and of the blocks that are checked for pairs after one with
//! surrogates.

use crate::common::{class_of, is_unit_right_to_left};
use encoding_text::mem::*;

/// The length of the array around the code units.
const ARRAY_LENGTH: usize = 160;

fn is_high(unit: u16) -> bool {
    unit & 0xFC00 == 0xD800
}

fn is_low(unit: u16) -> bool {
    unit & 0xFC00 == 0xDC00
}

/// Returns whether the code unit at an index is an unpaired surrogate.
fn is_unpaired(src: &[u16], place: usize) -> bool {
    let unit = src[place];
    if is_high(unit) {
        !src.get(place + 1).is_some_and(|next| is_low(*next))
    } else {
        is_low(unit) && !(place > 0 && is_high(src[place - 1]))
    }
}

/// Returns the index of the first of them, or the length.
fn first_unpaired(src: &[u16]) -> usize {
    (0..src.len())
        .find(|place| is_unpaired(src, *place))
        .unwrap_or(src.len())
}

/// Returns whether all checks agree with plain loops.
fn units_agree(src: &[u16]) -> bool {
    let is_latin1 = src.iter().all(|unit| *unit < 0x100);
    let is_bidi = src.iter().any(|unit| is_unit_right_to_left(*unit));
    utf16_valid_up_to(src) == first_unpaired(src)
        && is_basic_latin(src) == src.iter().all(|unit| *unit < 0x80)
        && is_utf16_latin1(src) == is_latin1
        && is_utf16_bidi(src) == is_bidi
        && check_utf16_for_latin1_and_bidi(src) == class_of(is_latin1, is_bidi)
}

/// Returns whether the repair of `length` code units replaces the unpaired surrogates among them, and nothing else in
/// the array.
fn repair_agrees(room: &[u16], from: usize, length: usize) -> bool {
    let end = from + length;
    let mut repaired = room.to_vec();
    ensure_utf16_validity(&mut repaired[from..end]);
    let src = &room[from..end];
    let wanted = |place| {
        if is_unpaired(src, place) {
            0xFFFD
        } else {
            src[place]
        }
    };
    repaired[..from] == room[..from]
        && (0..length).all(|place| repaired[from + place] == wanted(place))
        && repaired[end..] == room[end..]
}

/// Returns whether all calls agree, with the two at each index of `length` code units.
fn agree_at_each_place(from: usize, length: usize, others: [u16; 2], two: [u16; 2]) -> bool {
    let mut room = [0; ARRAY_LENGTH];
    for (place, unit) in room.iter_mut().enumerate() {
        *unit = others[place & 1];
    }
    (from..from + length).all(|at| {
        let mut seen = room;
        seen[at..at + 2].copy_from_slice(&two);
        units_agree(&seen[from..from + length]) && repair_agrees(&seen, from, length)
    })
}

/// Returns whether all calls agree, with the two at each index of each length.
fn agree_over_lengths(from: usize, others: [u16; 2], two: [u16; 2]) -> bool {
    (0..131).all(|length| agree_at_each_place(from, length, others, two))
}

#[test]
fn from_each_place_on() {
    for from in 0..16 {
        assert!(agree_over_lengths(from, [0x61, 0x61], [0xD83B, 0x61]), "{from}");
    }
}

/// The ends of ASCII, Latin1, the right-to-left ranges and the surrogates.
const EDGES: [u16; 24] = [
    0x80, 0xFF, 0x100, 0x58F, 0x590, 0x8FF, 0x900, 0x200F, 0x2014, 0x2067, 0xD7FF, 0xD801, 0xD802, 0xD83A, 0xD83C,
    0xDBFF, 0xDC00, 0xDFFF, 0xE000, 0xFB1C, 0xFB1D, 0xFEFE, 0xFEFF, 0xFFFF,
];

#[test]
fn each_edge_among_letters() {
    for (i, unit) in EDGES.iter().enumerate() {
        assert!(agree_over_lengths(i % 16, [0x61, 0x62], [*unit, 0x62]), "{unit:x}");
    }
}

/// Ideographs, pairs, and pairs with their halves swapped.
#[test]
fn among_other_units() {
    for others in [[0x6F22, 0x5B57], [0xD83D, 0xDE00], [0xDE00, 0xD83D]] {
        for two in [[0xD83D, 0xDC00], [0xDC00, 0xD83D], [0x5D0, 0x6F22]] {
            assert!(agree_over_lengths(2, others, two), "{others:x?}");
        }
    }
}

/// The most code units: more than a block with surrogates, the eight after it and one more.
const LONGEST: usize = 10 * 64 + 3;

/// The length of the array around them.
const LONG_ARRAY_LENGTH: usize = LONGEST + 8;

/// Letters, a pair among letters, and pairs, the first of them at index 0 or 1: the unit at an index.
const OTHERS: [fn(usize) -> u16; 4] = [
    |_| 0x61,
    |place| match place {
        3 => 0xD83D,
        4 => 0xDE00,
        _ => 0x61,
    },
    |place| if place % 2 == 0 { 0xD83D } else { 0xDE00 },
    |place| match place {
        0 => 0x61,
        _ if place % 2 == 1 => 0xD83D,
        _ => 0xDE00,
    },
];

/// Returns whether validity ends at the first unpaired surrogate of `length` code units, and the repair replaces only
/// the unpaired ones, with these at each index.
fn agree_at_each_long_place(others: fn(usize) -> u16, length: usize, units: &[u16]) -> bool {
    let room: [u16; LONG_ARRAY_LENGTH] = std::array::from_fn(others);
    (0..length).all(|place| {
        let mut seen = room;
        seen[place..place + units.len()].copy_from_slice(units);
        utf16_valid_up_to(&seen[..length]) == first_unpaired(&seen[..length]) && repair_agrees(&seen, 0, length)
    })
}

/// Lengths within two of each multiple of 64 and of one more than it.
#[test]
fn at_each_place_of_long_units() {
    let mut count = 0;
    for others in OTHERS {
        for length in (0..=LONGEST).filter(|length| (length + 2) % 64 < 6) {
            let agree = agree_at_each_long_place(others, length, &[0xD83D])
                && agree_at_each_long_place(others, length, &[0xDC00])
                && agree_at_each_long_place(others, length, &[0xD800, 0xDFFF])
                && agree_at_each_long_place(others, length, &[0xDC00, 0xDBFF]);
            assert!(agree, "{length}");
            count += 1;
        }
    }
    assert_eq!(count, 4 * 64);
}
