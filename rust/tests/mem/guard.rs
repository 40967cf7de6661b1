//! Every call between pages that may not be accessed: sources and destinations end at one, or start after one, so that
//! a byte read or written outside of them ends the test.

use crate::common::{prefix, Random};
use encoding_text::{ascii::*, mem::*, utf_8::*};
use encoding_text::{repair, repair_slice_partial, repair_to, utf8_chunks, DecodeUtf16, Repair, Utf8Decoder};
use std::io::Read;
use std::ptr;

extern "C" {
    fn mmap(address: *mut u8, length: usize, protection: i32, flags: i32, file: i32, offset: i64) -> *mut u8;
    fn mprotect(address: *mut u8, length: usize, protection: i32) -> i32;
    fn munmap(address: *mut u8, length: usize) -> i32;
}

const PAGE: usize = 4096;
const ACCESSIBLE: usize = 2 * PAGE;
const READ_AND_WRITE: i32 = 3;
const PRIVATE_AND_ANONYMOUS: i32 = 0x22;

/// Two pages between two that may not be accessed.
struct Fenced(*mut u8);

impl Fenced {
    fn new() -> Fenced {
        // SAFETY: new memory is requested, and its two middle pages are made readable and writable.
        unsafe {
            let start = mmap(ptr::null_mut(), ACCESSIBLE + 2 * PAGE, 0, PRIVATE_AND_ANONYMOUS, -1, 0);
            assert_ne!(start as isize, -1);
            assert_eq!(mprotect(start.add(PAGE), ACCESSIBLE, READ_AND_WRITE), 0);
            Fenced(start)
        }
    }

    /// Returns `length` elements at the end of the pages, or at their start.
    fn slice<T: Copy + Default>(&mut self, length: usize, at_end: bool) -> &mut [T] {
        let size = length * size_of::<T>();
        assert!(size <= ACCESSIBLE);
        let offset = if at_end { ACCESSIBLE - size } else { 0 };
        // SAFETY: they are within the two pages, whose borrow is unique, and any bytes are valid numbers. The length of
        // two pages and that of the elements are multiples of their alignment.
        unsafe { std::slice::from_raw_parts_mut(self.0.add(PAGE + offset).cast(), length) }
    }

    fn copy<T: Copy + Default>(&mut self, of: &[T], at_end: bool) -> &[T] {
        let slice = self.slice(of.len(), at_end);
        slice.copy_from_slice(of);
        slice
    }
}

impl Drop for Fenced {
    fn drop(&mut self) {
        // SAFETY: it is the memory that `new` requested, and nobody borrows it.
        unsafe { munmap(self.0, ACCESSIBLE + 2 * PAGE) };
    }
}

/// Makes calls over a source and a destination in pages of their own, from and to both ends.
fn between(random: &mut Random, rounds: usize, call: impl Fn(&mut Random, &mut Fenced, &mut Fenced, bool, bool)) {
    let (mut src, mut dst) = (Fenced::new(), Fenced::new());
    for round in 0..rounds {
        call(random, &mut src, &mut dst, round & 1 == 0, round & 2 == 0);
    }
}

#[test]
fn bytes() {
    between(&mut Random::new(81), 4000, |random, src, dst, at_end, to_end| {
        let bytes = random.bytes();
        let bytes = src.copy(&bytes, at_end);
        let n = bytes.len();
        let text = prefix(bytes);
        let _ = (
            validate_ascii(bytes),
            ascii_valid_up_to(bytes),
            iso_2022_jp_ascii_valid_up_to(bytes),
        );
        let _ = (
            is_ascii(bytes),
            is_utf8_latin1(bytes),
            utf8_latin1_up_to(bytes),
            is_utf8_bidi(bytes),
        );
        let _ = (
            is_str_latin1(text),
            str_latin1_up_to(text),
            is_str_bidi(text),
            check_str_for_latin1_and_bidi(text),
        );
        let _ = (check_utf8_for_latin1_and_bidi(bytes), utf8_valid_up_to(bytes));
        let _ = (
            copy_ascii_to_ascii(bytes, dst.slice(n, to_end)),
            copy_ascii_to_basic_latin(bytes, dst.slice(n, to_end)),
        );
        convert_latin1_to_utf16(bytes, dst.slice(n, to_end));
        convert_latin1_to_utf8(bytes, dst.slice(2 * n, to_end));
        convert_utf8_to_utf16(bytes, dst.slice(n + 1, to_end));
        convert_str_to_utf16(text, dst.slice(text.len(), to_end));
        convert_utf8_to_utf16_without_replacement(bytes, dst.slice(n, to_end));
        let latin1 = &bytes[..utf8_latin1_up_to(bytes)];
        convert_utf8_to_latin1_lossy(latin1, dst.slice(latin1.len(), to_end));
        let room = random.below(n + 20);
        let _ = (
            ascii_to_ascii(bytes, dst.slice(room, to_end)),
            ascii_to_basic_latin(bytes, dst.slice(room, to_end)),
        );
        convert_latin1_to_utf8_partial(bytes, dst.slice(room, to_end));
        convert_utf8_to_utf16_up_to_invalid(bytes, dst.slice(room, to_end));
        convert_utf8_to_utf16_partial(bytes, dst.slice(room, to_end));
        repair_slice_partial(bytes, dst.slice(room, to_end));
        let mut decoder = Utf8Decoder::new_inner();
        let _ = decoder.decode_to_utf16_raw(bytes, dst.slice(room, to_end), false);
        let _ = decoder.decode_to_utf8_raw(bytes, dst.slice(room, to_end), false);
        let _ = decoder.decode_borrowed(bytes, true);
    });
}

#[test]
fn units() {
    between(&mut Random::new(82), 4000, |random, src, dst, at_end, to_end| {
        let units = random.units();
        let units = src.copy(&units, at_end);
        let n = units.len();
        let _ = (
            is_basic_latin(units),
            is_utf16_latin1(units),
            utf16_valid_up_to(units),
            is_utf16_bidi(units),
        );
        let _ = check_utf16_for_latin1_and_bidi(units);
        copy_basic_latin_to_ascii(units, dst.slice(n, to_end));
        convert_utf16_to_latin1_lossy(units, dst.slice(n, to_end));
        convert_utf16_to_utf8(units, dst.slice(3 * n, to_end));
        let room = random.below(3 * n + 20);
        let _ = basic_latin_to_ascii(units, dst.slice(room, to_end));
        convert_utf16_to_utf8_partial(units, dst.slice(room, to_end));
        convert_utf16_to_utf8_partial_inner(units, dst.slice(room, to_end));
        if n > 0 {
            convert_utf16_to_utf8_partial_tail(units, dst.slice(room % 4, to_end));
        }
        let _ = Utf8Encoder::new_inner().encode_from_utf16_raw(units, dst.slice(room, to_end), true);
        let copied = dst.slice(n, to_end);
        copied.copy_from_slice(units);
        ensure_utf16_validity(copied);
    });
}

#[test]
fn texts() {
    between(&mut Random::new(83), 4000, |random, src, dst, at_end, to_end| {
        let before = random.text(6);
        let (units, latin1) = (random.units(), random.latin1());
        let into = dst.slice(before.len(), to_end);
        into.copy_from_slice(before.as_bytes());
        let into = std::str::from_utf8_mut(into).unwrap();
        convert_utf16_to_str_partial(src.copy(&units, at_end), into);
        convert_latin1_to_str_partial(src.copy(&latin1, at_end), into);
        let text = src.copy(before.as_bytes(), at_end);
        let text = prefix(text);
        let room = random.below(before.len() + 20);
        let _ = Utf8Encoder::new_inner().encode_from_utf8_raw(text, dst.slice(room, to_end), true);
    });
}

#[test]
fn owned_and_streams() {
    // a reader without end fails the test instead of making it hang
    const TOO_MANY: usize = 1_000_000;
    between(&mut Random::new(84), 2000, |random, src, dst, at_end, to_end| {
        let bytes = random.bytes();
        let bytes = src.copy(&bytes, at_end);
        let wanted = String::from_utf8_lossy(bytes);
        assert_eq!(repair(bytes), wanted);
        assert!(repair_to(bytes, &mut Vec::new()).is_ok());
        assert_eq!(
            utf8_chunks(bytes)
                .map(|chunk| chunk.valid().len() + chunk.invalid().len())
                .sum::<usize>(),
            bytes.len()
        );
        assert_eq!(decode_latin1(bytes).chars().count(), bytes.len());
        let latin1 = &prefix(bytes)[..utf8_latin1_up_to(bytes)];
        assert_eq!(encode_latin1_lossy(latin1).len(), latin1.chars().count());
        let room = 1 + random.below(40);
        let mut reader = Repair::with_capacity(1 + random.below(99), bytes);
        assert!((0..TOO_MANY).any(|_| reader.read(dst.slice(room, to_end)).unwrap() == 0));
        let mut reader = DecodeUtf16::with_capacity(1 + random.below(99), bytes);
        assert!((0..TOO_MANY).any(|_| reader.read(dst.slice(room, to_end)).unwrap() == 0));
    });
}
