//! Conversions into a prefix of a text, over its bytes: those of the crate, which clears what follows by itself, and
//! those of `c/include/encoding_text.h`, which the crate doesn't call.

use encoding_text::mem::*;
use std::str::from_utf8_mut;

/// Calls that convert units of one kind into a text.
pub struct Calls<S> {
    /// Who defines them.
    pub owner: &'static str,
    /// Converts as many whole characters as fit, and returns how much is read and written.
    pub partial: fn(&[S], &mut [u8]) -> (usize, usize),
    /// Converts all, and returns the number of bytes written.
    pub whole: fn(&[S], &mut [u8]) -> usize,
    /// The most bytes that one unit becomes.
    pub most: usize,
    /// How many bytes after what is written become zero, before any that continued a character.
    pub zeros: usize,
}

pub const FROM_UTF16: [Calls<u16>; 2] = [
    Calls {
        owner: "the crate",
        partial: |src, dst| convert_utf16_to_str_partial(src, from_utf8_mut(dst).unwrap()),
        whole: |src, dst| convert_utf16_to_str(src, from_utf8_mut(dst).unwrap()),
        most: 3,
        zeros: 0,
    },
    Calls {
        owner: "the library",
        partial: library_utf16_to_str_partial,
        whole: library_utf16_to_str,
        most: 3,
        zeros: 0,
    },
];

pub const FROM_LATIN1: [Calls<u8>; 2] = [
    Calls {
        owner: "the crate",
        partial: |src, dst| convert_latin1_to_str_partial(src, from_utf8_mut(dst).unwrap()),
        whole: |src, dst| convert_latin1_to_str(src, from_utf8_mut(dst).unwrap()),
        most: 2,
        zeros: 16,
    },
    Calls {
        owner: "the library",
        partial: library_latin1_to_str_partial,
        whole: library_latin1_to_str,
        most: 2,
        zeros: 16,
    },
];

/// The number of elements read, and of elements written.
#[repr(C)]
struct Progress {
    read: usize,
    written: usize,
}

impl From<Progress> for (usize, usize) {
    fn from(progress: Progress) -> (usize, usize) {
        (progress.read, progress.written)
    }
}

extern "C" {
    fn encoding_text_mem_convert_utf16_to_str_partial(
        src: *const u16,
        src_length: usize,
        dst: *mut u8,
        dst_length: usize,
    ) -> Progress;
    fn encoding_text_mem_convert_utf16_to_str(
        src: *const u16,
        src_length: usize,
        dst: *mut u8,
        dst_length: usize,
    ) -> usize;
    fn encoding_text_mem_convert_latin1_to_str_partial(
        src: *const u8,
        src_length: usize,
        dst: *mut u8,
        dst_length: usize,
    ) -> Progress;
    fn encoding_text_mem_convert_latin1_to_str(
        src: *const u8,
        src_length: usize,
        dst: *mut u8,
        dst_length: usize,
    ) -> usize;
}

fn library_utf16_to_str_partial(src: &[u16], dst: &mut [u8]) -> (usize, usize) {
    // SAFETY: it reads the elements of the first slice, and reads and writes those of the second, whose borrow is
    // unique and so overlaps nothing. It refuses a destination that is no text, and any bytes that it writes are valid.
    unsafe {
        encoding_text_mem_convert_utf16_to_str_partial(src.as_ptr(), src.len(), dst.as_mut_ptr(), dst.len()).into()
    }
}

fn library_utf16_to_str(src: &[u16], dst: &mut [u8]) -> usize {
    // SAFETY: as above. It also refuses a destination that is too short.
    unsafe { encoding_text_mem_convert_utf16_to_str(src.as_ptr(), src.len(), dst.as_mut_ptr(), dst.len()) }
}

fn library_latin1_to_str_partial(src: &[u8], dst: &mut [u8]) -> (usize, usize) {
    // SAFETY: as above.
    unsafe {
        encoding_text_mem_convert_latin1_to_str_partial(src.as_ptr(), src.len(), dst.as_mut_ptr(), dst.len()).into()
    }
}

fn library_latin1_to_str(src: &[u8], dst: &mut [u8]) -> usize {
    // SAFETY: as above. It also refuses a destination that is too short.
    unsafe { encoding_text_mem_convert_latin1_to_str(src.as_ptr(), src.len(), dst.as_mut_ptr(), dst.len()) }
}
