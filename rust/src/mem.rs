//! Checks and conversions of whole buffers between UTF-8, UTF-16 and Latin1, under the names, signatures and panics of
//! the module `mem` of `encoding_rs`.
//!
//! "Latin1" is U+0000 to U+00FF, each as the byte of its number. A "malformed sequence" is what the UTF-8 decoder of
//! the Encoding Standard reports as one error. An "unpaired surrogate" is one that is in no pair. Lengths and counts
//! are in elements: bytes for `u8` and `str`, code units for `u16`.
//!
//! The calls are those of the library, each with its [promise](crate::promises#mem). The crate adds checks of lengths,
//! which panic before anything is written, and what else a call names. Past what is written, a destination is
//! unchanged, except in the calls into a `str`, which say what they clear.

mod bidi;
mod checks;
mod copies;
mod latin1;
#[cfg(feature = "alloc")]
mod owned;
mod utf16;

pub use bidi::*;
pub use checks::*;
pub use copies::*;
pub use latin1::*;
#[cfg(feature = "alloc")]
pub use owned::*;
pub use utf16::*;

/// Panics if a destination is shorter than its source, before anything is written.
#[inline]
#[track_caller]
fn assert_as_long<S, D>(src: &[S], dst: &[D]) {
    assert!(
        dst.len() >= src.len(),
        "the destination has {} elements, fewer than the {} of the source",
        dst.len(),
        src.len()
    );
}

/// Panics if a destination has fewer than `bytes_each` bytes for each element of its source, before anything is
/// written.
#[inline]
#[track_caller]
fn assert_room(src_length: usize, bytes_each: usize, dst_length: usize) {
    assert!(
        dst_length / bytes_each >= src_length,
        "the destination has {dst_length} bytes, fewer than {bytes_each} for each of the {src_length} elements of the source"
    );
}
