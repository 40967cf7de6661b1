//! ASCII, Latin1, UTF-8 and UTF-16, under the names and signatures of `encoding_rs`, over a C library. Every function
//! of that library is proved to do what the Unicode and Encoding Standards say.
//!
//! - [`mem`]: checks and conversions of whole buffers;
//! - [`ascii`] and [`utf_8`]: the calls it is built on;
//! - [`utf_16`]: UTF-16LE and UTF-16BE;
//! - [`Encoding`] and [`Decoder`]: UTF-8, UTF-16LE and UTF-16BE in any pieces, with byte order marks and replacement;
//! - [`Utf8Decoder`], [`Utf16Decoder`] and [`Utf8Encoder`]: streams in any pieces, into destinations of any length;
//! - [`repair`], [`repair_to`], [`repair_slice_partial`], [`utf8_chunks`], [`next_malformed`] and [`next_malformation`]: bytes that may be
//!   malformed UTF-8;
//! - [`utf8_count`], [`utf16_count`] and [`repaired_utf8_length`]: exact counts, also of such bytes; [`str_count`] and
//!   [`utf16_length_from_str`] of a text;
//! - [`Repair`] and [`DecodeUtf16`]: the same over a reader.
//!
//! ```
//! use std::io::Read;
//!
//! let damaged = b"na\xC3\xAFve \xE2\x98 text";
//! assert_eq!(encoding_text::repair(damaged), "naïve \u{FFFD} text");
//!
//! let mut text = String::new();
//! encoding_text::Repair::new(&damaged[..]).read_to_string(&mut text)?;
//! assert_eq!(text, "naïve \u{FFFD} text");
//!
//! let mut units = vec![0; damaged.len() + 1];
//! let length = encoding_text::mem::convert_utf8_to_utf16(damaged, &mut units);
//! assert_eq!(String::from_utf16(&units[..length]).unwrap(), text);
//! # Ok::<(), std::io::Error>(())
//! ```
//!
//! # What is proved
//!
//! The library is proved; this crate isn't. [`promises`] says for each call what is promised, where, and what the crate
//! adds. All unsafe code is in the one private module that makes the calls.
//!
//! # What a call costs
//!
//! Mostly less than 1 ns more than the C function, and up to 3 ns in runs next to other work (measured by `cargo bench`,
//! and by `bench/calls` of the repository). A `&str` is not validated again.
//!
//! # Features
//!
//! - `std` (default, with `alloc`): [`repair_to`], [`Repair`], [`DecodeUtf16`];
//! - `alloc`: [`repair`], [`mem::decode_latin1`], [`mem::encode_latin1_lossy`];
//! - without both the crate allocates nothing. It needs `core` and the three functions of C that copy and set memory.
//!
//! # Where the library is
//!
//! `build.rs` takes the library from the folder that `ENCODING_TEXT_LIB_DIR` names, else from `pkg-config`, else from a
//! released crate, which has those for x86-64 and 64-bit ARM Linux with glibc or musl. Otherwise `make` builds it at the top
//! of the repository with its toolchain. A library of another version is refused, unless it is a later compatible one, and so
//! is one without a function that this crate calls.
//!
//! When a program starts on x86-64 with glibc, the library selects its build for x86-64-v3 if the processor runs that,
//! else the one for x86-64-v2. `ENCODING_TEXT_CPU=x86-64-v2` in the environment always selects the latter. With musl,
//! it has only the build for x86-64-v2.
//!
//! [`repair`]: repair()

#![no_std]
#![deny(unsafe_op_in_unsafe_fn, missing_docs, unsafe_code)]

#[cfg(feature = "alloc")]
extern crate alloc;
#[cfg(feature = "std")]
extern crate std;

pub mod ascii;
mod c;
mod chunks;
mod count;
pub mod decoder;
mod encoding;
pub mod mem;
pub mod promises;
#[cfg(feature = "alloc")]
mod repair;
mod replacing;
#[cfg(feature = "std")]
mod streams;
pub mod utf_16;
pub mod utf_8;

pub use chunks::{next_malformation, next_malformed, utf8_chunks, Malformation, Utf8Chunk, Utf8Chunks};
pub use count::{repaired_utf8_length, str_count, utf16_count, utf16_length_from_str, utf8_count};
pub use decoder::{DecoderResult, Utf8Decoder};
pub use encoding::{CoderResult, Decoder, Encoding, UTF_16BE, UTF_16LE, UTF_8};
#[cfg(feature = "alloc")]
pub use repair::repair;
#[cfg(feature = "std")]
pub use repair::repair_to;
pub use replacing::repair_slice_partial;
#[cfg(feature = "std")]
pub use streams::{DecodeUtf16, Repair, StreamMalformation};
pub use utf_16::Utf16Decoder;
pub use utf_8::{EncoderResult, Utf8Encoder};
