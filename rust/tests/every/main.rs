//! Exhaustive tests of the machine code: every length, alignment, index, split and destination length near the sizes of
//! the blocks, and all short sequences at the edges of the ranges.
#[path = "../common/mod.rs"]
mod common;

mod conversions;
mod counts;
mod lengths;
mod rooms;
#[cfg(feature = "std")]
mod sequences;
mod slices;
mod texts;
mod units;
mod utf_16;
