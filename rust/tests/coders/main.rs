//! The decoder and the encoder, runs, borrowed results and malformed sequences: rows, vectors and random pieces. And
//! the types and conditions of all calls.
#[path = "../common/mod.rs"]
mod common;

mod decoder;
mod encoder;
mod encodings;
mod indices;
mod parts;
mod random;
mod rooms;
mod runs;
mod texts;
mod types;
mod utf16;
