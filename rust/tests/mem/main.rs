//! The calls on whole buffers, `ascii`, `mem` and `utf_8`: rows, random text, and the memory that they access and
//! request.
#[path = "../common/mod.rs"]
mod common;

mod ascii_latin1;
mod bidi;
mod conversions;
#[cfg(all(target_os = "linux", feature = "std"))]
mod guard;
#[cfg(feature = "alloc")]
mod memory;
mod random;
mod replacing;
mod rooms;
