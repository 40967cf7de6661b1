//! Readers, sinks and iterators: rows of what they return, random pieces, and input of more than a megabyte.
#[path = "../common/mod.rs"]
mod common;
#[cfg(feature = "std")]
mod faults;

mod long;
#[cfg(feature = "std")]
mod places;
#[cfg(feature = "std")]
mod readers;
#[cfg(feature = "std")]
mod repair;
#[cfg(feature = "std")]
mod rooms;
