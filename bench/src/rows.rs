//! The rows of the public surface, each with the engines that have it: ours first.
//!
//! Rows on texts start with bytes for each engine: C has no type for a text, so our functions validate what they get,
//! or the row does before an `_unchecked` one, and peers validate it by `std::str::from_utf8` before their own call. So
//! do the rows that write into a text.

use crate::kinds::Source;
use crate::room::Room;
use crate::simdutf;
use std::hint::black_box;
use std::str;

mod checks;
mod conversions;
mod lengths;
pub mod others;
mod prefixes;
mod streams;

/// What a row reads, which is what its throughput counts.
#[derive(Clone, Copy, PartialEq, Eq)]
pub enum Reads {
    Bytes,
    Text,
    Units,
    Latin1,
    Latin1Text,
    Latin1Units,
}

/// An engine's name, and the function that runs the row a number of times, on the sources in turn.
pub type Engine = (&'static str, fn(&[Source], &mut Room, u64));

/// Calls `run` in a loop. Each engine's own call has its own loop, so that no other call is in it.
pub fn in_turn(sources: &[Source], room: &mut Room, times: u64, run: impl Fn(&Source, &mut Room)) {
    for source in sources.iter().cycle().take(times as usize) {
        run(black_box(source), room);
        black_box(&mut *room);
    }
}

pub struct Row {
    pub name: &'static str,
    pub reads: Reads,
    pub engines: &'static [Engine],
}

const OURS: &str = "ours";
const STD: &str = "std";
const CRATE: &str = "encoding_rs";
const SIMD: &str = "simdutf8";

/// What ends the name of a row whose peer trusts its source.
pub const TRUSTING: &str = ", trusting";

/// Returns all rows, in the order of the table.
pub fn all() -> impl Iterator<Item = &'static Row> {
    [prefixes::ROWS, checks::ROWS, conversions::ROWS, streams::ROWS, lengths::ROWS].into_iter().flatten()
}

/// Returns whether the engine is simdutf's kernel of the same width as ours.
pub fn is_kernel(engine: &Engine) -> bool {
    [simdutf::kernel::PLAIN, simdutf::kernel::ERRORS].contains(&engine.0)
}

/// Returns whether the engine is simdutf's own choice.
pub fn is_own(engine: &Engine) -> bool {
    [simdutf::own::PLAIN, simdutf::own::ERRORS].contains(&engine.0)
}

/// Returns the length of the longest well-formed prefix.
fn std_valid_up_to(src: &[u8]) -> usize {
    str::from_utf8(src).map_or_else(|error| error.valid_up_to(), str::len)
}

/// Writes a text to a destination, and returns its length.
fn put(text: &str, dst: &mut [u8]) -> usize {
    dst[..text.len()].copy_from_slice(text.as_bytes());
    text.len()
}

/// Defines rows. Calls of simdutf, by its plain functions and by those with errors, become an engine for each way to
/// call it.
#[cfg(feature = "peers")]
macro_rules! rows {
    ($($name:literal, $reads:ident: $($engine:ident => $run:expr),+; $(simdutf: $($form:ident => $peer:expr),+;)?)*) => {
        &[$(Row {
            name: $name,
            reads: Reads::$reads,
            engines: &[
                $(($engine, |s, r, n| in_turn(s, r, n, $run)),)+
                $($((simdutf::kernel::$form, {
                    use crate::simdutf::kernel as simdutf;
                    |s, r, n| in_turn(s, r, n, $peer)
                }),)+
                $((simdutf::own::$form, {
                    use crate::simdutf::own as simdutf;
                    |s, r, n| in_turn(s, r, n, $peer)
                }),)+)?
            ],
        }),*]
    };
}

/// Defines rows without peers.
#[cfg(not(feature = "peers"))]
macro_rules! rows {
    ($($name:literal, $reads:ident: OURS => $run:expr $(, $engine:ident => $other:expr)*;
        $(simdutf: $($form:ident => $peer:expr),+;)?)*) => {
        &[$(Row { name: $name, reads: Reads::$reads, engines: &[(OURS, |s, r, n| in_turn(s, r, n, $run))] }),*]
    };
}
use rows;

impl Row {
    /// Returns whether the row is measured on the source: rows on texts aren't on malformed ones, which they refuse, nor
    /// are peers that trust their source.
    pub fn is_measured(&self, source: &Source) -> bool {
        source.well_formed || (self.reads != Reads::Text && !self.name.ends_with(TRUSTING))
    }

    /// Returns whether the call clears what follows, so that its destination stays a text.
    pub fn clears(&self) -> bool {
        self.name.ends_with("to_str_partial")
    }

    /// Returns how many bytes of source a run of the row reads.
    pub fn length(&self, source: &Source) -> usize {
        match self.reads {
            Reads::Bytes | Reads::Text => source.bytes.len(),
            Reads::Units => source.units.len() * 2,
            Reads::Latin1 => source.latin1.len(),
            Reads::Latin1Text => source.latin1_text.len(),
            Reads::Latin1Units => source.latin1_units.len() * 2,
        }
    }
}
