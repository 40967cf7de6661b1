//! Where an engine writes its results, and how these are compared with another's.

use crate::ffi::{Progress, Prefix, INVALID_ARGUMENT};
use crate::kinds::Source;

/// Destinations with what was there before, and what a call returns.
#[derive(Clone)]
pub struct Room {
    pub bytes: Vec<u8>,
    pub units: Vec<u16>,
    /// How long a destination the bounded calls get.
    pub limit: usize,
    /// What a call returns besides how much it wrote: a prefix and the element after it, how much it read, yes or no.
    pub reported: [usize; 2],
    /// How much it wrote.
    pub written: usize,
}

impl Room {
    /// Creates destinations that no row fills. They contain a text, which the rows that write into texts require.
    pub fn of(source: &Source, text: &str) -> Room {
        let length = source.bytes.len().max(source.units.len()).max(source.latin1.len()) + 16;
        let mut bytes = text.as_bytes().repeat(3 * length / text.len());
        bytes.resize(3 * length, b'q');
        Room { limit: bytes.len(), bytes, units: vec![0x7171; length], reported: [0, 0], written: 0 }
    }

    /// Makes it a copy of another.
    pub fn refill(&mut self, fresh: &Room) {
        self.bytes.clone_from(&fresh.bytes);
        self.units.clone_from(&fresh.units);
        self.limit = fresh.limit;
        self.reported = fresh.reported;
        self.written = fresh.written;
    }

    /// Returns the destination of a bounded call that writes bytes.
    pub fn bounded_bytes(&mut self) -> &mut [u8] {
        let length = self.limit.min(self.bytes.len());
        &mut self.bytes[..length]
    }

    /// Returns the destination of a bounded call that writes code units.
    pub fn bounded_units(&mut self) -> &mut [u16] {
        let length = self.limit.min(self.units.len());
        &mut self.units[..length]
    }

    /// Returns the destination of a call into a text: at most `length` bytes, since all of it is validated first.
    pub fn text(&mut self, length: usize) -> &mut [u8] {
        let length = length.min(self.limit).min(self.bytes.len());
        &mut self.bytes[..length]
    }

    /// Records the prefix that a call returns.
    pub fn tell_prefix(&mut self, prefix: Prefix) {
        self.reported = [prefix.length, prefix.other.into()];
    }

    /// Records the prefix that a call returns and has copied.
    pub fn tell_copied(&mut self, prefix: Prefix) {
        self.written = prefix.length;
        self.tell_prefix(prefix);
    }

    /// Records how much a call read and wrote.
    pub fn tell_counts(&mut self, counts: impl Into<Progress>) {
        let counts = counts.into();
        self.reported[0] = counts.read;
        self.written = counts.written;
    }

    /// Returns where what was written ends.
    fn end(&self) -> usize {
        if self.written == INVALID_ARGUMENT { 0 } else { self.written }
    }

    /// Returns whether both returned the same and wrote the same. Some peers may overwrite what is after that.
    pub fn agrees(&self, theirs: &Room) -> bool {
        self.reported == theirs.reported
            && self.written == theirs.written
            && same_prefix(&self.bytes, &theirs.bytes, self.end())
            && same_prefix(&self.units, &theirs.units, self.end())
    }

    /// Returns whether all is unchanged after what was written.
    pub fn keeps(&self, before: &Room) -> bool {
        same_rest(&self.bytes, &before.bytes, self.end()) && same_rest(&self.units, &before.units, self.end())
    }
}

fn same_prefix<T: PartialEq>(ours: &[T], theirs: &[T], length: usize) -> bool {
    let length = length.min(ours.len());
    ours[..length] == theirs[..length]
}

fn same_rest<T: PartialEq>(ours: &[T], before: &[T], from: usize) -> bool {
    let from = from.min(ours.len());
    ours[from..] == before[from..]
}
