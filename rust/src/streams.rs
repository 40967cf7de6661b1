//! Readers of text over readers of bytes.

use crate::{next_malformation, DecoderResult, Malformation, Utf8Decoder};
use std::fmt;
use std::io::{self, Read};
use std::vec::Vec;

/// How many bytes are requested from a reader at once by default.
const BLOCK: usize = 8192;

/// A unit of the text that is written: a byte of UTF-8, or a code unit of UTF-16.
trait Unit: Copy + Default + 'static {
    /// U+FFFD.
    const REPLACEMENT: &'static [Self];

    /// Returns whether the unit isn't the first of its character.
    fn is_after_first(self) -> bool;

    /// Makes one call of the decoder.
    fn decode(decoder: &mut Utf8Decoder, src: &[u8], dst: &mut [Self], last: bool) -> (DecoderResult, usize, usize);
}

impl Unit for u8 {
    const REPLACEMENT: &'static [u8] = &[0xEF, 0xBF, 0xBD];

    #[inline]
    fn is_after_first(self) -> bool {
        self & 0xC0 == 0x80
    }

    #[inline]
    fn decode(decoder: &mut Utf8Decoder, src: &[u8], dst: &mut [u8], last: bool) -> (DecoderResult, usize, usize) {
        decoder.decode_to_utf8_raw(src, dst, last)
    }
}

impl Unit for u16 {
    const REPLACEMENT: &'static [u16] = &[0xFFFD];

    #[inline]
    fn is_after_first(self) -> bool {
        self & 0xFC00 == 0xDC00
    }

    #[inline]
    fn decode(decoder: &mut Utf8Decoder, src: &[u8], dst: &mut [u16], last: bool) -> (DecoderResult, usize, usize) {
        decoder.decode_to_utf16_raw(src, dst, last)
    }
}

/// A length that fits any character: with this many units and an unread byte, a call of the decoder reads or reports.
const ANY_CHARACTER: usize = 4;

/// Characters that wait for the caller's buffer: those decoded into `ANY_CHARACTER` units, and U+FFFD.
#[derive(Default)]
struct Waiting<U> {
    units: [U; ANY_CHARACTER + 3],
    start: usize,
    end: usize,
}

impl<U: Unit> Waiting<U> {
    fn is_empty(&self) -> bool {
        self.start == self.end
    }

    /// Appends units to those that wait.
    fn push(&mut self, units: &[U]) {
        if self.is_empty() {
            (self.start, self.end) = (0, 0);
        }
        let end = self.end + units.len();
        self.units[self.end..end].copy_from_slice(units);
        self.end = end;
    }

    /// Moves the characters that fit into the buffer, and returns the number of units. A character is cut only if it
    /// doesn't fit and `may_cut` says that the buffer is all that the caller has.
    fn hand_over(&mut self, buffer: &mut [U], may_cut: bool) -> usize {
        let units = &self.units[self.start..self.end];
        let most = units.len().min(buffer.len());
        let is_end = |&count: &usize| count == units.len() || !units[count].is_after_first();
        let whole = (1..=most).rev().find(is_end);
        let count = whole.unwrap_or(if may_cut { most } else { 0 });
        buffer[..count].copy_from_slice(&units[..count]);
        self.start += count;
        count
    }
}

/// A malformed sequence in a stream.
#[derive(Clone, Copy, Debug, PartialEq, Eq, Hash)]
pub struct StreamMalformation {
    /// The offset of its first byte from the start of the stream.
    pub offset: u64,
    /// Its length in bytes, one to three.
    pub length: u8,
    /// Why it is malformed.
    pub kind: Malformation,
}

/// The most bytes of a malformed sequence.
const LONGEST: usize = 3;

/// How many bytes of a stream were read, and the last ones of these.
#[derive(Default)]
struct Position {
    offset: u64,
    last: [u8; LONGEST],
}

impl Position {
    /// Moves to after these bytes.
    fn advance(&mut self, read: &[u8]) {
        self.offset += read.len() as u64;
        let kept = LONGEST - read.len().min(LONGEST);
        self.last.copy_within(LONGEST - kept.., 0);
        self.last[kept..].copy_from_slice(&read[read.len() - (LONGEST - kept)..]);
    }

    /// Returns the malformed sequence of this length that ends here, before the unread bytes.
    fn malformed(&self, length: u8, unread: &[u8]) -> StreamMalformation {
        let count = usize::from(length);
        let mut bytes = [0; LONGEST + 1];
        bytes[..count].copy_from_slice(&self.last[LONGEST - count..]);
        let following = unread.len().min(1);
        bytes[count..count + following].copy_from_slice(&unread[..following]);
        let found = next_malformation(&bytes[..count + following]);
        StreamMalformation {
            offset: self.offset - u64::from(length),
            length,
            // the decoder found one in the same bytes
            kind: found.map_or(Malformation::IncompleteAtEnd, |(_, kind)| kind),
        }
    }
}

/// The characters of a reader's bytes, with U+FFFD for each malformed sequence.
struct Decoding<R, U> {
    reader: R,
    block: Vec<u8>,
    start: usize,
    end: usize,
    is_ended: bool,
    decoder: Utf8Decoder,
    waiting: Waiting<U>,
    replaced: u64,
    position: Position,
}

impl<R, U: Unit> Decoding<R, U> {
    fn new(capacity: usize, reader: R) -> Self {
        Decoding {
            reader,
            block: std::vec![0; capacity.max(1)],
            start: 0,
            end: 0,
            is_ended: false,
            decoder: Utf8Decoder::new_inner(),
            waiting: Waiting::default(),
            replaced: 0,
            position: Position::default(),
        }
    }

    /// Makes one call of the decoder on the unread bytes of the block. Returns why it ended and the number of units
    /// written.
    fn step(&mut self, room: &mut [U]) -> (DecoderResult, usize) {
        let src = &self.block[self.start..self.end];
        let (result, read, written) = U::decode(&mut self.decoder, src, room, self.is_ended);
        self.position.advance(&src[..read]);
        self.start += read;
        (result, written)
    }

    /// Queues U+FFFD for a malformed sequence of this length, and tells where it is.
    fn replace(&mut self, length: u8, found: &mut impl FnMut(StreamMalformation)) {
        self.replaced += 1;
        self.waiting.push(U::REPLACEMENT);
        found(self.position.malformed(length, &self.block[self.start..self.end]));
    }

    /// Queues the next characters, if the caller's buffer is too short for one.
    fn decode_apart(&mut self, found: &mut impl FnMut(StreamMalformation)) {
        let mut units = [U::default(); ANY_CHARACTER];
        let (result, count) = self.step(&mut units);
        self.waiting.push(&units[..count]);
        if let DecoderResult::Malformed(length, _) = result {
            self.replace(length, found);
        }
    }
}

impl<R: Read, U: Unit> Decoding<R, U> {
    /// Asks the reader for more after all is read. If it fails nothing is lost. A count is tested before it is stored:
    /// one that is too large would otherwise panic in every later read.
    fn fill(&mut self) -> io::Result<()> {
        let count = self.reader.read(&mut self.block)?;
        let most = self.block.len();
        assert!(
            count <= most,
            "the inner reader returned {count} bytes, more than the {most} requested"
        );
        (self.start, self.end) = (0, count);
        self.is_ended = count == 0;
        Ok(())
    }

    /// Writes whole characters into the buffer. Asks the reader only if there is none to write.
    fn read(&mut self, buffer: &mut [U], mut found: impl FnMut(StreamMalformation)) -> io::Result<usize> {
        let mut written = 0;
        if buffer.is_empty() {
            return Ok(0);
        }
        loop {
            if !self.waiting.is_empty() {
                written += self.waiting.hand_over(&mut buffer[written..], written == 0);
                if !self.waiting.is_empty() {
                    return Ok(written);
                }
            }
            let (result, count) = self.step(&mut buffer[written..]);
            written += count;
            match result {
                DecoderResult::Malformed(length, _) => self.replace(length, &mut found),
                _ if written > 0 => return Ok(written),
                DecoderResult::OutputFull => self.decode_apart(&mut found),
                DecoderResult::InputEmpty if self.is_ended => return Ok(0),
                DecoderResult::InputEmpty => self.fill()?,
            }
        }
    }
}

/// Defines a reader over [`Decoding`] to units of one kind.
macro_rules! reader {
    ($(#[$documentation:meta])* $name:ident, $unit:ty) => {
        $(#[$documentation])*
        pub struct $name<R> {
            decoding: Decoding<R, $unit>,
        }

        impl<R> $name<R> {
            /// Creates a reader over this one, which is asked for 8,192 bytes at once.
            pub fn new(reader: R) -> Self {
                Self::with_capacity(BLOCK, reader)
            }

            /// Creates a reader over this one, which is asked for `capacity` bytes at once, at least one.
            pub fn with_capacity(capacity: usize, reader: R) -> Self {
                $name { decoding: Decoding::new(capacity, reader) }
            }

            /// Returns how many malformed sequences were replaced so far.
            #[must_use]
            pub fn replaced(&self) -> u64 {
                self.decoding.replaced
            }

            /// Reads as `read` does, and calls `found` for each malformed sequence of the stream, in order, once U+FFFD
            /// for it is returned or waits to be.
            ///
            /// # Errors
            ///
            /// Returns the errors of the inner reader.
            #[inline]
            pub fn read_reporting(
                &mut self,
                buffer: &mut [$unit],
                found: impl FnMut(StreamMalformation),
            ) -> io::Result<usize>
            where
                R: Read,
            {
                self.decoding.read(buffer, found)
            }

            /// Returns the inner reader.
            pub fn get_ref(&self) -> &R {
                &self.decoding.reader
            }

            /// Returns the inner reader. What is read from it directly is missing from the text.
            pub fn get_mut(&mut self) -> &mut R {
                &mut self.decoding.reader
            }

            /// Returns the inner reader. What was read from it and isn't returned yet is lost.
            pub fn into_inner(self) -> R {
                self.decoding.reader
            }
        }

        impl<R: fmt::Debug> fmt::Debug for $name<R> {
            fn fmt(&self, f: &mut fmt::Formatter<'_>) -> fmt::Result {
                f.debug_struct(stringify!($name))
                    .field("reader", &self.decoding.reader)
                    .field("replaced", &self.decoding.replaced)
                    .finish_non_exhaustive()
            }
        }
    };
}

reader! {
    /// A reader of well-formed UTF-8: the bytes of the inner reader, with U+FFFD for each malformed sequence.
    ///
    /// Each read returns whole characters; a character is cut only if the caller's buffer is shorter. The inner reader
    /// is asked only if there is no character to return, and not again after it returned no byte. Its errors, even an
    /// interruption, are passed on, and nothing is lost. Requires the feature `std`.
    ///
    /// Each call of the decoder is [proved](crate::promises#streams), and also that such calls yield the text of the
    /// whole, in any pieces. The loop around them, the block of bytes and the characters that wait are the
    /// crate's.
    ///
    /// # Panics
    ///
    /// A read panics if the inner reader returns a greater count than was requested. Later reads go on as if that one
    /// had failed.
    ///
    /// ```
    /// use std::io::Read;
    /// let mut reader = encoding_text::Repair::new(&b"a\xE2\x98\x83\xE2\x98Z"[..]);
    /// let mut text = String::new();
    /// reader.read_to_string(&mut text)?;
    /// assert_eq!((text.as_str(), reader.replaced()), ("a\u{2603}\u{FFFD}Z", 1));
    ///
    /// let mut reader = encoding_text::Repair::new(&b"a\xE2\x98Z\xFF"[..]);
    /// let mut places = Vec::new();
    /// while reader.read_reporting(&mut [0; 64], |found| places.push((found.offset, found.length)))? > 0 {}
    /// assert_eq!(places, [(1, 2), (4, 1)]);
    /// # Ok::<(), std::io::Error>(())
    /// ```
    Repair, u8
}

impl<R: Read> Read for Repair<R> {
    #[inline]
    fn read(&mut self, buffer: &mut [u8]) -> io::Result<usize> {
        self.decoding.read(buffer, |_| {})
    }
}

reader! {
    /// A reader of UTF-16: the inner reader's UTF-8, with U+FFFD for each malformed sequence.
    ///
    /// Each read returns whole characters; a surrogate pair is cut only if the caller's buffer has one code unit. The
    /// inner reader is asked only if there is no character to return, and not again after it returned no byte. Its
    /// errors, even an interruption, are passed on, and nothing is lost. Requires the feature `std`.
    ///
    /// Each call of the decoder is [proved](crate::promises#streams), and also that such calls yield the text of the
    /// whole, in any pieces. The loop around them, the block of bytes and the characters that wait are the
    /// crate's.
    ///
    /// # Panics
    ///
    /// A read panics if the inner reader returns a greater count than was requested. Later reads go on as if that one
    /// had failed.
    ///
    /// ```
    /// let mut reader = encoding_text::DecodeUtf16::new(&b"a\xF0\x9F\x98\x80\xFF"[..]);
    /// let mut units = [0; 8];
    /// let count = reader.read(&mut units)?;
    /// assert_eq!(units[..count], [0x61, 0xD83D, 0xDE00, 0xFFFD]);
    /// assert_eq!(reader.read(&mut units)?, 0);
    /// # Ok::<(), std::io::Error>(())
    /// ```
    DecodeUtf16, u16
}

impl<R: Read> DecodeUtf16<R> {
    /// Writes the next code units into the buffer, and returns their number: 0 if the buffer is empty or the text has
    /// ended.
    ///
    /// # Errors
    ///
    /// Returns the errors of the inner reader. Nothing has been written then.
    #[inline]
    pub fn read(&mut self, buffer: &mut [u16]) -> io::Result<usize> {
        self.decoding.read(buffer, |_| {})
    }
}
