//! Bytes as text, with U+FFFD for each malformed sequence.

#[cfg(feature = "std")]
use crate::utf8_chunks;
#[cfg(feature = "std")]
use std::io::{self, Write};

use crate::c;
use alloc::borrow::Cow;

/// Converts bytes to text, with U+FFFD for each malformed sequence: borrowed if and only if all are well-formed. The
/// result is that of `String::from_utf8_lossy`.
///
/// Both calls that it makes, one for the longest well-formed prefix and one for the rest, are
/// [proved](crate::promises#repair); the crate joins their results. An owned result takes one allocation, of the length
/// of the prefix plus three times that of the rest, and releases what it doesn't need. Requires the feature `alloc`.
///
/// ```
/// use std::borrow::Cow;
/// assert_eq!(encoding_text::repair(b"a\xE2\x98Z"), "a\u{FFFD}Z");
/// assert!(matches!(encoding_text::repair("né".as_bytes()), Cow::Borrowed("né")));
/// ```
#[must_use]
pub fn repair(bytes: &[u8]) -> Cow<'_, str> {
    let prefix = c::utf8_prefix(bytes);
    if prefix.len() == bytes.len() {
        return Cow::Borrowed(prefix);
    }
    Cow::Owned(c::repair_after(prefix, &bytes[prefix.len()..]))
}

/// How many bytes are buffered for the sink at most. A longer stretch is written directly.
#[cfg(feature = "std")]
const DST_LENGTH: usize = 4096;

/// Bytes that are buffered to be written together.
#[cfg(feature = "std")]
struct Together<'a, W: ?Sized> {
    sink: &'a mut W,
    room: [u8; DST_LENGTH],
    length: usize,
}

#[cfg(feature = "std")]
impl<W: Write + ?Sized> Together<'_, W> {
    fn send(&mut self) -> io::Result<()> {
        let waiting = &self.room[..self.length];
        self.length = 0;
        if waiting.is_empty() {
            return Ok(());
        }
        self.sink.write_all(waiting)
    }

    fn push(&mut self, bytes: &[u8]) -> io::Result<()> {
        if bytes.len() > DST_LENGTH - self.length {
            self.send()?;
        }
        if bytes.len() > DST_LENGTH {
            return self.sink.write_all(bytes);
        }
        self.room[self.length..self.length + bytes.len()].copy_from_slice(bytes);
        self.length += bytes.len();
        Ok(())
    }
}

/// Writes the bytes as text, with U+FFFD for each malformed sequence, and returns the number of malformed sequences.
/// Allocates nothing, and doesn't flush the sink. What is short is written together, up to 4,096 bytes at once.
///
/// Each well-formed stretch and each malformed sequence is found by a call that is [proved](crate::promises#repair);
/// the crate writes them in order. Requires the feature `std`.
///
/// # Errors
///
/// Returns the errors of the sink's `write_all`. A proper prefix of the text has been written then.
///
/// ```
/// let mut text = Vec::new();
/// assert_eq!(encoding_text::repair_to(b"a\xE2\x98Z\xFF", &mut text)?, 2);
/// assert_eq!(text, "a\u{FFFD}Z\u{FFFD}".as_bytes());
/// # Ok::<(), std::io::Error>(())
/// ```
#[cfg(feature = "std")]
pub fn repair_to<W: Write + ?Sized>(bytes: &[u8], sink: &mut W) -> io::Result<u64> {
    let mut together = Together {
        sink,
        room: [0; DST_LENGTH],
        length: 0,
    };
    let mut malformed = 0;
    for chunk in utf8_chunks(bytes) {
        together.push(chunk.valid().as_bytes())?;
        if !chunk.invalid().is_empty() {
            together.push("\u{FFFD}".as_bytes())?;
            malformed += 1;
        }
    }
    together.send()?;
    Ok(malformed)
}
