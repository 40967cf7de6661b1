//! Errors that a reader or a sink of a test returns, and a bound of how often a test reads.
#![allow(dead_code)]
use std::fmt;
use std::io::{self, ErrorKind, Read};

/// More reads or writes than any test makes over one stream. After these a test fails: without the bound, a reader that
/// repeats its error or its last bytes for ever would make it hang.
pub const TOO_MANY: usize = 1_000_000;

/// A reader that panics if it is read too often, for methods of `Read` that read until the end.
pub struct Bounded<'a, R> {
    reader: &'a mut R,
    reads: usize,
}

impl<'a, R> Bounded<'a, R> {
    pub fn new(reader: &'a mut R) -> Self {
        Bounded { reader, reads: 0 }
    }
}

impl<R: Read> Read for Bounded<'_, R> {
    fn read(&mut self, buffer: &mut [u8]) -> io::Result<usize> {
        self.reads += 1;
        assert!(self.reads < TOO_MANY, "reads without end");
        self.reader.read(buffer)
    }
}

/// The kinds of errors that streams have.
pub const KINDS: [ErrorKind; 22] = [
    ErrorKind::NotFound,
    ErrorKind::PermissionDenied,
    ErrorKind::ConnectionRefused,
    ErrorKind::ConnectionReset,
    ErrorKind::ConnectionAborted,
    ErrorKind::NotConnected,
    ErrorKind::AddrInUse,
    ErrorKind::AddrNotAvailable,
    ErrorKind::BrokenPipe,
    ErrorKind::AlreadyExists,
    ErrorKind::WouldBlock,
    ErrorKind::InvalidInput,
    ErrorKind::InvalidData,
    ErrorKind::TimedOut,
    ErrorKind::WriteZero,
    ErrorKind::StorageFull,
    ErrorKind::ResourceBusy,
    ErrorKind::Interrupted,
    ErrorKind::Unsupported,
    ErrorKind::UnexpectedEof,
    ErrorKind::OutOfMemory,
    ErrorKind::Other,
];

/// Returns the kind that a word names, if it names one.
pub fn kind_named(word: &str) -> Option<ErrorKind> {
    KINDS.into_iter().find(|kind| format!("{kind:?}") == word)
}

/// An error of the test's own.
#[derive(Debug, PartialEq)]
pub struct Payload(u32);

impl fmt::Display for Payload {
    fn fmt(&self, f: &mut fmt::Formatter<'_>) -> fmt::Result {
        write!(f, "payload {}", self.0)
    }
}

impl std::error::Error for Payload {}

/// Returns an error of this kind with a payload.
pub fn with_payload(kind: ErrorKind) -> io::Error {
    io::Error::new(kind, Payload(2603))
}

/// Asserts that an error is one that [`with_payload`] made of this kind.
pub fn assert_unchanged(error: io::Error, kind: ErrorKind) {
    assert_eq!(error.kind(), kind);
    let payload = error.get_ref().and_then(|inner| inner.downcast_ref());
    assert_eq!(payload, Some(&Payload(2603)), "{kind}");
}
