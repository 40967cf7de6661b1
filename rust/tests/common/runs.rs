//! The calls of `c/include/encoding_text.h` that the crate doesn't make, over slices: runs, with the turns that rows
//! name, the repair of a stream by blocks, and the encoder's call on a text.

use encoding_text::{DecoderResult, EncoderResult};

/// A decoder between two calls. By default nothing is pending.
#[repr(C)]
#[derive(Default)]
pub struct Decoder {
    pending: [u8; 3],
    count: u8,
}

/// An encoder between two calls. By default nothing is pending.
#[repr(C)]
#[derive(Default)]
pub struct Encoder {
    surrogate: u16,
}

/// One call of a run: its `take`, its `room`, and whether it is marked last if it takes all that is left.
#[repr(C)]
#[derive(Clone, Copy)]
pub struct Turn {
    pub take: usize,
    pub room: usize,
    pub last: bool,
}

/// A malformed sequence of a run: the number of elements written before it, and its length in bytes.
#[repr(C)]
#[derive(Clone, Copy, Debug, PartialEq)]
pub struct Report {
    pub place: usize,
    pub length: u8,
}

/// What the array of reports is filled with. No row reports it.
pub const UNREPORTED: Report = Report {
    place: 0x71,
    length: 0x71,
};

/// What a run of a decoder did.
#[repr(C)]
pub struct DecodeRunResult {
    pub read: usize,
    pub written: usize,
    pub reports: usize,
    result: u8,
    malformed_length: u8,
}

/// What a run of an encoder did.
#[repr(C)]
pub struct EncodeResult {
    pub read: usize,
    pub written: usize,
    result: u8,
}

/// What a call did with a block of a stream.
#[repr(C)]
pub struct RepairedBlock {
    pub read: usize,
    pub written: usize,
    pub replaced: usize,
    pub finished: bool,
}

const INPUT_EMPTY: u8 = 0;
const OUTPUT_FULL: u8 = 1;
const MALFORMED: u8 = 2;
const NO_CALL: u8 = 3;

extern "C" {
    fn encoding_text_utf8_decoder_in_neutral_state(decoder: *const Decoder) -> bool;
    fn encoding_text_run_to_utf16(
        decoder: *mut Decoder,
        src: *const u8,
        src_length: usize,
        turns: *const Turn,
        turns_length: usize,
        dst: *mut u16,
        dst_length: usize,
        reports: *mut Report,
        reports_length: usize,
    ) -> DecodeRunResult;
    fn encoding_text_run_to_utf8(
        decoder: *mut Decoder,
        src: *const u8,
        src_length: usize,
        turns: *const Turn,
        turns_length: usize,
        dst: *mut u8,
        dst_length: usize,
        reports: *mut Report,
        reports_length: usize,
    ) -> DecodeRunResult;
    fn encoding_text_run_from_utf16(
        encoder: *mut Encoder,
        src: *const u16,
        src_length: usize,
        turns: *const Turn,
        turns_length: usize,
        dst: *mut u8,
        dst_length: usize,
    ) -> EncodeResult;
    fn encoding_text_utf8_encoder_encode_from_utf8(
        encoder: *mut Encoder,
        src: *const u8,
        src_length: usize,
        dst: *mut u8,
        dst_length: usize,
        last: bool,
    ) -> EncodeResult;
    fn encoding_text_repair_block(
        decoder: *mut Decoder,
        src: *const u8,
        src_length: usize,
        dst: *mut u8,
        dst_length: usize,
        last: bool,
    ) -> RepairedBlock;
}

impl Decoder {
    /// Returns whether nothing is pending.
    pub fn in_neutral_state(&self) -> bool {
        // SAFETY: it reads the decoder, which is laid out as the header says.
        unsafe { encoding_text_utf8_decoder_in_neutral_state(self) }
    }
}

impl Encoder {
    /// Creates an encoder with this pending surrogate, or none.
    pub fn that_holds(unit: Option<u16>) -> Encoder {
        Encoder {
            surrogate: unit.unwrap_or(0),
        }
    }

    /// Returns the pending surrogate: none if the field is no high surrogate.
    pub fn surrogate(&self) -> Option<u16> {
        matches!(self.surrogate, 0xD800..=0xDBFF).then_some(self.surrogate)
    }
}

impl DecodeRunResult {
    /// Returns why the last call ended, or `None` if there was none.
    pub fn ended(&self) -> Option<DecoderResult> {
        match (self.result, self.malformed_length) {
            (INPUT_EMPTY, 0) => Some(DecoderResult::InputEmpty),
            (OUTPUT_FULL, 0) => Some(DecoderResult::OutputFull),
            (MALFORMED, length) => Some(DecoderResult::Malformed(length, 0)),
            (NO_CALL, 0) => None,
            reported => panic!("no answer: {reported:?}"),
        }
    }
}

impl EncodeResult {
    /// Returns why the last call ended, or `None` if there was none.
    pub fn ended(&self) -> Option<EncoderResult> {
        match self.result {
            INPUT_EMPTY => Some(EncoderResult::InputEmpty),
            OUTPUT_FULL => Some(EncoderResult::OutputFull),
            NO_CALL => None,
            reported => panic!("no answer: {reported}"),
        }
    }
}

/// Returns the turns that a field names, between commas: how many there are of a kind, and then their take, their room
/// and their mark.
pub fn turns_of(field: &str) -> Vec<Turn> {
    let mut turns = Vec::new();
    for kind in field.split(',').filter(|kind| !kind.is_empty()) {
        let words: Vec<&str> = kind.split_whitespace().collect();
        let [count, take, room, mark @ ("last" | "more")] = words[..] else {
            panic!("no turns: {kind}");
        };
        let turn = Turn {
            take: take.parse().unwrap(),
            room: room.parse().unwrap(),
            last: mark == "last",
        };
        turns.extend(vec![turn; count.parse().unwrap()]);
    }
    turns
}

/// Returns enough turns for a source of this length, each with this `take` and this `room`.
pub fn turns_for(length: usize, take: usize, room: usize) -> Vec<Turn> {
    let last = true;
    vec![Turn { take, room, last }; 2 * length + 2]
}

/// Decodes to UTF-16 by one call for each turn.
pub fn run_to_utf16(
    decoder: &mut Decoder,
    src: &[u8],
    turns: &[Turn],
    dst: &mut [u16],
    reports: &mut [Report],
) -> DecodeRunResult {
    assert!(reports.len() >= turns.len());
    // SAFETY: each turn has an entry for its report. The borrows of the decoder, the destination and the reports are
    // unique, so they overlap nothing, and all are laid out as the header says. It reads and writes within the slices,
    // and any numbers that it writes are valid.
    unsafe {
        encoding_text_run_to_utf16(
            decoder,
            src.as_ptr(),
            src.len(),
            turns.as_ptr(),
            turns.len(),
            dst.as_mut_ptr(),
            dst.len(),
            reports.as_mut_ptr(),
            reports.len(),
        )
    }
}

/// Decodes to UTF-8 by one call for each turn.
pub fn run_to_utf8(
    decoder: &mut Decoder,
    src: &[u8],
    turns: &[Turn],
    dst: &mut [u8],
    reports: &mut [Report],
) -> DecodeRunResult {
    assert!(reports.len() >= turns.len());
    // SAFETY: as for `run_to_utf16`.
    unsafe {
        encoding_text_run_to_utf8(
            decoder,
            src.as_ptr(),
            src.len(),
            turns.as_ptr(),
            turns.len(),
            dst.as_mut_ptr(),
            dst.len(),
            reports.as_mut_ptr(),
            reports.len(),
        )
    }
}

/// Encodes by one call for each turn.
pub fn run_from_utf16(encoder: &mut Encoder, src: &[u16], turns: &[Turn], dst: &mut [u8]) -> EncodeResult {
    // SAFETY: the borrows of the encoder and the destination are unique, so they overlap nothing, and all are laid out
    // as the header says. It reads and writes within the slices, and any numbers that it writes are valid.
    unsafe {
        encoding_text_run_from_utf16(
            encoder,
            src.as_ptr(),
            src.len(),
            turns.as_ptr(),
            turns.len(),
            dst.as_mut_ptr(),
            dst.len(),
        )
    }
}

/// Writes the next block of a stream with U+FFFD for each malformed sequence.
pub fn repair_block(decoder: &mut Decoder, src: &[u8], dst: &mut [u8], last: bool) -> RepairedBlock {
    // SAFETY: the borrows of the decoder and the destination are unique, so they overlap nothing, and the decoder is
    // laid out as the header says. It reads and writes within the slices, and any bytes that it writes are valid.
    // `finished` is a bool in C, so 0 or 1.
    unsafe { encoding_text_repair_block(decoder, src.as_ptr(), src.len(), dst.as_mut_ptr(), dst.len(), last) }
}

/// Encodes the pending surrogate and a text. Returns why the call ended, the number of bytes read, and the number of
/// bytes written.
pub fn encode_from_utf8(
    encoder: &mut Encoder,
    text: &str,
    dst: &mut [u8],
    last: bool,
) -> (EncoderResult, usize, usize) {
    // SAFETY: as for `run_from_utf16`. It also refuses a source that is no text.
    let encoded = unsafe {
        encoding_text_utf8_encoder_encode_from_utf8(
            encoder,
            text.as_ptr(),
            text.len(),
            dst.as_mut_ptr(),
            dst.len(),
            last,
        )
    };
    (encoded.ended().unwrap(), encoded.read, encoded.written)
}
