//! Rows that only `count` has: the functions of the library without a row beside peers. A call without a state is made once
//! on a text; calls with one are made until the text is read.

use crate::kinds::{Kind, Source};
use std::hint::black_box;
use std::mem::transmute;

/// The texts: one of long and short characters, and a damaged one.
pub const TEXTS: [Kind; 2] = [Kind::CjkWithAscii, Kind::MalformedLatin];

/// The longest text that is short.
const SHORT: usize = 64;

/// A function of the library, whose type its shape tells.
type Function = unsafe extern "C" fn();

/// How a function is called.
#[derive(Clone, Copy)]
enum Shape {
    /// With nothing, a code unit, or storage and what it begins with.
    Constant,
    /// With the state of a decoder or an encoder, and a length.
    Query,
    /// With bytes; also with a state before them.
    Check,
    CheckOfText,
    CheckWithState,
    /// With bytes, again and again from the end of what was found.
    Next,
    NextWithKind,
    /// With a source and a destination; a function with a count returns its result in memory.
    Latin1ToBytes,
    Latin1TextToBytes,
    BytesToUnits,
    TextToUnits,
    BytesOfUnits,
    UnitsToBytes,
    UnitsToThreeBytes,
    UnitsToBytesWithCount,
    BytesToBytesWithCount,
    /// With a state, a source and a destination.
    Borrow,
    Search,
    DecodeToUnits,
    DecodeToBytes,
    EncodeUnits,
    EncodeText,
    /// With turns too.
    RunToUnits,
    RunToBytes,
    RunFromUnits,
}

/// Defines the rows: functions by their shapes.
macro_rules! rows {
    ($($shape:ident: $($name:ident)+;)+) => {
        mod library {
            extern "C" {
                $($(pub fn $name();)+)+
            }
        }
        const ROWS: &[(&str, Shape, Function)] = &[$($((stringify!($name), Shape::$shape, library::$name),)+)+];
    };
}

rows! {
    Constant: encoding_text_version encoding_text_layout_0_1 encoding_text_mem_is_utf16_code_unit_bidi
        encoding_text_utf8_decoder_new encoding_text_utf16_decoder_new encoding_text_decoder_new encoding_text_utf8_encoder_new
        encoding_text_malformed_search_new;
    Query: encoding_text_utf8_decoder_in_neutral_state encoding_text_utf8_decoder_max_utf16_buffer_length
        encoding_text_utf8_decoder_max_utf8_buffer_length_without_replacement encoding_text_utf8_decoder_max_utf8_buffer_length
        encoding_text_utf16_decoder_in_neutral_state encoding_text_utf16_decoder_max_utf16_buffer_length
        encoding_text_utf16_decoder_max_utf8_buffer_length_without_replacement encoding_text_utf16_decoder_max_utf8_buffer_length
        encoding_text_decoder_encoding encoding_text_decoder_in_neutral_state encoding_text_decoder_max_utf16_buffer_length
        encoding_text_decoder_max_utf8_buffer_length_without_replacement encoding_text_decoder_max_utf8_buffer_length
        encoding_text_utf8_encoder_max_buffer_length_from_utf16_without_replacement
        encoding_text_utf8_encoder_max_buffer_length_from_utf8_without_replacement;
    Check: encoding_text_for_bom;
    CheckOfText: encoding_text_mem_str_latin1_up_to_unchecked encoding_text_mem_check_str_for_latin1_and_bidi_unchecked;
    CheckWithState: encoding_text_decoder_latin1_byte_compatible_up_to;
    Next: encoding_text_next_malformed;
    NextWithKind: encoding_text_next_malformation;
    Latin1ToBytes: encoding_text_mem_decode_latin1 encoding_text_mem_convert_latin1_to_str;
    Latin1TextToBytes: encoding_text_mem_encode_latin1;
    BytesToUnits: encoding_text_mem_convert_utf8_to_utf16_partial;
    TextToUnits: encoding_text_mem_convert_str_to_utf16_unchecked;
    BytesOfUnits: encoding_text_decode_utf16le encoding_text_decode_utf16be;
    UnitsToBytes: encoding_text_encode_utf16le encoding_text_encode_utf16be encoding_text_mem_convert_utf16_to_str
        encoding_text_convert_utf16_to_utf8_partial_inner;
    UnitsToThreeBytes: encoding_text_convert_utf16_to_utf8_partial_tail;
    UnitsToBytesWithCount: encoding_text_mem_convert_utf16_to_utf8_partial_with_count
        encoding_text_mem_convert_utf16_to_str_partial_with_count;
    BytesToBytesWithCount: encoding_text_repair_slice_partial;
    Borrow: encoding_text_utf8_decoder_decode_borrowed;
    Search: encoding_text_search_block;
    DecodeToUnits: encoding_text_decoder_decode_to_utf16 encoding_text_decoder_decode_to_utf16_without_replacement;
    DecodeToBytes: encoding_text_decoder_decode_to_utf8 encoding_text_decoder_decode_to_utf8_without_replacement
        encoding_text_repair_block;
    EncodeUnits: encoding_text_utf8_encoder_encode_from_utf16_with_count;
    EncodeText: encoding_text_utf8_encoder_encode_from_utf8_with_count;
    RunToUnits: encoding_text_run_to_utf16;
    RunToBytes: encoding_text_run_to_utf8;
    RunFromUnits: encoding_text_run_from_utf16;
}

/// A result in two registers.
#[repr(C)]
struct Two(usize, usize);

/// A result in memory, of up to four words.
#[repr(C)]
struct Four(usize, usize, usize, usize);

/// Storage of any decoder, encoder or search. That of a decoder of any encoding looks for each byte order mark.
#[repr(C, align(8))]
struct State([u8; 16]);

const NEW: State = State([0, 0, 0, 0, 0, 2, 0, 0, 0, 0, 0, 0, 0, 0, 0, 0]);

#[repr(C)]
struct Turn {
    take: usize,
    room: usize,
    last: bool,
}

/// A source, and destinations that are long enough for all rows.
struct Texts<'a> {
    source: &'a Source,
    bytes_of_units: Vec<u8>,
    bytes: Vec<u8>,
    units: Vec<u16>,
    found: Vec<Two>,
    turns: Vec<Turn>,
}

impl<'a> Texts<'a> {
    fn of(source: &'a Source) -> Texts<'a> {
        let length = 2 * source.bytes.len() + 64;
        Texts {
            source,
            bytes_of_units: source.units.iter().flat_map(|unit| unit.to_le_bytes()).collect(),
            bytes: vec![0; 3 * length],
            units: vec![0; length],
            found: (0..length).map(|_| Two(0, 0)).collect(),
            turns: (0..length / 32).map(|_| Turn { take: 64, room: 256, last: true }).collect(),
        }
    }

    /// Calls a function over the text.
    fn call(&mut self, shape: Shape, function: Function) {
        let Texts { source, bytes_of_units, bytes, units, found, turns } = self;
        // some of them require a text as their destination
        bytes.fill(b'q');
        match shape {
            Shape::Constant | Shape::Query => query(function, source.bytes.len()),
            Shape::Check | Shape::CheckOfText => check(function, &source.bytes),
            Shape::CheckWithState => check_with_state(function, &source.bytes),
            Shape::Next => next(function, &source.bytes),
            Shape::NextWithKind => next_with_kind(function, &source.bytes),
            Shape::Latin1ToBytes => convert::<_, _, usize>(function, &source.latin1, bytes),
            Shape::Latin1TextToBytes => convert::<_, _, usize>(function, &source.latin1_text, bytes),
            Shape::BytesToUnits | Shape::TextToUnits => convert::<_, _, Two>(function, &source.bytes, units),
            Shape::BytesOfUnits => convert::<_, _, Two>(function, bytes_of_units, units),
            Shape::UnitsToBytes => convert::<_, _, Two>(function, &source.units, bytes),
            Shape::UnitsToThreeBytes => convert::<_, _, Two>(function, &source.units, &mut bytes[..3]),
            Shape::UnitsToBytesWithCount => convert::<_, _, Four>(function, &source.units, bytes),
            Shape::BytesToBytesWithCount => convert::<_, _, Four>(function, &source.bytes, bytes),
            Shape::Borrow => borrow(function, &source.bytes),
            Shape::Search => steps(function, &source.bytes, found),
            Shape::DecodeToUnits => steps(function, &source.bytes, units),
            Shape::DecodeToBytes | Shape::EncodeText => steps(function, &source.bytes, bytes),
            Shape::EncodeUnits => steps(function, &source.units, bytes),
            Shape::RunToUnits => run(function, &source.bytes, turns, units, found),
            Shape::RunToBytes => run(function, &source.bytes, turns, bytes, found),
            Shape::RunFromUnits => run(function, &source.units, turns, bytes, found),
        }
    }
}

// SAFETY, for all of these: the caller passes a function of the type that its shape tells. A result in registers may be left
// out, and a function that takes fewer arguments ignores the others.

/// Calls a function whose time is the same for each text.
fn query(function: Function, length: usize) {
    let mut state = NEW;
    unsafe {
        let call: unsafe extern "C" fn(&mut State, usize, usize) -> usize = transmute(black_box(function));
        black_box(call(&mut state, length, 0));
    }
}

fn check(function: Function, src: &[u8]) {
    unsafe {
        let call: unsafe extern "C" fn(*const u8, usize) -> Two = transmute(black_box(function));
        black_box(call(src.as_ptr(), src.len()));
    }
}

fn check_with_state(function: Function, src: &[u8]) {
    let state = State([0; 16]);
    unsafe {
        let call: unsafe extern "C" fn(&State, *const u8, usize) -> usize = transmute(black_box(function));
        black_box(call(&state, src.as_ptr(), src.len()));
    }
}

fn next(function: Function, mut src: &[u8]) {
    loop {
        let Two(place, length) = unsafe {
            let call: unsafe extern "C" fn(*const u8, usize) -> Two = transmute(black_box(function));
            call(src.as_ptr(), src.len())
        };
        if length == 0 {
            break;
        }
        src = &src[place + length..];
    }
}

fn next_with_kind(function: Function, mut src: &[u8]) {
    loop {
        let Four(place, length, ..) = unsafe {
            let call: unsafe extern "C" fn(*const u8, usize) -> Four = transmute(black_box(function));
            call(src.as_ptr(), src.len())
        };
        if length == 0 {
            break;
        }
        src = &src[place + length..];
    }
}

fn convert<S, D, R>(function: Function, src: &[S], dst: &mut [D]) {
    type Call<S, D, R> = unsafe extern "C" fn(*const S, usize, *mut D, usize) -> R;
    unsafe {
        let call: Call<S, D, R> = transmute(black_box(function));
        black_box(call(src.as_ptr(), src.len(), dst.as_mut_ptr(), dst.len()));
    }
}

/// The number of the last kind of piece: all is read.
const INPUT_EMPTY: usize = 3;

fn borrow(function: Function, mut src: &[u8]) {
    let mut state = NEW;
    loop {
        let Two(read, other) = unsafe {
            let call: unsafe extern "C" fn(&mut State, *const u8, usize, bool) -> Two = transmute(black_box(function));
            call(&mut state, src.as_ptr(), src.len(), true)
        };
        src = &src[read..];
        if other >> 32 & 0xFF == INPUT_EMPTY {
            break;
        }
    }
}

/// Calls until all is read.
fn steps<S, D>(function: Function, src: &[S], dst: &mut [D]) {
    type Call<S, D> = unsafe extern "C" fn(&mut State, *const S, usize, *mut D, usize, bool) -> Four;
    let (mut state, mut read, mut written) = (NEW, 0, 0);
    while read < src.len() {
        let (from, to) = (&src[read..], &mut dst[written..]);
        let done = unsafe {
            let call: Call<S, D> = transmute(black_box(function));
            call(&mut state, from.as_ptr(), from.len(), to.as_mut_ptr(), to.len(), true)
        };
        read += done.0;
        written += done.1;
    }
}

fn run<S, D>(function: Function, src: &[S], turns: &[Turn], dst: &mut [D], found: &mut [Two]) {
    type Call<S, D> =
        unsafe extern "C" fn(&mut State, *const S, usize, *const Turn, usize, *mut D, usize, *mut Two, usize) -> Four;
    let (mut state, room, most) = (NEW, dst.len(), found.len());
    unsafe {
        let call: Call<S, D> = transmute(black_box(function));
        let (src, length, dst) = (src.as_ptr(), src.len(), dst.as_mut_ptr());
        black_box(call(&mut state, src, length, turns.as_ptr(), turns.len(), dst, room, found.as_mut_ptr(), most));
    }
}

/// Calls `count` with the name of each row, the length of its sources in bytes, and what it does with these. Of functions
/// that take as long on any text, only the first text has rows, if it is short.
pub fn each(kind: Kind, sources: &[Source], mut count: impl FnMut(&str, usize, &mut dyn FnMut())) {
    let length: usize = sources.iter().map(|source| source.bytes.len()).sum();
    let (well_formed, is_short) = (sources.iter().all(|it| it.well_formed), sources[0].bytes.len() <= SHORT);
    let has_constants = is_short && kind == TEXTS[0];
    let mut texts: Vec<Texts> = sources.iter().map(Texts::of).collect();
    for (name, shape, function) in ROWS {
        let is_constant = matches!(shape, Shape::Constant | Shape::Query);
        let takes_text = matches!(shape, Shape::CheckOfText | Shape::TextToUnits | Shape::EncodeText);
        if (well_formed || !takes_text) && (has_constants || !is_constant) {
            let name = name.trim_start_matches("encoding_text_");
            count(name, length, &mut || texts.iter_mut().for_each(|it| it.call(*shape, *function)));
        }
    }
}
