//! Measures what a call costs in Rust compared with the C function under it, called as a C program calls it, and what
//! is saved by a type that says that a text is well-formed. `cargo bench` prints nanoseconds per call, the best of
//! interleaved passes. The status is 1 if a call costs more than `BOUND` more.
#![allow(unused_must_use)] // results are passed only to `black_box`

use encoding_text::{ascii, mem, utf_8, Utf8Decoder, Utf8Encoder};
use std::hint::black_box;
use std::process::ExitCode;
use std::time::Instant;

/// How many nanoseconds a call may cost more than in C.
const BOUND: f64 = 2.0;
const PASSES: usize = 3000;
/// A length that most calls finish so fast that nothing hides the cost around them.
const SHORT: usize = 16;
const LONG: usize = 1 << 16;

/// The functions of `encoding_text.h`, as a C program declares them.
mod c {
    #[repr(C)]
    pub struct Progress(usize, usize);
    #[repr(C)]
    pub struct Prefix(usize, u16);
    #[repr(C)]
    pub struct Decoder([u8; 3], u8);
    #[repr(C)]
    pub struct DecodeResult(usize, usize, u8, u8);
    #[repr(C)]
    pub struct Piece(usize, u32, u8, u8);
    #[repr(C)]
    pub struct Encoder(u16);
    #[repr(C)]
    pub struct EncodeResult(usize, usize, u8);

    impl Decoder {
        pub const NEW: Decoder = Decoder([0; 3], 0);
    }

    impl Encoder {
        pub const NEW: Encoder = Encoder(0);
    }

    macro_rules! declare {
        (from { $($slice:ident($unit:ty) -> $answer:ty;)* } into { $($two:ident($from:ty, $to:ty) -> $counts:ty;)* }) => {
            extern "C" {
                $(pub fn $slice(src: *const $unit, src_length: usize) -> $answer;)*
                $(pub fn $two(src: *const $from, src_length: usize, dst: *mut $to, dst_length: usize) -> $counts;)*
            }
        };
    }

    declare! {
        from {
            encoding_text_validate_ascii(u8) -> Prefix;
            encoding_text_ascii_valid_up_to(u8) -> usize;
            encoding_text_mem_is_ascii(u8) -> bool;
            encoding_text_mem_is_str_latin1_unchecked(u8) -> bool;
            encoding_text_mem_is_str_bidi_unchecked(u8) -> bool;
            encoding_text_mem_check_str_for_latin1_and_bidi(u8) -> u8;
            encoding_text_mem_check_utf16_for_latin1_and_bidi(u16) -> u8;
            encoding_text_mem_utf16_valid_up_to(u16) -> usize;
            encoding_text_utf8_valid_up_to(u8) -> usize;
        }
        into {
            encoding_text_ascii_to_basic_latin(u8, u16) -> Prefix;
            encoding_text_mem_copy_ascii_to_ascii(u8, u8) -> usize;
            encoding_text_mem_convert_latin1_to_utf8(u8, u8) -> usize;
            encoding_text_mem_convert_utf8_to_latin1_lossy(u8, u8) -> usize;
            encoding_text_mem_convert_utf16_to_latin1_lossy(u16, u8) -> usize;
            encoding_text_mem_convert_utf8_to_utf16(u8, u16) -> usize;
            encoding_text_mem_convert_str_to_utf16(u8, u16) -> usize;
            encoding_text_mem_convert_utf8_to_utf16_without_replacement(u8, u16) -> Progress;
            encoding_text_mem_convert_utf16_to_utf8_partial(u16, u8) -> Progress;
            encoding_text_mem_convert_utf16_to_utf8(u16, u8) -> usize;
            encoding_text_mem_convert_utf16_to_str(u16, u8) -> usize;
            encoding_text_mem_convert_latin1_to_str(u8, u8) -> usize;
            encoding_text_convert_utf8_to_utf16_up_to_invalid(u8, u16) -> Progress;
        }
    }

    extern "C" {
        pub fn encoding_text_utf8_decoder_max_utf8_buffer_length(decoder: *const Decoder, length: usize) -> usize;
        pub fn encoding_text_utf8_decoder_decode_to_utf16(
            decoder: *mut Decoder,
            src: *const u8,
            src_length: usize,
            dst: *mut u16,
            dst_length: usize,
            last: bool,
        ) -> DecodeResult;
        pub fn encoding_text_utf8_decoder_decode_borrowed(
            decoder: *mut Decoder,
            src: *const u8,
            src_length: usize,
            last: bool,
        ) -> Piece;
        pub fn encoding_text_utf8_encoder_encode_from_utf16(
            encoder: *mut Encoder,
            src: *const u16,
            src_length: usize,
            dst: *mut u8,
            dst_length: usize,
            last: bool,
        ) -> EncodeResult;
        pub fn encoding_text_utf8_encoder_encode_from_utf8(
            encoder: *mut Encoder,
            src: *const u8,
            src_length: usize,
            dst: *mut u8,
            dst_length: usize,
            last: bool,
        ) -> EncodeResult;
    }
}

/// Returns nanoseconds per call, over `times` calls.
#[inline(never)]
fn pass(times: u32, call: &mut impl FnMut()) -> f64 {
    let start = Instant::now();
    for _ in 0..times {
        call();
    }
    start.elapsed().as_secs_f64() * 1e9 / f64::from(times)
}

/// Returns the best of interleaved passes of the two.
fn best(times: u32, mut one: impl FnMut(), mut other: impl FnMut()) -> (f64, f64) {
    let mut best = (f64::INFINITY, f64::INFINITY);
    for _ in 0..PASSES {
        best.0 = best.0.min(pass(times, &mut one));
        best.1 = best.1.min(pass(times, &mut other));
    }
    best
}

/// The sources and the destinations.
struct Buffers {
    bytes: Vec<u8>,
    units: Vec<u16>,
    to_bytes: Vec<u8>,
    to_units: Vec<u16>,
}

impl Buffers {
    fn new(text: &str) -> Buffers {
        let units: Vec<u16> = text.encode_utf16().collect();
        Buffers {
            to_bytes: vec![b'q'; 3 * text.len()],
            to_units: vec![0; text.len() + 1],
            bytes: text.into(),
            units,
        }
    }
}

/// Times rows, each a call in Rust and the C function with its arguments, and passes each to a closure.
macro_rules! rows {
    ($reported:expr, $times:expr; $($name:literal: $rust:expr, $function:ident($($argument:expr),*);)*) => {$({
        let (rust, c) = best(
            $times,
            || { black_box($rust); },
            // SAFETY: the arguments are pointers to buffers and their lengths, and no two overlap. Texts are
            // well-formed, and states are laid out as the header says.
            || { black_box(unsafe { c::$function($($argument),*) }); },
        );
        $reported($name, rust, c);
    })*};
}

/// Times each shape of a call on a short source, and returns the most nanoseconds that one costs more in Rust.
fn short_calls() -> f64 {
    let mut most = f64::NEG_INFINITY;
    let mut tell = |name: &str, rust: f64, c: f64| {
        println!("{name:44} {rust:8.2} {c:8.2} {:+8.2}", rust - c);
        most = most.max(rust - c);
    };
    let Buffers {
        bytes: b,
        units: u,
        to_bytes: mut tb,
        to_units: mut tu,
    } = Buffers::new(&"a".repeat(SHORT));
    let t = std::str::from_utf8(&b).unwrap();
    let (n, tbn, tun) = (SHORT, 3 * SHORT, SHORT + 1);
    let (bp, up, tbp, tup) = (b.as_ptr(), u.as_ptr(), tb.as_mut_ptr(), tu.as_mut_ptr());
    let (mut decoder, mut c_decoder) = (Utf8Decoder::new_inner(), c::Decoder::NEW);
    let (mut encoder, mut c_encoder) = (Utf8Encoder::new_inner(), c::Encoder::NEW);
    println!(
        "{:44} {:>8} {:>8} {:>8}",
        format!("{SHORT} letters: nanoseconds a call"),
        "Rust",
        "C",
        "more"
    );
    rows! { tell, 500;
        "validate_ascii": ascii::validate_ascii(black_box(&b)), encoding_text_validate_ascii(black_box(bp), n);
        "ascii_valid_up_to": ascii::ascii_valid_up_to(black_box(&b)), encoding_text_ascii_valid_up_to(black_box(bp), n);
        "is_ascii": mem::is_ascii(black_box(&b)), encoding_text_mem_is_ascii(black_box(bp), n);
        "utf8_valid_up_to": utf_8::utf8_valid_up_to(black_box(&b)), encoding_text_utf8_valid_up_to(black_box(bp), n);
        "utf16_valid_up_to": mem::utf16_valid_up_to(black_box(&u)), encoding_text_mem_utf16_valid_up_to(black_box(up), n);
        "check_utf16_for_latin1_and_bidi": mem::check_utf16_for_latin1_and_bidi(black_box(&u)),
            encoding_text_mem_check_utf16_for_latin1_and_bidi(black_box(up), n);
        "ascii_to_basic_latin": ascii::ascii_to_basic_latin(black_box(&b), &mut tu),
            encoding_text_ascii_to_basic_latin(black_box(bp), n, tup, tun);
        "copy_ascii_to_ascii": mem::copy_ascii_to_ascii(black_box(&b), &mut tb),
            encoding_text_mem_copy_ascii_to_ascii(black_box(bp), n, tbp, tbn);
        "convert_latin1_to_utf8": mem::convert_latin1_to_utf8(black_box(&b), &mut tb),
            encoding_text_mem_convert_latin1_to_utf8(black_box(bp), n, tbp, tbn);
        "convert_utf8_to_latin1_lossy": mem::convert_utf8_to_latin1_lossy(black_box(&b), &mut tb),
            encoding_text_mem_convert_utf8_to_latin1_lossy(black_box(bp), n, tbp, tbn);
        "convert_utf16_to_latin1_lossy": mem::convert_utf16_to_latin1_lossy(black_box(&u), &mut tb),
            encoding_text_mem_convert_utf16_to_latin1_lossy(black_box(up), n, tbp, tbn);
        "convert_utf8_to_utf16": mem::convert_utf8_to_utf16(black_box(&b), &mut tu),
            encoding_text_mem_convert_utf8_to_utf16(black_box(bp), n, tup, tun);
        "convert_utf8_to_utf16_without_replacement":
            mem::convert_utf8_to_utf16_without_replacement(black_box(&b), &mut tu),
            encoding_text_mem_convert_utf8_to_utf16_without_replacement(black_box(bp), n, tup, tun);
        "convert_utf8_to_utf16_up_to_invalid": utf_8::convert_utf8_to_utf16_up_to_invalid(black_box(&b), &mut tu),
            encoding_text_convert_utf8_to_utf16_up_to_invalid(black_box(bp), n, tup, tun);
        "convert_utf16_to_utf8_partial": mem::convert_utf16_to_utf8_partial(black_box(&u), &mut tb),
            encoding_text_mem_convert_utf16_to_utf8_partial(black_box(up), n, tbp, tbn);
        "convert_utf16_to_utf8": mem::convert_utf16_to_utf8(black_box(&u), &mut tb),
            encoding_text_mem_convert_utf16_to_utf8(black_box(up), n, tbp, tbn);
        "decoder.max_utf8_buffer_length": black_box(&decoder).max_utf8_buffer_length(black_box(n)),
            encoding_text_utf8_decoder_max_utf8_buffer_length(black_box(&c_decoder), black_box(n));
        "decoder.decode_to_utf16_raw": decoder.decode_to_utf16_raw(black_box(&b), &mut tu, false),
            encoding_text_utf8_decoder_decode_to_utf16(&mut c_decoder, black_box(bp), n, tup, tun, false);
        "decoder.decode_borrowed": decoder.decode_borrowed(black_box(&b), false),
            encoding_text_utf8_decoder_decode_borrowed(&mut c_decoder, black_box(bp), n, false);
        "encoder.encode_from_utf16_raw": encoder.encode_from_utf16_raw(black_box(&u), &mut tb, false),
            encoding_text_utf8_encoder_encode_from_utf16(&mut c_encoder, black_box(up), n, tbp, tbn, false);
        "encoder.encode_from_utf8_raw": encoder.encode_from_utf8_raw(black_box(t), &mut tb, false),
            encoding_text_utf8_encoder_encode_from_utf8(&mut c_encoder, black_box(bp), n, tbp, tbn, false);
    }
    most
}

/// Times the calls on a text, compared with those of C, which has no type for one and validates it first.
fn texts() {
    let Buffers {
        bytes: b,
        units: u,
        to_bytes: mut tb,
        to_units: mut tu,
    } = Buffers::new(&"naïve café, déjà vu. ".repeat(LONG / 24));
    let t = std::str::from_utf8(&b).unwrap();
    let (n, un, tbn, tun) = (b.len(), u.len(), tb.len(), tu.len());
    let (bp, up, tbp, tup) = (b.as_ptr(), u.as_ptr(), tb.as_mut_ptr(), tu.as_mut_ptr());
    let (mut encoder, mut c_encoder) = (Utf8Encoder::new_inner(), c::Encoder::NEW);
    let mut to_text = String::from_utf8(tb.clone()).unwrap();
    let title = format!("{n} bytes of text: nanoseconds a call");
    println!("\n{title:44} {:>8} {:>8}", "Rust", "C");
    let tell = |name: &str, rust: f64, c: f64| println!("{name:44} {rust:8.0} {c:8.0}");
    rows! { tell, 2;
        "is_str_latin1": mem::is_str_latin1(black_box(t)), encoding_text_mem_is_str_latin1_unchecked(black_box(bp), n);
        "is_str_bidi": mem::is_str_bidi(black_box(t)), encoding_text_mem_is_str_bidi_unchecked(black_box(bp), n);
        "check_str_for_latin1_and_bidi": mem::check_str_for_latin1_and_bidi(black_box(t)),
            encoding_text_mem_check_str_for_latin1_and_bidi(black_box(bp), n);
        "convert_str_to_utf16": mem::convert_str_to_utf16(black_box(t), &mut tu),
            encoding_text_mem_convert_str_to_utf16(black_box(bp), n, tup, tun);
        "convert_utf16_to_str": mem::convert_utf16_to_str(black_box(&u), &mut to_text),
            encoding_text_mem_convert_utf16_to_str(black_box(up), un, tbp, tbn);
        "convert_latin1_to_str": mem::convert_latin1_to_str(black_box(&b), &mut to_text),
            encoding_text_mem_convert_latin1_to_str(black_box(bp), n, tbp, tbn);
        "encoder.encode_from_utf8_raw": encoder.encode_from_utf8_raw(black_box(t), &mut tb, false),
            encoding_text_utf8_encoder_encode_from_utf8(&mut c_encoder, black_box(bp), n, tbp, tbn, false);
    }
}

fn main() -> ExitCode {
    let most = short_calls();
    texts();
    println!("\nat most {most:.2} ns more a call than in C");
    ExitCode::from(u8::from(most > BOUND))
}
