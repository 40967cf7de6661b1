//! The rows by the Rust crate over the same library, and what a call costs more there than in C. If a row reads a text
//! the crate is given a `&str`, and C validates the bytes.

use crate::ffi::{self, Prefix, INVALID_ARGUMENT};
use crate::kinds::{sources, Source, KINDS, SIZES};
use crate::measure::{seconds, times};
use crate::room::Room;
use crate::rows::{self, in_turn, Engine, Row};
use encoding_text::{ascii, mem, repair_to, utf_8};
use std::slice::from_ref;
use std::str;

/// How many interleaved passes there are, each a thousandth of a usual one: with this many, some aren't disturbed.
const PASSES: usize = 2000;

/// How many nanoseconds a call may cost more than in C.
const BOUND: f64 = 2.0;

/// Returns a prefix as C returns it.
fn reported<T: Into<u16>>(found: Option<(T, usize)>, most: usize) -> Prefix {
    found.map_or(Prefix { length: most, other: 0 }, |(other, length)| Prefix { length, other: other.into() })
}

/// Returns the source as a text. Only rows on texts get one.
fn text(source: &Source) -> &str {
    assert!(source.well_formed);
    // SAFETY: it is well-formed.
    unsafe { str::from_utf8_unchecked(&source.bytes) }
}

/// Returns the destination as a text.
fn into_text(bytes: &mut [u8]) -> &mut str {
    // SAFETY: destinations contain letters, and what the rows that write into a text write and clear is text.
    unsafe { str::from_utf8_unchecked_mut(bytes) }
}

/// Defines engines by the call of each: as in the table, the loop is around the call itself.
macro_rules! engines {
    ($(($name:literal, |$source:ident, $room:ident| $call:expr)),* $(,)?) => {
        &[$(($name, |sources, room, times| {
            in_turn(sources, room, times, |$source: &Source, $room: &mut Room| $call)
        })),*]
    };
}

/// The rows that are one call, by their names.
const RUST: &[Engine] = engines![
    ("validate_ascii", |s, r| r.tell_prefix(reported(ascii::validate_ascii(&s.bytes), s.bytes.len()))),
    ("ascii_valid_up_to", |s, r| r.reported[0] = ascii::ascii_valid_up_to(&s.bytes)),
    ("iso_2022_jp_ascii_valid_up_to", |s, r| r.reported[0] = ascii::iso_2022_jp_ascii_valid_up_to(&s.bytes)),
    ("ascii_to_ascii", |s, r| {
        let most = s.bytes.len().min(r.bounded_bytes().len());
        let found = ascii::ascii_to_ascii(&s.bytes, r.bounded_bytes());
        r.tell_copied(reported(found, most))
    }),
    ("ascii_to_basic_latin", |s, r| {
        let most = s.bytes.len().min(r.bounded_units().len());
        let found = ascii::ascii_to_basic_latin(&s.bytes, r.bounded_units());
        r.tell_copied(reported(found, most))
    }),
    ("basic_latin_to_ascii", |s, r| {
        let most = s.units.len().min(r.bounded_bytes().len());
        let found = ascii::basic_latin_to_ascii(&s.units, r.bounded_bytes());
        r.tell_copied(reported(found, most))
    }),
    ("copy_ascii_to_ascii", |s, r| r.written = mem::copy_ascii_to_ascii(&s.bytes, &mut r.bytes)),
    ("copy_ascii_to_basic_latin", |s, r| r.written = mem::copy_ascii_to_basic_latin(&s.bytes, &mut r.units)),
    ("copy_basic_latin_to_ascii", |s, r| r.written = mem::copy_basic_latin_to_ascii(&s.units, &mut r.bytes)),
    ("is_ascii", |s, r| r.reported[0] = mem::is_ascii(&s.bytes).into()),
    ("is_basic_latin", |s, r| r.reported[0] = mem::is_basic_latin(&s.units).into()),
    ("is_utf8_latin1", |s, r| r.reported[0] = mem::is_utf8_latin1(&s.bytes).into()),
    ("is_str_latin1", |s, r| r.reported[0] = mem::is_str_latin1(text(s)).into()),
    ("is_utf16_latin1", |s, r| r.reported[0] = mem::is_utf16_latin1(&s.units).into()),
    ("utf8_latin1_up_to", |s, r| r.reported[0] = mem::utf8_latin1_up_to(&s.bytes)),
    ("str_latin1_up_to", |s, r| r.reported[0] = mem::str_latin1_up_to(text(s))),
    ("utf16_valid_up_to", |s, r| r.reported[0] = mem::utf16_valid_up_to(&s.units)),
    ("is_utf8_bidi", |s, r| r.reported[0] = mem::is_utf8_bidi(&s.bytes).into()),
    ("is_str_bidi", |s, r| r.reported[0] = mem::is_str_bidi(text(s)).into()),
    ("is_utf16_bidi", |s, r| r.reported[0] = mem::is_utf16_bidi(&s.units).into()),
    ("check_utf8_for_latin1_and_bidi", |s, r| r.reported[0] = mem::check_utf8_for_latin1_and_bidi(&s.bytes) as usize),
    ("check_str_for_latin1_and_bidi", |s, r| r.reported[0] = mem::check_str_for_latin1_and_bidi(text(s)) as usize),
    ("check_utf16_for_latin1_and_bidi", |s, r| r.reported[0] = mem::check_utf16_for_latin1_and_bidi(&s.units) as usize),
    ("convert_latin1_to_utf16", |s, r| {
        mem::convert_latin1_to_utf16(&s.latin1, &mut r.units);
        r.written = s.latin1.len();
    }),
    ("convert_latin1_to_utf8_partial", |s, r| {
        let counts = mem::convert_latin1_to_utf8_partial(&s.latin1, r.bounded_bytes());
        r.tell_counts(counts)
    }),
    ("convert_latin1_to_utf8", |s, r| r.written = mem::convert_latin1_to_utf8(&s.latin1, &mut r.bytes)),
    ("convert_utf8_to_latin1_lossy", |s, r| {
        r.written = mem::convert_utf8_to_latin1_lossy(&s.latin1_text, &mut r.bytes)
    }),
    ("convert_utf16_to_latin1_lossy", |s, r| {
        mem::convert_utf16_to_latin1_lossy(&s.latin1_units, &mut r.bytes);
        r.written = s.latin1_units.len();
    }),
    ("convert_utf8_to_utf16", |s, r| r.written = mem::convert_utf8_to_utf16(&s.bytes, &mut r.units)),
    ("convert_str_to_utf16", |s, r| r.written = mem::convert_str_to_utf16(text(s), &mut r.units)),
    ("convert_utf8_to_utf16_without_replacement", |s, r| {
        let written = mem::convert_utf8_to_utf16_without_replacement(&s.bytes, &mut r.units);
        r.tell_counts((s.bytes.len(), written.unwrap_or(INVALID_ARGUMENT)))
    }),
    ("convert_utf16_to_utf8_partial", |s, r| {
        let counts = mem::convert_utf16_to_utf8_partial(&s.units, r.bounded_bytes());
        r.tell_counts(counts)
    }),
    ("convert_utf16_to_utf8", |s, r| r.written = mem::convert_utf16_to_utf8(&s.units, &mut r.bytes)),
    ("convert_utf16_to_str_partial", |s, r| {
        let counts = mem::convert_utf16_to_str_partial(&s.units, into_text(r.text(3 * s.units.len())));
        r.tell_counts(counts)
    }),
    ("convert_latin1_to_str_partial", |s, r| {
        let counts = mem::convert_latin1_to_str_partial(&s.latin1, into_text(r.text(2 * s.latin1.len())));
        r.tell_counts(counts)
    }),
    ("utf8_valid_up_to", |s, r| r.reported[0] = utf_8::utf8_valid_up_to(&s.bytes)),
    ("convert_utf8_to_utf16_up_to_invalid", |s, r| {
        let counts = utf_8::convert_utf8_to_utf16_up_to_invalid(&s.bytes, r.bounded_units());
        r.tell_counts(counts)
    }),
];

/// Returns whether `repair_to` writes what `repair_slice` does.
fn repairs_alike(source: &Source) -> bool {
    let mut room = Room::of(source, "q");
    let repaired = ffi::encoding_text_repair_slice(&source.bytes, &mut room.bytes);
    let mut text = Vec::new();
    let replaced = repair_to(&source.bytes, &mut text).expect("a vector takes it");
    text == room.bytes[..repaired.written] && replaced == repaired.replaced
}

/// Asserts that both engines have the same results on each kind of text.
fn compare(row: &Row, engine: &Engine) {
    for (kind, size) in KINDS.iter().flat_map(|kind| SIZES[..4].iter().map(move |size| (*kind, *size))) {
        for source in &sources(kind, size) {
            let (mut ours, mut theirs) = (Room::of(source, "q"), Room::of(source, "q"));
            if row.is_measured(source) {
                (row.engines[0].1)(from_ref(source), &mut ours, 1);
                (engine.1)(from_ref(source), &mut theirs, 1);
                if !ours.agrees(&theirs) || !repairs_alike(source) {
                    eprintln!("{}: {} of {size} bytes: Rust returns something else", row.name, kind.name());
                    crate::end(1);
                }
            }
        }
    }
}

/// Prints what each row costs in C and in Rust on sixteen letters, in nanoseconds. The status is 1 if one costs more
/// than the bound more.
pub fn calls() {
    let sources = &sources(KINDS[0], SIZES[0])[..1];
    let mut most = f64::NEG_INFINITY;
    for engine in RUST {
        let name = engine.0;
        let row = rows::all().find(|row| row.name == name).expect("a row of the table");
        compare(row, engine);
        let (mut ours, mut theirs) = (Room::of(&sources[0], "q"), Room::of(&sources[0], "q"));
        let times = times(&row.engines[0], sources, &mut ours, row.length(&sources[0])) / 1000 + 1;
        let mut best = [f64::INFINITY; 2];
        for _ in 0..PASSES {
            best[0] = best[0].min(seconds(&row.engines[0], sources, &mut ours, times));
            best[1] = best[1].min(seconds(engine, sources, &mut theirs, times));
        }
        let [c, rust] = best.map(|seconds| seconds / times as f64 * 1e9);
        println!("{name:44} {c:8.2} {rust:8.2} {:+8.2}", rust - c);
        most = most.max(rust - c);
    }
    println!("at most {most:.2} ns more a call than in C");
    crate::end((most > BOUND).into());
}
