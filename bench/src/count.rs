//! Runs of single engines, whose instructions callgrind counts.

use crate::kinds::{source, Kind, Source, KINDS};
use crate::measure::room;
use crate::rows::{self, others};
use crate::utf16_streams;
use crate::worst;
use std::arch::asm;
use std::ffi::CString;
use std::slice::from_ref;

/// What callgrind is asked for, by the numbers of its client requests.
#[derive(Clone, Copy)]
enum Request {
    ZeroStats = 0x4354_0001,
    DumpStatsAt = 0x4354_0003,
    StartInstrumentation = 0x4354_0004,
    StopInstrumentation = 0x4354_0005,
}

/// Makes a request to callgrind. Without it this does nothing.
fn request(what: Request, argument: usize) {
    let arguments: [usize; 6] = [what as usize, argument, 0, 0, 0, 0];
    // SAFETY: the rotations leave rdi unchanged, and the exchange is of a register with itself: callgrind looks for
    // these five instructions, and reads the arguments at rax.
    unsafe {
        asm!(
            "rol rdi, 3", "rol rdi, 13", "rol rdi, 61", "rol rdi, 51", "xchg rbx, rbx",
            in("rax") arguments.as_ptr(), inout("rdx") 0_usize => _,
        );
    }
}

/// Of these sizes only two kinds of text are counted.
const FEW_SIZES: std::ops::Range<usize> = 65..1_000;

/// Returns what is counted: a text, or several that together have about 4 KiB.
fn texts_of(kind: Kind, size: usize) -> Vec<Source> {
    let count = ((4 << 10) / size).clamp(1, 64) as u64;
    (0..count).map(|which| source(kind, size, which)).collect()
}

/// Runs each engine of the rows that are named, or of all, once on each text of each kind, between requests.
pub fn count(size: usize, names: &[&str]) {
    let kinds = if FEW_SIZES.contains(&size) { &others::TEXTS[..] } else { &KINDS[..] };
    let texts: Vec<Vec<Source>> = kinds.iter().map(|kind| texts_of(*kind, size)).collect();
    request(Request::StartInstrumentation, 0);
    for row in rows::all().filter(|row| names.is_empty() || names.contains(&row.name)) {
        for (kind, sources) in kinds.iter().zip(&texts) {
            if sources.iter().all(|source| row.is_measured(source)) {
                let length: usize = sources.iter().map(|source| row.length(source)).sum();
                for engine in row.engines.iter().filter(|engine| !rows::is_own(engine)) {
                    let label = format!("{}|{}|{}|{length}", row.name, kind.name(), engine.0);
                    let mut room = room(sources);
                    dump(label, &mut || (engine.1)(sources, &mut room, sources.len() as u64));
                }
            }
        }
    }
    utf16_streams::each(size, |row, text, engine, length, run| {
        if names.is_empty() || names.contains(&row) {
            dump(format!("{row}|{text}|{engine}|{length}"), run);
        }
    });
    for kind in others::TEXTS {
        others::each(kind, &texts_of(kind, size), |row, length, run| {
            if names.is_empty() || names.contains(&row) {
                dump(format!("{row}|{}|ours|{length}", kind.name()), run);
            }
        });
    }
    request(Request::StopInstrumentation, 0);
}

/// Runs ours, in each row that is named or in all, once on plain text and on each pattern, between requests.
pub fn worst(size: usize, names: &[&str]) {
    let sources = worst::sources(size);
    request(Request::StartInstrumentation, 0);
    for row in rows::all().filter(|row| names.is_empty() || names.contains(&row.name)) {
        for (name, source) in sources.iter().filter(|(_, source)| row.is_measured(source)) {
            let mut room = room(from_ref(source));
            let label = format!("{}|{name}|{}|{}", row.name, row.engines[0].0, row.length(source));
            dump(label, &mut || (row.engines[0].1)(from_ref(source), &mut room, 1));
        }
    }
    for (name, source) in &sources {
        utf16_streams::of(&source.units, |row, run| {
            if names.is_empty() || names.contains(&row) {
                dump(format!("{row}|{name}|ours|{}", 2 * source.units.len()), run);
            }
        });
    }
    request(Request::StopInstrumentation, 0);
}

/// Dumps the instructions of one run.
fn dump(label: String, run: &mut dyn FnMut()) {
    // once before, so that symbols are found and pages are mapped
    run();
    let label = CString::new(label).expect("no row has a NUL in its name");
    request(Request::ZeroStats, 0);
    run();
    request(Request::DumpStatsAt, label.as_ptr() as usize);
}
