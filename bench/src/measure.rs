//! The table of throughputs, and the comparison with simdutf.

use crate::kinds::{sources, Kind, Source, KINDS, SIZES};
use crate::room::Room;
use crate::rows::{self, Engine, Reads, Row};
use crate::{end, simdutf, CPU};
use std::fmt::Write as _;
use std::slice::from_ref;
use std::time::Instant;
use std::{env, fs};

/// How many interleaved passes there are, unless PASSES, an environment variable, sets it. The best of each engine
/// counts.
const PASSES: usize = 9;

/// How many bytes of source an engine is given in one pass at first.
const VOLUME: usize = 1 << 20;

/// How long a pass takes at least, in seconds.
const LEAST: f64 = 1e-3;

/// Returns a destination full of letters, long enough for each source.
pub fn room(sources: &[Source]) -> Room {
    Room::of(sources.iter().max_by_key(|source| source.bytes.len()).expect("a source"), "q")
}

fn compare(row: &Row, kind: Kind, source: &Source) {
    let source = from_ref(source);
    let mut ours = room(source);
    (row.engines[0].1)(source, &mut ours, 1);
    for (name, run) in &row.engines[1..] {
        let mut theirs = room(source);
        run(source, &mut theirs, 1);
        if !ours.agrees(&theirs) {
            eprintln!("{}: {} of {} bytes: {name} returns something else", row.name, kind.name(), source[0].bytes.len());
            end(1);
        }
    }
}

pub fn seconds(engine: &Engine, sources: &[Source], room: &mut Room, times: u64) -> f64 {
    let start = Instant::now();
    (engine.1)(sources, room, times);
    start.elapsed().as_secs_f64()
}

/// Returns how often an engine is called in one pass: each source as often as all others.
pub fn times(engine: &Engine, sources: &[Source], room: &mut Room, length: usize) -> u64 {
    let mut rounds = (VOLUME / length.max(1)).max(1) as u64;
    while seconds(engine, sources, room, rounds * sources.len() as u64) < LEAST {
        rounds *= 2;
    }
    rounds * sources.len() as u64
}

/// Returns the best throughput of each engine, in GB/s of source.
fn measure(row: &Row, sources: &[Source], engines: &[&Engine]) -> Vec<f64> {
    let passes = env::var("PASSES").map_or(PASSES, |passes| passes.parse().expect("PASSES is a number"));
    let length: usize = sources.iter().map(|source| row.length(source)).sum();
    let mut room = room(sources);
    let times: Vec<u64> = engines.iter().map(|engine| times(engine, sources, &mut room, length)).collect();
    let mut best = vec![0.0_f64; engines.len()];
    for _ in 0..passes {
        for ((engine, times), best) in engines.iter().zip(&times).zip(&mut best) {
            // A shorter run first, so that what the engine before left in caches and vector units doesn't count.
            seconds(engine, sources, &mut room, times / 4 + 1);
            let seconds = seconds(engine, sources, &mut room, *times);
            *best = best.max(length as f64 * (*times as f64 / sources.len() as f64) / seconds / 1e9);
        }
    }
    best
}

/// Returns the sources of a cell of the table, after comparing all engines on each, or `None` if the row isn't
/// measured.
fn compared(row: &Row, kind: Kind, size: usize) -> Option<Vec<Source>> {
    let sources = sources(kind, size);
    if !sources.iter().all(|source| row.is_measured(source)) {
        return None;
    }
    sources.iter().for_each(|source| compare(row, kind, source));
    Some(sources)
}

/// Above this many GB/s of source, a call has ended at its first bytes.
const SOON: f64 = 250.0;

/// Compares and measures one cell of the table, and returns what is printed there.
fn cell(row: &Row, kind: Kind, size: usize, values: &mut String) -> String {
    let Some(sources) = compared(row, kind, size) else {
        return String::new();
    };
    let engines: Vec<&Engine> = row.engines.iter().filter(|engine| !rows::is_own(engine)).collect();
    let found = measure(row, &sources, &engines);
    let (peer, best) = engines[1..].iter().zip(&found[1..])
        .map(|((name, _), speed)| (*name, *speed))
        .fold(("", 0.0), |a, b| if b.1 > a.1 { b } else { a });
    let (ours, ratio) = (found[0], found[0] / best);
    writeln!(values, "{}\t{}\t{size}\t{ours:.3}\t{peer}\t{best:.3}\t{ratio:.3}", row.name, kind.name()).unwrap();
    if ours < SOON { format!("{ratio:.2} ({ours:.1})") } else { format!("{ratio:.2} (soon)") }
}

pub fn table() {
    println!("ours built for {CPU}, simdutf's kernel {}", simdutf::name());
    let mut values = String::from("row\tkind\tsize\tours\tpeer\tbest\tratio\n");
    for row in rows::all() {
        println!("\n{}", row.name);
        print!("{:>10}", "bytes");
        KINDS.iter().for_each(|kind| print!("{:>14}", kind.name()));
        println!();
        for size in SIZES {
            print!("{size:>10}");
            KINDS.iter().for_each(|kind| print!("{:>14}", cell(row, *kind, size, &mut values)));
            println!();
        }
    }
    fs::write(concat!(env!("CARGO_MANIFEST_DIR"), "/../build/bench.tsv"), values).expect("build/bench.tsv");
}

/// What the comparison with simdutf has: short texts, those that stay in caches, long ones.
const BESIDE: [usize; 3] = [64, 4 << 10, 1 << 20];

/// Returns whether the comparison with simdutf has the kind: well-formed texts, only ASCII if the call ends at the
/// first byte above it, and for rows on Latin1 none that is mostly one repeated character.
fn is_beside(row: &Row, kind: Kind) -> bool {
    let is_latin1 = matches!(row.reads, Reads::Latin1 | Reads::Latin1Text | Reads::Latin1Units);
    match kind {
        Kind::Ascii => true,
        Kind::MalformedAscii | Kind::MalformedLatin => false,
        Kind::Latin | Kind::Prose | Kind::Html | Kind::Json | Kind::Code | Kind::Logs => !row.name.contains("ascii"),
        _ => !row.name.contains("ascii") && !is_latin1,
    }
}

/// Returns the best throughput of those engines that are one.
fn best(engines: &[&Engine], found: &[f64], is_one: fn(&Engine) -> bool) -> f64 {
    engines.iter().zip(found).filter(|(engine, _)| is_one(engine)).fold(0.0, |best, (_, speed)| speed.max(best))
}

/// Prints the throughputs of ours, of simdutf's kernel and of its choice, each by its best call: one line for each
/// cell, with tabs. The first line has the names of the kernels.
pub fn beside_simdutf() {
    println!("row\tkind\tsize\tours\t{}\t{}", simdutf::name(), simdutf::chosen());
    for row in rows::all().filter(|row| row.engines.iter().any(rows::is_kernel)) {
        let is_simdutf = |engine: &&Engine| rows::is_kernel(engine) || rows::is_own(engine);
        let engines: Vec<&Engine> = row.engines[..1].iter().chain(row.engines.iter().filter(is_simdutf)).collect();
        for kind in KINDS.into_iter().filter(|kind| is_beside(row, *kind)) {
            for size in BESIDE {
                let sources = compared(row, kind, size).expect("a well-formed text");
                let found = measure(row, &sources, &engines);
                let (kernel, own) = (best(&engines, &found, rows::is_kernel), best(&engines, &found, rows::is_own));
                println!("{}\t{}\t{size}\t{:.3}\t{kernel:.3}\t{own:.3}", row.name, kind.name(), found[0]);
            }
        }
    }
}
