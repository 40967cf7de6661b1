//! Compares whole outputs on random and damaged texts, in destinations of random length: ours with each peer's, and the
//! rest of ours with what was there before.

use crate::kinds::{Random, Source};
use crate::room::Room;
use crate::rows::{self, Reads, Row};
use crate::{end, texts};
use std::slice::from_ref;

/// What destinations contain before a call: a text with characters of each length.
const TEXT: &str = "q\u{E9}\u{2603}\u{1F600}";

/// Runs `count` cases, each with a seed of its own: `bench fuzz 1 SEED` runs one again. A difference ends the run.
pub fn fuzz(count: u64, seed: u64) {
    for case in 0..count {
        let seed = seed.wrapping_add(case);
        let mut random = Random::seeded(seed);
        let source = texts::source(&mut random);
        let mut fresh = Room::of(&source, TEXT);
        fresh.limit = limit(fresh.bytes.len(), &mut random);
        let (mut ours, mut theirs) = (fresh.clone(), fresh.clone());
        for row in rows::all() {
            if let Err(fault) = compare(row, &source, &fresh, &mut ours, &mut theirs) {
                tell(row, &source, &fresh, &fault, seed);
                end(1);
            }
        }
    }
    println!("{count} texts from seed {seed} on: every row as its peers");
}

/// Returns the length of a bounded call's destination: half of the time one that is often too short.
fn limit(length: usize, random: &mut Random) -> usize {
    let most = [length, length, length / 3, 40][random.below(4) as usize];
    random.below(most as u32 + 1) as usize
}

/// Runs each engine of the row, and reports which one has another result.
fn compare(row: &Row, source: &Source, fresh: &Room, ours: &mut Room, theirs: &mut Room) -> Result<(), String> {
    ours.refill(fresh);
    (row.engines[0].1)(from_ref(source), ours, 1);
    if !row.clears() && !ours.keeps(fresh) {
        return Err("ours changes what follows its output".into());
    }
    for (name, run) in &row.engines[1..] {
        theirs.refill(fresh);
        run(from_ref(source), theirs, 1);
        let same = ours.agrees(theirs) && (!row.clears() || ours.bytes == theirs.bytes);
        if !same {
            return Err(format!(
                "{name} returns something else: {:?} and {} written, ours {:?} and {}",
                theirs.reported, theirs.written, ours.reported, ours.written
            ));
        }
    }
    Ok(())
}

fn tell(row: &Row, source: &Source, fresh: &Room, fault: &str, seed: u64) {
    println!("{}: {fault}", row.name);
    println!("room {}, pieces of {}, source {}", fresh.limit, source.piece, hex(row, source));
    println!("bench fuzz 1 {seed}");
}

/// Returns what the row reads, in hexadecimal.
fn hex(row: &Row, source: &Source) -> String {
    let of_bytes = |bytes: &[u8]| bytes.iter().map(|b| format!("{b:02x}")).collect::<Vec<_>>().join(" ");
    let of_units = |units: &[u16]| units.iter().map(|u| format!("{u:04x}")).collect::<Vec<_>>().join(" ");
    match row.reads {
        Reads::Bytes | Reads::Text => of_bytes(&source.bytes),
        Reads::Units => of_units(&source.units),
        Reads::Latin1 => of_bytes(&source.latin1),
        Reads::Latin1Text => of_bytes(&source.latin1_text),
        Reads::Latin1Units => of_units(&source.latin1_units),
    }
}
