//! Measures each row of the public surface compared with std, `encoding_rs`, `simdutf8` and simdutf, all in one run,
//! interleaved, and compares their results.
//!
//! simdutf is in the executable of Node.js, which can't be linked or loaded. So this is a shared library that Node.js
//! loads as an addon. The script that does so, `bench/common.sh`, passes these arguments after the library's name:
//!
//! - none: prints a table of ratios, ours to the best peer, with our throughput in GB/s of source, and writes the same
//!   to `build/bench.tsv`. Before timing, each engine's whole output is compared with ours, and a difference ends the
//!   run.
//! - `simdutf` measures only ours, simdutf's kernel of the same width, and simdutf's own choice, if simdutf has the
//!   call, and prints their throughputs.
//! - `count SIZE [ROW..]` runs each engine once on a text of about SIZE bytes. Under callgrind, each run is a dump. It also has
//!   streams of UTF-16, plain and damaged (module `utf16_streams`), and the functions without a peer (module `rows::others`).
//!   Of sizes from 65 to 999 it takes two kinds of text.
//! - `worst SIZE [ROW..]` runs ours once on plain text and on each of 200 patterns of SIZE bytes, each a dump under callgrind.
//! - `calls` compares the Rust crate with C on each row that is one call, and prints what one costs on sixteen letters
//!   in both; the status is 1 if Rust takes 2 ns more. It needs no simdutf, so the program has it too.
//! - `fuzz COUNT [SEED]` compares whole outputs on COUNT random and damaged texts.
//!
//! All engines are measured alike. Ours are called as functions of a library for C, and each peer through a function
//! that isn't inlined either, all through an address (module `call`). C has no type for a text. If a row takes or
//! returns one (`str` in its name, and `encode_from_utf8`), each engine starts with bytes and validates them: ours in
//! its function for C, a peer by `std::str::from_utf8` (module `rows`). If a row's call returns the element after a
//! prefix, peers have to find that too.
//!
//! Without the feature `peers` only ours are there, so that nothing else has to be installed (`tests/counts/run`).
#![cfg_attr(not(feature = "peers"), allow(unused))]

mod call;
mod count;
mod ffi;
mod fuzz;
mod kinds;
mod measure;
mod room;
mod rows;
#[cfg(feature = "rust")]
mod rust;
mod simdutf;
mod streams;
mod texts;
mod utf16_streams;
mod worst;

use std::ffi::{c_int, c_void};
use std::io::Write;
use std::{env, io, panic};

/// The processors that ours is built for.
const CPU: &str = env!("CPU");

/// What Node.js calls after it has loaded the addon.
#[no_mangle]
pub extern "C" fn napi_register_module_v1(_: *mut c_void, exports: *mut c_void) -> *mut c_void {
    let arguments = env::args().skip_while(|it| !it.ends_with(".so")).skip(1).collect();
    if panic::catch_unwind(|| run(arguments)).is_err() {
        end(1);
    }
    exports
}

/// Does what the arguments ask for, and ends the process.
pub fn run(arguments: Vec<String>) {
    let arguments: Vec<&str> = arguments.iter().map(String::as_str).collect();
    match arguments.as_slice() {
        [] => measure::table(),
        ["simdutf"] => measure::beside_simdutf(),
        ["count", size, rows @ ..] => count::count(number(size) as usize, rows),
        ["worst", size, rows @ ..] => count::worst(number(size) as usize, rows),
        #[cfg(feature = "rust")]
        ["calls"] => rust::calls(),
        ["fuzz", count] => fuzz::fuzz(number(count), 1),
        ["fuzz", count, seed] => fuzz::fuzz(number(count), number(seed)),
        _ => usage(),
    }
    end(0)
}

/// Ends the process. Node.js has threads, which its own handlers at exit would disturb.
fn end(status: c_int) -> ! {
    extern "C" {
        fn _exit(status: c_int) -> !;
    }
    let _ = io::stdout().flush();
    // SAFETY: it has no precondition.
    unsafe { _exit(status) }
}

fn number(argument: &str) -> u64 {
    argument.parse().unwrap_or_else(|_| usage())
}

fn usage() -> ! {
    eprintln!("usage: [simdutf | calls | count SIZE [ROW..] | worst SIZE [ROW..] | fuzz COUNT [SEED]]");
    end(2)
}
