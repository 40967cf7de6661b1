//! The benchmark as a program of its own, which has no simdutf.

use std::env;

fn main() {
    bench::run(env::args().skip(1).collect())
}
