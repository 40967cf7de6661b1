//! Links a static library that `make` built: from `build/CPU/` if CPU, an environment variable, names processors, and
//! else from `build/`. Passes to the program which processors it is built for.
use std::path::Path;
use std::{env, fs};

fn main() {
    let here = env::var("CARGO_MANIFEST_DIR").expect("cargo says where the crate is");
    let build = Path::new(&here).join("../build");
    let asked = env::var("CPU").ok();
    let folder = asked.as_ref().map_or(build.clone(), |cpu| build.join(cpu));
    let cpu = asked.unwrap_or_else(|| fs::read_to_string(build.join("cpu")).expect("make leaves build/cpu"));
    println!("cargo:rustc-link-search=native={}", folder.display());
    println!("cargo:rustc-link-lib=static=encoding_text");
    println!("cargo:rustc-env=CPU={}", cpu.trim());
    println!("cargo:rerun-if-env-changed=CPU");
    println!("cargo:rerun-if-changed={}", folder.join("libencoding_text.a").display());
    println!("cargo:rerun-if-changed={}", build.join("cpu").display());
}
