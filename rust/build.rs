//! Finds the static library: in `ENCODING_TEXT_LIB_DIR`, else with `pkg-config`, else in this crate, if it was packed with
//! one. Otherwise `make` builds it at the top of the repository.
use std::env;
use std::fs;
use std::path::{Path, PathBuf};
use std::process::{self, Command, Stdio};

const FILE: &str = "libencoding_text.a";
/// The oldest version whose library has each function that this crate calls.
const OLDEST: &str = "0.1.1";
/// The symbol of a library that is laid out as this crate says.
const LAYOUT: &str = concat!(
    "encoding_text_layout_",
    env!("CARGO_PKG_VERSION_MAJOR"),
    "_",
    env!("CARGO_PKG_VERSION_MINOR")
);
const HELP: &str =
    "libencoding_text.a was not found: set ENCODING_TEXT_LIB_DIR to the folder that holds it, or install it \
    for pkg-config (make install), or put rt and make on the PATH in a checkout of the repository";

fn main() {
    println!("cargo:rerun-if-env-changed=ENCODING_TEXT_LIB_DIR");
    let folder = named()
        .or_else(installed)
        .or_else(packed)
        .or_else(built)
        .unwrap_or_else(|| refuse(HELP));
    let file = folder.join(FILE);
    let symbols = symbols(&file);
    if !symbols.iter().any(|name| name == LAYOUT) {
        refuse(&format!(
            "{} is no library of version {}: set ENCODING_TEXT_LIB_DIR to the folder of one",
            file.display(),
            series().0
        ));
    }
    if let Some(missing) = called().into_iter().find(|name| !symbols.contains(name)) {
        refuse(&format!(
            "{} is older than version {OLDEST}, since it has no {missing}: set ENCODING_TEXT_LIB_DIR to the folder of a newer one",
            file.display()
        ));
    }
    println!("cargo:rerun-if-changed={}", file.display());
    println!("cargo:rustc-link-search=native={}", folder.display());
    println!("cargo:rustc-link-lib=static=encoding_text");
}

fn refuse(why: &str) -> ! {
    eprintln!("error: encoding_text: {why}");
    process::exit(1)
}

/// Returns the first number of the version, before 1.0 with the second, and the number after it: libraries from the one
/// up to the other are compatible.
fn series() -> (String, String) {
    let number = |text: &str| {
        text.parse::<u32>()
            .unwrap_or_else(|_| refuse("its version is no number"))
    };
    let major = number(env!("CARGO_PKG_VERSION_MAJOR"));
    let minor = number(env!("CARGO_PKG_VERSION_MINOR"));
    if major == 0 {
        (format!("0.{minor}"), format!("0.{}", minor + 1))
    } else {
        (major.to_string(), (major + 1).to_string())
    }
}

/// Returns the symbols that the index of the archive names. After 68 bytes, which are the same in each archive but for dates
/// and sizes, the index has the number of symbols, an offset of four bytes for each, and their names.
fn symbols(file: &Path) -> Vec<String> {
    let bytes = fs::read(file).unwrap_or_default();
    let named = |index: &[u8]| {
        let count = u32::from_be_bytes(index.get(..4)?.try_into().ok()?) as usize;
        let names = index.get(4 + 4 * count..)?.split(|byte| *byte == 0);
        Some(
            names
                .take(count)
                .map(|name| String::from_utf8_lossy(name).into_owned())
                .collect(),
        )
    };
    bytes.get(68..).and_then(named).unwrap_or_default()
}

/// Returns the functions of the library that this crate declares.
fn called() -> Vec<String> {
    println!("cargo:rerun-if-changed=src/c.rs");
    let source = fs::read_to_string("src/c.rs").unwrap_or_else(|error| refuse(&format!("src/c.rs: {error}")));
    let words = source.split(|letter: char| !letter.is_ascii_alphanumeric() && letter != '_');
    words
        .filter(|word| word.starts_with("encoding_text_"))
        .map(String::from)
        .collect()
}

/// Returns the folder that the environment names.
fn named() -> Option<PathBuf> {
    let folder = PathBuf::from(env::var_os("ENCODING_TEXT_LIB_DIR")?);
    match folder.canonicalize() {
        Ok(whole) if whole.join(FILE).is_file() => Some(whole),
        _ => refuse(&format!(
            "ENCODING_TEXT_LIB_DIR is {}, where no {FILE} is: set it to the whole path of the folder that holds it",
            folder.display()
        )),
    }
}

/// Returns whether the target is the machine that builds: libraries that are found without being named are for it.
fn is_native() -> bool {
    env::var_os("TARGET") == env::var_os("HOST")
}

/// Runs `pkg-config` and returns its output, or `None` if it fails.
fn pkg_config(words: &[&str]) -> Option<String> {
    let program = env::var_os("PKG_CONFIG").unwrap_or_else(|| "pkg-config".into());
    let output = Command::new(program).args(words).stderr(Stdio::null()).output().ok()?;
    output.status.success().then(|| String::from_utf8(output.stdout).ok())?
}

/// Returns the folder that `pkg-config` reports for the oldest version of the library or a later compatible one.
fn installed() -> Option<PathBuf> {
    for variable in ["PKG_CONFIG", "PKG_CONFIG_PATH", "PKG_CONFIG_LIBDIR"] {
        println!("cargo:rerun-if-env-changed={variable}");
    }
    let (oldest, next) = (
        format!("encoding_text >= {OLDEST}"),
        format!("encoding_text < {}", series().1),
    );
    pkg_config(&["--exists", &oldest, &next])?;
    let folder = PathBuf::from(pkg_config(&["--variable=libdir", "encoding_text"])?.trim_end());
    (is_native() && folder.join(FILE).is_file()).then_some(folder)
}

/// Returns the folder of the library that the crate was packed with for this target: for x86-64 Linux with glibc, and in
/// `x86_64-none` and `aarch64-none` those that need nothing of the system. The latter may use each register, so they are for
/// Linux with glibc or musl alone: Android, OpenHarmony and others reserve x18 on ARM.
fn packed() -> Option<PathBuf> {
    let crate_folder = PathBuf::from(env::var_os("CARGO_MANIFEST_DIR")?);
    let has = |folder: &PathBuf| folder.join(FILE).is_file();
    let of_no_system = |machine: &str| crate_folder.join(format!("{machine}-none"));
    if !has(&of_no_system("x86_64")) {
        return None;
    }
    let target = |name: &str| env::var(format!("CARGO_CFG_TARGET_{name}")).unwrap_or_default();
    let machine = target("ARCH");
    let for_glibc = crate_folder.join(format!("{machine}-linux-{}", target("ENV")));
    let is_linux = target("OS") == "linux" && ["gnu", "musl"].contains(&target("ENV").as_str());
    let is_64_bit = target("POINTER_WIDTH") == "64" && target("ENDIAN") == "little";
    let found = [for_glibc, of_no_system(&machine)].into_iter().find(has);
    match found {
        Some(folder) if is_linux && is_64_bit => Some(folder),
        _ => refuse(&format!(
            "the crate has libraries for x86-64 and 64-bit ARM Linux with glibc or musl, and the target is {}: set \
            ENCODING_TEXT_LIB_DIR to the folder of a library for it",
            env::var("TARGET").unwrap_or_default()
        )),
    }
}

/// Returns the folder `build` of the repository, after `make`, which does nothing if the library is newer than its
/// sources.
fn built() -> Option<PathBuf> {
    let crate_folder = PathBuf::from(env::var_os("CARGO_MANIFEST_DIR")?);
    let top = crate_folder.join("..").canonicalize().ok()?;
    if !is_native() || !top.join("c/include/encoding_text.h").is_file() {
        return None;
    }
    println!("cargo:rerun-if-changed={}", top.join("Makefile").display());
    for library in top.join("crates").read_dir().ok()?.flatten() {
        println!("cargo:rerun-if-changed={}", library.path().join("src").display());
    }
    let made = Command::new("make")
        .args(["-s", "build/libencoding_text.a"])
        .current_dir(&top)
        .env_remove("MAKEFLAGS")
        .stdout(Stdio::null())
        .status()
        .ok()?;
    let folder = top.join("build");
    (made.success() && folder.join(FILE).is_file()).then_some(folder)
}
