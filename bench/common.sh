# shellcheck shell=bash
# Sourced by the scripts of this folder, which run in it. Nothing here installs anything: what is missing is named, and
# bench/setup has the command that gets it.

# Debian's crates, and the packages that have a command or a crate.
registry=/usr/share/cargo/registry
declare -A packages=([node]=nodejs [gnuplot]=gnuplot-nox [valgrind]=valgrind [python3]=python3 [uconv]=icu-devtools
    [aarch64-linux-gnu-gcc]=gcc-aarch64-linux-gnu [qemu-aarch64]=qemu-user [parallel]=parallel [encoding_rs]=librust-encoding-rs-dev [simdutf8]=librust-simdutf8-dev)

# The Node.js whose simdutf is the peer, the command under which it runs, and the features of the benchmark.
node=${NODE:-node}
under=()
features=

ends() { # why, and what to do
    echo "bench/${0##*/}: $1" >&2
    exit 1
}

has() { # a command or a crate
    case $1 in
        encoding_rs | simdutf8) compgen -G "$registry/$1-*" > /dev/null ;;
        node) command -v "$node" > /dev/null ;;
        *) command -v "$1" > /dev/null ;;
    esac
}

# Prints the file from which Node.js exports simdutf: its executable, or a library that it loads.
simdutf_file() {
    local program file
    program=$(readlink -f "$(command -v "$node")")
    for file in "$program" $(ldd "$program" 2> /dev/null | awk '$3 ~ /^\// {print $3}'); do
        if nm -D --defined-only "$file" 2> /dev/null | grep _ZTVN7simdutf8westmere14implementationE > /dev/null; then
            echo "$file"
            return
        fi
    done
    return 1
}

# Ends with a message unless all of these are there, and cargo for the crates.
need() {
    local name missing=
    for name in "$@"; do
        has "$name" && continue
        missing=1
        echo "bench/${0##*/}: $name is missing; the package ${packages[$name]} has it" >&2
    done
    [ -z "$missing" ] || ends 'bench/setup lists all that is missing, and bench/setup --install installs it'
    if [[ " $* " = *' encoding_rs '* ]] && ! command -v cargo > /dev/null; then
        ends 'cargo is missing: install Rust, by rustup or as a package of your system'
    fi
    if [[ " $* " = *' node '* ]] && ! simdutf_file > /dev/null; then
        ends "$node exports no simdutf: name a Node.js that does by NODE=FILE, such as a build from nodejs.org"
    fi
}

# Names the peer, and the file that it is in.
peer() {
    "$node" -p '"simdutf " + process.versions.simdutf + " of Node.js " + process.versions.node'
    simdutf_file
}

# Names the commit that is measured.
commit() {
    local changed=
    [ -z "$(git status --porcelain -- ../crates ../c ../Makefile ./src)" ] || changed=' and later changes'
    echo "$(git rev-parse --short=12 HEAD)$changed"
}

# Describes the machine: its processor, its cores, its load.
machine() {
    grep -m1 'model name' /proc/cpuinfo | sed 's/.*: //'
    echo "$(nproc) cores, load $(cut -d ' ' -f 1 /proc/loadavg)"
}

# Builds the library, for CPU if that is set, and the benchmark with Debian's crates.
build() {
    make -s -C .. "build/${CPU:+$CPU/}libencoding_text.a"
    mkdir -p .cargo
    cat > .cargo/config.toml <<END
[source.crates-io]
replace-with = "debian"

[source.debian]
directory = "$registry"

[net]
offline = true

# The crate uses what make built here, as the benchmark does.
[env]
ENCODING_TEXT_LIB_DIR = { value = "../build", relative = true }
END
    cargo build --release --quiet ${features:+--features "$features"}
}

# Runs the benchmark in Node.js. Arguments: its library, and what it gets.
in_node() {
    "${under[@]}" "$node" -e 'process.dlopen({exports: {}}, process.argv[1])' "$@"
}
