# Functions of the scripts that pack a release. Each script sources this file first.
# shellcheck shell=bash

# Ends with one line that says what to do.
stop() { # the line
    echo "make release: $1" >&2
    exit 1
}

need() { # a command
    command -v "$1" > /dev/null || stop "$1 is not installed: release/setup installs it on Debian, and rustup installs cargo"
}

# The machines of a release, by the first part of their names.
# shellcheck disable=SC2034 # the scripts use them
machines=(x86_64 aarch64)

# The programs of a release.
# shellcheck disable=SC2034 # the scripts use them
programs=(utf8_repair utf8_check)

# Debian's static C library for 64-bit ARM, with security updates, which release/arm_libc unpacks there.
arm_libc=${XDG_CACHE_HOME:-${HOME:-}/.cache}/encoding_text/libc-arm64

# Sets what depends on the machine: what GNU, Debian and readers call it, how the names of its tools begin, its compiler, the
# package of its C library, and the words that link another one. Then the folder of its build, and that of the archive that
# needs nothing of a system.
# shellcheck disable=SC2034 # the scripts use them
select_machine() { # the machine
    triplet=$1-linux-gnu
    case $1 in
        x86_64)
            architecture=amd64 named='x86-64' tools='' compiler=${CC:-cc} c_library=libc6-dev built=build plain=build/x86-64-v2
            linking=()
            ;;
        aarch64)
            architecture=arm64 named='64-bit ARM' tools=${CROSS:-aarch64-linux-gnu-} compiler=${CROSS:-aarch64-linux-gnu-}gcc
            c_library=libc6-dev-arm64-cross built=build/aarch64 plain=build/aarch64
            linking=()
            [ ! -f "$arm_libc/version" ] || linking=("-B$arm_libc/lib" "-L$arm_libc/lib")
            ;;
    esac
}

# Prints the source of the C library that is linked into the programs: glibc (= VERSION). A package for another machine names
# it as one of several.
source_of_libc() {
    local several
    if [ "${#linking[@]}" != 0 ]; then
        echo "glibc (= $(cat "$arm_libc/version"))"
    else
        several=$(dpkg-query -Wf '${Built-Using}' "${c_library:?}")
        grep -o 'glibc (= [^)]*)' <<< "$several" || dpkg-query -Wf '${source:Package} (= ${source:Version})' "$c_library"
    fi
}

# Installs into an empty folder what `make install` does, with the programs that $work has. Debug information goes.
put() { # the folder, PREFIX, LIBDIR, RELOCATABLE
    DESTDIR=$1 PREFIX=$2 LIBDIR=$3 RELOCATABLE=$4 BUILD=${built:?} INCLUDEDIR=${2%/}/include c/install install > /dev/null
    install -m 755 "${programs[@]/#/${work:?}/}" "$1${2%/}/bin"
    "${tools?}strip" --strip-unneeded -R .comment "$1$3/${SHARED:?}"
    put_archive build "$1$3/libencoding_text.a"
}

# Copies an archive without debug information.
put_archive() { # of the `build` for programs, or the `plain` one; the file
    local from=${built:?}
    [ "$1" = build ] || from=${plain:?}
    mkdir -p "$(dirname "$2")"
    "${tools?}strip" --strip-debug -R .comment --enable-deterministic-archives -o "$2" "$from/libencoding_text.a"
    chmod 644 "$2"
}

# Prints a page with the values for this machine filled in.
for_machine() { # the page
    sed "s/@NAMED@/${named:?}/; s/@TRIPLET@/${triplet:?}/; s/@ARCHITECTURE@/${architecture:?}/" "$1"
}

# Prints a page for a reader who doesn't have the repository: a link becomes its text.
without_links() { # the page
    sed -E 's/!?\[([^]]*)\]\(([^):]*)\)/\1/g' "$1"
}

# Gives everything in a folder the date of the release, and the modes that don't depend on who packs.
settle() { # the folder
    chmod -R u=rwX,go=rX "$1"
    find "$1" -exec touch -hd "@${SOURCE_DATE_EPOCH:?}" {} +
}
