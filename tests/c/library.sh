# What is checked of a library without running it. A script sets these before it sources this file, after tests/steps.sh:
# `library` and `shared`, the files; `cc`, the compiler; `strict`, its warnings; `tools`, what the names of the binutils for
# the library's machine begin with.
# shellcheck shell=bash disable=SC2154 # the script sets them

# Succeeds if the archive exports exactly what the header declares.
archive_exports() {
    "${tools?}nm" -g --defined-only "${library:?}" | awk 'NF > 1 {print $NF}' | LC_ALL=C sort | diff build/names -
}

# Prints the symbols of the shared library, each with its version node.
symbols() {
    "${tools}nm" -D --defined-only "${shared:?}" | awk '$2 != "A" {print $NF}' | LC_ALL=C sort
}

# Prints what c/symbols.txt lists, in the same form.
listed() {
    cut -d ' ' -f 1 c/symbols.txt | LC_ALL=C sort
}

# Succeeds if the shared library exports exactly what the header declares. A function that c/symbols.txt doesn't list yet is at
# the version node of this version.
shared_exports() {
    symbols > "${work:?}/symbols" && sed 's/@@.*//' "$work/symbols" | diff build/names - && listed > "$work/listed" &&
        LC_ALL=C comm -13 "$work/listed" "$work/symbols" > "$work/new" && ! grep -v "@@ENCODING_TEXT_${VERSION:?}\$" "$work/new"
}

# Succeeds if the shared library wants no executable stack, and all its symbols are bound when it is loaded.
is_hardened() {
    "${tools}readelf" -lW "$shared" | grep -E '^ *GNU_STACK .* RW +0x' && "${tools}readelf" -dW "$shared" | grep -E 'FLAGS_1.* NOW'
}

# Succeeds if the shared library has each symbol of each release of this series, at the version node that it had then.
keeps_symbols() {
    symbols > "$work/symbols" && listed > "$work/listed" && LC_ALL=C comm -23 "$work/listed" "$work/symbols" > "$work/gone" &&
        ! grep . "$work/gone" && grep -c . "$work/listed"
}

# Succeeds if one call costs a static program less than 40 KB: the builds of one function, and no other.
costs_little() { # the call
    printf '#include <encoding_text.h>\n\nint main(void)\n{\n    return %s;\n}\n' "$1" > "${work:?}/one.c"
    echo 'int main(void) { return 0; }' > "$work/none.c"
    # small pages, since a linker for ARM64 fills some of 64 KiB
    # shellcheck disable=SC2054 # the comma is the compiler's
    local link=(-O2 -static -Wl,--gc-sections -z max-page-size=4096)
    "${cc[@]}" "${link[@]}" "${strict[@]}" -o "$work/one" "$work/one.c" "$library"
    "${cc[@]}" "${link[@]}" -o "$work/none" "$work/none.c"
    "${tools}strip" "$work/one" "$work/none"
    local bytes=$(($(stat -c %s "$work/one") - $(stat -c %s "$work/none")))
    echo "$bytes bytes"
    [ "$bytes" -gt 0 ] && [ "$bytes" -lt 40000 ]
}

# Succeeds if no function takes vectors apart byte by byte. That makes a loop several times as slow, which no result shows.
# It fails if it finds no instruction that every build has over whole vectors: then they have other names here.
keeps_vectors_whole() {
    local byte whole most
    case $("${tools}objdump" -f "$library") in
        *elf64-x86-64*) byte='pinsrb' whole='pmovmskb' most=32 ;;
        *elf64-littleaarch64*)
            byte='\t(ins|mov|umov|smov)\t.*v[0-9]+[.]b[[]|\t(ld1|st1)\t[{]v[0-9]+[.]b[}][[]' whole='\ttb[lx]\t' most=8
            ;;
        *) return 1 ;;
    esac
    "${tools}objdump" -d --no-show-raw-insn "$library" | awk -v byte="$byte" -v whole="$whole" -v bound="$most" '
        /^[0-9a-f]+ </ { name = $2 }
        $0 ~ whole { found++ }
        $0 ~ byte && ++bytes[name] > most { most = bytes[name]; worst = name }
        END { print most + 0, worst; exit !found || most > bound }'
}

# Succeeds if an archive needs nothing of the system but the functions that a freestanding compiler may call, and leaves
# nothing to be chosen when it is loaded.
needs_no_system() { # the archive
    "${tools}nm" "$1" > "$work/needs" && grep -c ' T ' "$work/needs" &&
        ! awk '$1 == "U" && $2 !~ /^mem(cpy|move|set|cmp)$/ || $2 == "i"' "$work/needs" | grep .
}
