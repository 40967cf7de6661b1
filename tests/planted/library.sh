# Faults in programs in C and in the library. tests/checks sources this file.
# shellcheck shell=bash disable=SC2016,SC2154 # the text is of other languages, and tests/checks sets the names

. tests/c/library.sh

# A program in C that checks nothing.
rows_of_library() {
    mkdir "$room"
    printf '#include "check.h"\nint main(void) { return finish(); }\n' > "$room/nothing.c"
    step 'a program in C without checks builds' "${CC:-cc}" -std=c99 -Ic/include -Itests/c -o "$room/nothing" "$room/nothing.c" tests/c/check.c
    step 'a program in C without checks' refuses ./nothing
}

# A plain load or store in place of an atomic one in c/choose.c: the thread sanitizer has to see it.
rows_of_choice() {
    local race=$work/race
    mkdir -p "$race/c" "$race/tests/c"
    : > "$race/names.h"
    cp tests/c/choice.c "$race/tests/c"
    if echo 'int main(void) { return 0; }' | "${CC:-cc}" -fsanitize=thread -x c -o "$race/none" - 2> "$work/said" && "$race/none" 2> "$work/said"; then
        step 'choice of a build, a plain load' races 's/__atomic_load_n(&answer, __ATOMIC_RELAXED)/answer/'
        step 'choice of a build, a plain store' races 's/__atomic_store_n(&answer, known, __ATOMIC_RELAXED)/answer = known/'
    else
        echo "choice of a build, a plain load and store: left out, ${CC:-cc} has no thread sanitizer that runs here"
    fi
}
races() { # a script of sed
    sed "$1" c/choose.c > "$race/c/choose.c"
    ! cmp -s c/choose.c "$race/c/choose.c" &&
        "${CC:-cc}" -std=gnu99 -pthread -fsanitize=thread -I "$race" -o "$race/choice" "$race/tests/c/choice.c" &&
        ! "$race/choice" > "$work/said" 2>&1 && grep -m 1 'data race' "$work/said"
}

# A tree in which all is built, as far as make sees: files of no content, a second older than what changes after them.
built_tree() {
    local cpu shared
    shared=libencoding_text.so.$(awk '$2 ~ /_VERSION_MAJOR$/ {print $3}' c/include/encoding_text.h)
    fresh
    rm "$room/Makefile"
    cp "$whole/Makefile" "$room"
    mkdir -p "$room"/build/{x86-64-v2,x86-64-v3,aarch64,both}
    linked=(build/{names,exports} build/both/{libencoding_text.a,"$shared",utf8_repair,utf8_check} build/{x86-64-v2,x86-64-v3}/libencoding_text.a
        build/x86-64-v2/utf8_{repair,check})
    ! has aarch64-linux-gnu-gcc || linked+=(build/aarch64/{libencoding_text.a,"$shared",utf8_repair,utf8_check})
    (cd "$room" && for cpu in x86-64-v2 x86-64-v3 aarch64; do
        touch -d '1 second ago' build/$cpu/{libencoding_c.a,utf8_{repair,check}.proved{,.o}}
    done && touch -d '1 second ago' Makefile "${linked[@]}")
}

# Succeeds if make would run a command as often.
makes() { # a part of the command, the number
    gives "$2\n" grep -c -e "$1" "$work/commands"
}
makes_nothing() {
    make -C "$room" -n "${linked[@]}" > "$work/commands" 2>&1 && ! grep -v 'is up to date\|directory' "$work/commands"
}

rows_of_makefile() {
    local machines=2 linked=()
    built_tree
    has aarch64-linux-gnu-gcc || { machines=1 && left_out 'links for ARM' aarch64-linux-gnu-gcc; }
    step 'make with all of it built' makes_nothing
    sed -i 's/ -Wl,-soname,$(SHARED)//' "$room/Makefile"
    step 'make after a change of Makefile' make -C "$room" -n "${linked[@]}"
    cp "$work/log" "$work/commands"
    step 'it links the shared libraries' makes ' -shared ' $machines
    step 'it has the flags that are left' gives_with 1 '0\n' grep -c soname "$work/commands"
    step 'it makes the archives' makes 'rsD ' $((machines + 1))
    step 'it joins the archives' makes 'c/join ' 1
    step 'it links the programs' makes ' -r -o ' $((2 * machines))
    step 'it proves nothing' gives_with 1 '0\n' grep -c 'tools/progress\|rt lib\|rt run' "$work/commands"
}

# An object with one function that takes vectors apart: up to a number of bytes may be.
rows_of_vectors() {
    if [ "$(uname -m)" = x86_64 ]; then
        tools='' compiler=${CC:-cc}
        rows_of_machine 'pinsrb $0, %eax, %xmm0' 'pmovmskb %xmm0, %eax' 32
    fi
    if has aarch64-linux-gnu-gcc; then
        tools=aarch64-linux-gnu- compiler=aarch64-linux-gnu-gcc
        rows_of_machine 'ins v0.b[1], w0' 'tbl v0.16b, {v1.16b}, v2.16b' 8
    else
        left_out 'vectors on ARM' aarch64-linux-gnu-gcc
    fi
}
rows_of_machine() { # the instruction for a byte, one for a whole vector, the most of the first
    local machine
    machine=$("$compiler" -dumpmachine)
    step "vectors for $machine, the most bytes" vectors "$1" "$2" "$3"
    step "vectors for $machine, one more" takes_apart "$1" "$2" $(($3 + 1))
    step "vectors for $machine, none whole" takes_apart "$1" nop 0
}
vectors() { # both instructions, how often the first
    printf '.text\n.globl f\n.type f, %%function\nf:\n.rept %s\n%s\n.endr\n%s\n' "$3" "$1" "$2" > "$work/f.s"
    "$compiler" -c -o "$work/f.o" "$work/f.s" && library=$work/f.o keeps_vectors_whole
}
takes_apart() { # both instructions, how often the first
    ! vectors "$@" && [ -s "$work/f.o" ]
}
