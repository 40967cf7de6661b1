# Faults in scripts, and what scripts say of programs that do nothing. tests/checks sources this file.
# shellcheck shell=bash disable=SC2154 # tests/checks sets the names

# A crate of a few modules with an edit, two scripts of each kind, and a page.
few_scripts() {
    few
    mkdir -p "$room/tests" "$room/crates/a/must-fail"
    cp tools/{lint,edit_counts,limits,rattle.py} "$room/tools"
    cp tests/steps.sh "$room/tests"
    cp .shellcheckrc "$room"
    touch "$room/page.md"
    echo 'file: src/lib.rt' | tee "$room/crates/a/must-fail"/{one,two}.edit > /dev/null
    echo 'a 2' > "$room/tests/edits.txt"
    echo '0 columns src 120' > "$room/tests/limits.txt"
}
rows_of_lint() {
    mkdir -p "$room"/{tools,tests}
    cp tools/lint "$room/tools"
    cp tests/steps.sh "$room/tests"
    step 'tools/lint with no other scripts' refuses tools/lint
    few_scripts
    step 'tools/lint with a few scripts' env -C "$room" tools/lint
    echo 'if true' > "$room/tests/wrong.sh"
    step 'tools/lint with a script that bash cannot read' fails_with '^bash -n tests/wrong.sh: FAILED' tools/lint
    printf '# shellcheck shell=bash\ndiff %s(false) %s(false)\n' '<' '<' > "$room/tests/wrong.sh"
    step 'tools/lint with a status that is lost' fails_with '^keeps_statuses tests/wrong.sh: FAILED' tools/lint
    # shellcheck disable=SC2016 # it is the finding
    printf '# shellcheck shell=bash\necho $1\n' > "$room/tests/wrong.sh"
    if has shellcheck; then
        step 'tools/lint with a finding of shellcheck' fails_with '^shellcheck tests/wrong.sh: FAILED' tools/lint
    else
        left_out 'a finding of shellcheck' shellcheck
    fi
    rm "$room/tests/wrong.sh"
    echo 'import os' > "$room/tests/wrong.py"
    if has pyflakes3; then
        step 'tools/lint with a finding of pyflakes' fails_with '^pyflakes3 tests/wrong.py: FAILED' tools/lint
    else
        left_out 'a finding of pyflakes' pyflakes3
    fi
}
rows_of_lists() {
    few_scripts
    module two 'use crate::one::first;' '' 'pub fn second() -> bool {' '    !first()' '}'
    step 'tools/lint with a cycle of modules' fails_with 'a cycle of modules: a::one > a::two > a::one' tools/lint
    few_scripts
    rm "$room/crates/a/must-fail/two.edit"
    step 'tools/lint with an edit that is deleted' fails_with 'a: FAILED, 1 edits, and tests/edits.txt has 2' tools/lint
    few_scripts
    if has git; then
        git -C "$room" init -q 2> "$work/said" && git -C "$room" add -A && rm "$room/page.md"
        step 'tools/lint with a file that git lists and that is not there' fails_with '^scripts of the shell: FAILED' tools/lint
        step 'tools/lint names it' grep page.md "$work/said"
    else
        left_out 'a file that git lists and that is not there' git
    fi
}

# A script without steps.
rows_of_steps() {
    mkdir "$room"
    printf '. %q\nfinish\n' "$PWD/tests/steps.sh" > "$room/none"
    step 'a script without steps' refuses bash none
}

# Makes a program in a folder that comes first on the PATH.
program() { # its name, its lines
    mkdir -p "$work/bin"
    printf '%s\n' '#!/bin/sh' "${@:2}" > "$work/bin/$1"
    chmod 755 "$work/bin/$1"
}
with_programs() { # the command
    TMPDIR=$work PATH=$work/bin:$PATH "$@"
}

# A test passes with and without a wrong body, then it fails with and without it, and then none is run.
rows_of_caught() {
    local result edit=takes_memory_for_ascii
    fresh
    sed -n 's/^test: //p' tests/caught_by_tests/$edit.edit > "$work/tests"
    for result in ok FAILED; do
        program rt "sed 's/.*/test & ... $result/' '$work/tests'"
        step "tests/caught if a test is $result" with_programs fails_with "is $result without it and $result with it" tests/caught $edit
    done
    program rt true
    step 'tests/caught without tests' with_programs fails_with 'is None without it and None with it' tests/caught $edit
}

# A cargo that builds nothing and runs no test.
rows_of_rust() {
    fresh
    mkdir "$room/build"
    touch "$room/build/libencoding_text.a"
    echo both > "$room/build/cpu"
    program cargo 'echo "test result: ok. 0 passed; 0 failed; 0 ignored; 0 measured; 0 filtered out"'
    program rustc 'echo "host: x86_64-unknown-linux-gnu"'
    step 'tests/rust without tests' with_programs refuses tests/rust
    grep -c '^[a-z ]*tests.*: FAILED$' "$work/said" > "$work/count"
    step 'tests/rust, its steps that are tests' gives "$(grep -c '^[^#]*step ["'\''][a-z ]*tests' tests/rust)\n" cat "$work/count"
}

# What needs a tool that is missing is left out by name. With CI=true it fails.
rows_of_missing() {
    local tool python
    fresh
    mkdir "$work/bin"
    for tool in bash mkdir dirname sed sort cut; do
        ln -s "$(type -P $tool)" "$work/bin"
    done
    python=$(python3 -c 'import sys; print(sys.executable)')
    is_missed 'a compiler for ARM' 'none-gcc is' make -n aarch64 CROSS=none-
    is_missed valgrind 'valgrind is missing' env PATH="$work/bin" "$python" tests/counts/run
    is_missed doxygen 'doxygen is missing' env PATH="$work/bin" bash tools/doc
    is_missed shellcheck 'shellcheck is missing' bash -c '. tests/steps.sh; left_out a shellcheck; finish'
}
is_missed() { # what, what is said of it, the command
    step "$1 is missing" leaves_out "${@:2}"
    step "$1 is missing, CI=true" fails_with "$2" env CI=true "${@:3}"
}
leaves_out() { # what is said, the command
    env -C "$room" CI= "${@:2}" > "$work/said" 2>&1 && grep -e "left out, $1" "$work/said"
}
