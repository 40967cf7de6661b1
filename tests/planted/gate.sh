# Faults in what ./test and tests/refused count: a step that is lost, or an edit that isn't refused. tests/checks sources this.
# shellcheck shell=bash disable=SC2154,SC2016 # tests/checks sets the names; what stubs say has backquotes

# Makes a folder with ./test and stubs of all its commands, each of which says that one check passed.
stubbed() {
    local command
    gate=$work/gate stubs=$work/stubs
    rm -rf "$gate" "$stubs"
    mkdir -p "$gate/tests" "$gate/crates" "$stubs"
    cp "$whole/test" "$gate/test"
    cp "$whole/tests/lanes.sh" "$gate/tests"
    echo 'none:' > "$gate/crates.txt"
    for command in $(cd "$whole" && bash test --list | awk '{ print $1 }' | sort -u); do
        case $command in */*) command=$gate/${command#"$gate"/} ;; *) command=$stubs/$command ;; esac
        mkdir -p "$(dirname "$command")"
        printf '#!/usr/bin/env bash\necho "1 passed, 0 failed"\n' > "$command"
        chmod +x "$command"
    done
    for command in cc c++ cargo; do
        ln -sf "$(command -v true)" "$stubs/$command"
    done
}

# Succeeds if ./test over the stubs ends with this line and this status.
sums_up() { # the line, the status, the words for ./test
    local status=0
    (cd "$gate" && CC=cc CXX=c++ PATH="$stubs:$PATH" timeout 60 "./test" > "$work/said" 2>&1 < /dev/null) || status=$?
    tail -n 20 "$work/said"
    [ "$status" = "$2" ] && [ "$(tail -n 1 "$work/said")" = "$1" ]
}

# Succeeds if ./test over the stubs fails once a command has this text in the place of its own.
lost() { # the command, the text
    stubbed
    printf '#!/usr/bin/env bash\n%s\n' "$2" > "$gate/$1"
    local status=0
    (cd "$gate" && CC=cc CXX=c++ PATH="$stubs:$PATH" timeout 60 "./test" > "$work/said" 2>&1 < /dev/null) || status=$?
    tail -n 20 "$work/said"
    [ "$status" = 1 ] && ! tail -n 1 "$work/said" | grep -qx '[0-9]* passed, 0 failed'
}

# Makes a folder with a crate of two functions, an edit of each, and a toolchain that says what a row wants to hear.
small_crate() {
    gate=$work/gate stubs=$work/stubs
    rm -rf "$gate" "$stubs"
    mkdir -p "$gate"/{tests,tools} "$gate"/crates/one/{src,specs,proofs,must-fail} "$stubs"
    cp "$whole/tests/refused" "$gate/tests"
    cp "$whole"/tools/{rattle.py,edits} "$gate/tools"
    echo 'one:' > "$gate/crates.txt"
    printf 'fn low(x: u8) -> u8 {\n    x + 1\n}\n\nfn high(x: u8) -> u8 {\n    low(x) + 2\n}\n\nconst MOST: u8 = 3;\n' > "$gate/crates/one/src/lib.rt"
    echo 'pub A : ℕ' > "$gate/crates/one/specs/Lib.antt"
    printf 'file: src/lib.rt\nold: x + 1\nnew: x + 3\n' > "$gate/crates/one/must-fail/adds_three.edit"
    printf 'file: src/lib.rt\nold: low(x) + 2\nnew: low(x) + 4\n' > "$gate/crates/one/must-fail/adds_four.edit"
    cat > "$stubs/rt" << 'END'
#!/usr/bin/env bash
case "$*" in
    version) echo "kit of a row" ;;
    *--only*) cat "$(dirname "$0")/joined"; exit 1 ;;
    must-fail*) cat "$(dirname "$0")/apart"; exit 1 ;;
    *) printf 'fn one::%s: proved\n' low high; [ ! -e "$(dirname "$0")/unproved" ] ;;
esac
END
    chmod +x "$stubs/rt"
    function_is low 'not proved' './proofs/low/Answers.antt:2:1: error: `returns`: expected type'
    function_is high 'not proved' './proofs/high/Answers.antt:2:1: error: `returns`: expected type'
    echo 'only=2 holes=0' >> "$stubs/joined"
    : > "$stubs/apart"
}

# Has the toolchain report this of a function.
function_is() { # the function, its line, a line about it
    printf '%s\n' "${@:3}" "fn one::$1: $2" >> "$stubs/joined"
}

# Has the toolchain say something else of the function `high`.
high_is() { # its line, a line about it
    small_crate
    sed -i '/high/d' "$stubs/joined"
    function_is high "$@"
}

# Succeeds if tests/refused, and then tools/edits over what it said, pass this many edits and fail that many.
tries() { # passed, failed, the words for tests/refused
    local status=0
    rm -rf "$gate/build"
    mkdir -p "$gate/build/logs"
    (cd "$gate" && PATH="$stubs:$PATH" timeout 60 tests/refused "${@:3}") > "$gate/build/logs/refused.log" 2>&1 || true
    (cd "$gate" && tools/edits) > "$gate/said" 2>&1 || status=$?
    cat "$gate/build/logs/refused.log" "$gate/said" > "$work/tried"
    tail -n 30 "$work/tried"
    [ "$(tail -n 1 "$gate/said")" = "$1 passed, $2 failed" ] && [ "$((status != 0))" = "$(($2 != 0))" ]
}

# Succeeds if a change gives each edit another sum, so that what is kept of it isn't taken.
tried_again() { # the change, as a command
    small_crate
    (cd "$gate" && PATH="$stubs:$PATH" tests/refused --sums one) > "$work/before" || return
    (cd "$gate" && eval "$1")
    (cd "$gate" && PATH="$stubs:$PATH" tests/refused --sums one) > "$work/after" || return
    [ "$(wc -l < "$work/before")" = 2 ] && [ "$(wc -l < "$work/after")" = 2 ] && ! grep -qxFf "$work/before" "$work/after"
}

rows_of_test() {
    local all
    stubbed
    all=$(cd "$whole" && PATH="$stubs:$PATH" bash test --list | grep -vc '^rt ci$\|each.log')
    all=$((all + 1))
    step './test over stubs' sums_up "$all passed, 0 failed" 0
    step './test, a lane is killed' lost 'tests/library' 'kill -9 $PPID'
    step './test, a lane ends with an error' lost 'tests/library' 'kill -HUP $PPID'
    step './test, a step prints no line' lost 'tools/rows' 'true'
    step './test, a step says nothing was checked' lost 'tools/rows' 'echo 0 passed, 0 failed'
    step './test, a step fails after its line' lost 'tools/rows' 'echo 1 passed, 0 failed; exit 3'
    step './test, a step fails' lost 'tools/rows' 'echo 1 passed, 1 failed; exit 1'
}

rows_of_refused() {
    small_crate
    step 'tests/refused, two edits that are refused' tries 2 0
    step 'tests/refused, one crate' tries 2 0 one
    high_is 'no holes'
    step 'tests/refused, an edit that is proved' tries 1 1
    high_is 'no proof: it calls one::low, which is not proved'
    step 'tests/refused, an edit that is refused only for its callee' tries 1 1
    high_is 'not proved; it stands on `Rattle.one.proofs.low.Answers.returns`, which antt refuses'
    step 'tests/refused, an edit that stands on a refused callee' tries 1 1
    high_is 'not proved' './proofs/high/Answers.antt:2:1: error: `c.low.gone` has no field'
    step 'tests/refused, an edit that takes away a name' tries 1 1
    small_crate
    sed -i '/high/d' "$stubs/joined"
    step 'tests/refused, an edit whose function is not reported' tries 1 1
    small_crate
    sed -i 's/^old: low.*/old: low(y) + 2/' "$gate/crates/one/must-fail/adds_four.edit"
    step "tests/refused, an edit that can't be applied" tries 1 1
    small_crate
    printf 'error[no-such-name]: in src/lib.rt\n' > "$stubs/joined"
    step 'tests/refused, edits that do not compile' tries 0 2
    small_crate
    touch "$stubs/unproved"
    step "tests/refused, a crate that isn't proved without an edit" tries 0 2
    small_crate
    printf 'file: src/lib.rt\nold: u8 = 3\nnew: u8 = 4\n' > "$gate/crates/one/must-fail/most_is_four.edit"
    step 'tests/refused, a constant that nobody reports' tries 2 1
    echo 'rt: must-fail one/most_is_four.edit: refused, as it must be: src/lib.rt:9:1: error: its value' > "$stubs/apart"
    step 'tests/refused, a constant that is refused alone' tries 3 0
    step 'a result that is kept, another spec' tried_again 'echo "pub B : ℕ" >> crates/one/specs/Lib.antt'
    step 'a result that is kept, another source' tried_again 'echo "const LEAST: u8 = 0;" >> crates/one/src/lib.rt'
    step 'a result that is kept, another edit' tried_again 'sed -i "s/^new: .*/new: 7/" crates/one/must-fail/*.edit'
    step 'a result that is kept, another script' tried_again 'echo "# a comment" >> tests/refused'
    step 'a result that is kept, another toolchain' tried_again 'sed -i "s/kit of a row/another kit/" "$stubs/rt"'
}
