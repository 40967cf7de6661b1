# What rt ci says of the must-fail edits is made up here: whether tools/edits refuses it. tests/checks sources this file.
# shellcheck shell=bash disable=SC2016,SC2154 # the quotes in messages are those of the prover, and tests/checks sets the names
log=build/logs/refused.log
first=$(cd "$whole" && find crates/encoding_text/must-fail -name '*.edit' | sort | head -n 1)
refused='refused, as it must be: src/a.rt:1:1: error: the clause'
log_of() { # what it says of each edit
    mkdir -p "$room/build/logs"
    (cd "$room" && for edit in crates/*/must-fail/*.edit; do
        edit=${edit#crates/}
        echo "rt: must-fail ${edit%%/*}/${edit##*/}: $1"
    done) > "$room/$log"
}

rows_of_edits() {
    fresh
    log_of "$refused"
    step 'tools/edits with each edit refused' env -C "$room" tools/edits
    (cd "$room" && rm crates/*/must-fail/*.edit)
    step 'tools/edits without edits' refuses tools/edits
    fresh
    log_of "$refused"
    sed -i "/$(basename "$first")/d" "$room/$log"
    step 'tools/edits with an edit that was not tried' refuses tools/edits
    for said in 'NOT REFUSED: the crate is still proved with this edit' "BAD EDIT: an 'old:' text is in src/lib.rt 0 times, and not once" \
        'BAD EDIT: it did not reach the prover; the first lines of what it said:' 'refused, as it must be' \
        'refused, as it must be (only because a proof file names what the edit took away, so this says little of the contract): x' \
        'refused, as it must be: ./proofs/f/Answers.antt:5:6: error: `a`: `goal.a`: module `Rattle.encoding_text.proofs.f.Goals`' \
        'refused, as it must be: ./proofs/f/Answers.antt:5:6: error: `a`: record `Start` has no field `b`'; do
        fresh
        log_of "$refused"
        sed -i "s|\($(basename "$first")\): .*|\1: $said|" "$room/$log"
        step "tools/edits, $said" refuses tools/edits
    done
    # The step of ./test with its own words: an edit that only a missing name refuses fails it, with any options.
    read -ra words <<< "$(printf '%s\n' "${lines[@]}" | grep '^tools/edits')"
    fresh
    log_of "$refused"
    sed -i "s|\($(basename "$first")\): .*|\1: refused, as it must be: ./proofs/f/Answers.antt:5:6: error: \`a\`: \`b\` is not in scope|" "$room/$log"
    step "${words[*]}, as ./test runs it, with an edit refused for a missing name" refuses "${words[@]}"
}

# A function with answers of its own: its name for a goal is known, another one is not.
planted() { # the words of the prover
    fresh
    mkdir -p "$room/crates/encoding_text/proofs/planted/is_short"
    printf 'pub fn is_short(src: &[u8]) -> bool {\n    // of 1,024 bytes\n    src.len() <= 0x10\n}\n' > "$room/crates/encoding_text/src/planted.rt"
    printf 'pub first : goal.first\nfirst c = refl\n' > "$room/crates/encoding_text/proofs/planted/is_short/Answers.antt"
    log_of "$refused"
    sed -i "s|\($(basename "$first")\): .*|\1: refused, as it must be: $1|" "$room/$log"
}

rows_of_goals() {
    planted 'note: src/planted.rt:1:1: it is not proved that it holds (`first-then-src-le16`)'
    step 'tools/edits, a goal of the function' env -C "$room" tools/edits
    planted 'note: src/planted.rt:1:1: it is not proved that it holds (`first-then-src-lt16`)'
    step 'tools/edits, a goal that the edit renames' refuses tools/edits
    planted './proofs/planted/is_short/Answers.antt:2:5: error: `first'
    step 'tools/edits, an answer' env -C "$room" tools/edits
    planted './proofs/planted/is_short/Answers.antt:1:5: error: `first'
    step 'tools/edits, an answer to no goal' refuses tools/edits
}
