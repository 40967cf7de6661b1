# Faults in the words of pages and in lemmas: whether tools/words and tools/proofs find them. tests/checks sources this file.
# shellcheck shell=bash disable=SC2154 # tests/checks sets the names

# Adds a text to a file of the copy.
add_to() { # the file, the text
    cp --remove-destination "$whole/$1" "$room/$1"
    printf '%s\n' "$2" >> "$room/$1"
}

rows_of_words() {
    local page
    fresh
    add_to SECURITY.md 'It stands behind. So many are told. But for that it goes on as before. Its place is a room. It is alone, beside us. Mend it.'
    step 'tools/words with a page of idioms' fails_with '^FAILED pages: SECURITY.md: [0-9]* idioms in ' tools/words
    fresh
    for page in "${prose[@]}"; do
        add_to "$page" 'It stands. It stands. It stands.'
    done
    step 'tools/words with an idiom on each page' fails_with '^FAILED pages: [0-9]* times in [0-9]* words, stands' tools/words
    fresh
    add_to SECURITY.md "It $(printf 'is %.0s' {1..35})long."
    step 'tools/words with a long sentence' fails_with '^FAILED pages: SECURITY.md: a sentence of more than' tools/words
    fresh
    add_to c/layout.c 'static int lone_byte;'
    step "tools/words with a name that isn't the field's" fails_with '^FAILED names: lone_byte in c/layout.c' tools/words
}

# Two lemmas with the same statement, up to the names of variables.
rows_of_proofs() {
    local text=crates/encoding_text/proofs/CallLemmas.antt runs=crates/encoding_runs/proofs/Lib.antt
    fresh
    add_to $text 'planted-first : (n m : ℕ) → n ≤ m → n ≤ m'
    step 'tools/proofs with one lemma more' env -C "$room" tools/proofs
    add_to $runs 'planted-second : (k l : ℕ) → k ≤ l → k ≤ l'
    step 'tools/proofs with two equal lemmas' fails_with '^FAILED the same statement: .*planted-second' tools/proofs
    fresh
    add_to $text "planted-third : (n : ℕ) → $(printf 'n ≤ n → %.0s' {1..20})n ≤ n"
    step 'tools/proofs with a long line' fails_with '^FAILED more than 160 columns: ' tools/proofs
}
