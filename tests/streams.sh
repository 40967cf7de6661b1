# shellcheck shell=bash
# Sourced after steps.sh: streams for the examples to_utf8, and what these make of them.

# Makes a stream with a byte order mark in each encoding, longer than the examples' buffers, whose end is cut, and their text.
make_streams() {
    local count
    for ((count = 0; count < 2000; count++)); do
        printf 'na\303\257ve \342\230\203 \360\237\222\251, '
    done > "${work:?}/text"
    { printf '\357\273\277'; cat "$work/text"; printf '\360\237\222'; } > "$work/UTF-8"
    { printf '\377\376'; iconv -f UTF-8 -t UTF-16LE "$work/text"; printf '\075\330a'; } > "$work/UTF-16LE"
    { printf '\376\377'; iconv -f UTF-8 -t UTF-16BE "$work/text"; printf '\330\075a'; } > "$work/UTF-16BE"
    printf '\357\277\275' >> "$work/text"
}

# Succeeds if a program converts each stream, which it reads from a pipe in short pieces, and prints the offset and the
# length of the malformed sequence at its end.
converts() { # the program
    local encoding size
    for encoding in UTF-8 UTF-16LE UTF-16BE; do
        size=$(wc -c < "$work/$encoding")
        dd if="$work/$encoding" bs=777 2> /dev/null | "$@" > "$work/converted" 2> "$work/places" || return 1
        cmp "$work/text" "$work/converted" || return 1
        gives "offset $((size - 3)): 3 bytes\n" cat "$work/places" || return 1
    done
    echo "$size bytes"
}

# Succeeds if a file has at most so many lines, and some.
is_short() { # the number, the file
    local lines
    lines=$(wc -l < "$2")
    echo "$lines lines"
    [ "$lines" -gt 0 ] && [ "$lines" -le "$1" ]
}
