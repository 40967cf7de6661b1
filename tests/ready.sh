# Checks what `make release` says of a tree that is no release, in a copy of the files that it reads. tests/packages sources this.
# shellcheck shell=bash
tree=${work:?}/tree
read_by_ready=(CHANGELOG.md Makefile c/symbols.txt c/include/encoding_text.h release/ready release/released.txt)

# Makes a copy that is a release: what is under "Unreleased" would be a part of it.
copy_release() {
    rm -rf "$tree"
    mkdir "$tree"
    tar -cf - "${read_by_ready[@]}" | tar -C "$tree" -xf -
    sed -i '/^## Unreleased$/d' "$tree/CHANGELOG.md"
}

# Succeeds if `make release` ends with one line of its own, before anything is built.
is_no_release() { # a part of the line
    ! make -s -C "$tree" release > "$work/said" 2>&1 && grep '^make release: ' "$work/said" > "$work/lines" && gives '1\n' grep -c . "$work/lines" &&
        grep -F -- "$1" "$work/lines" && [ ! -e "$tree/build" ]
}

planted() { # what is planted, a part of the line, the file, and the script of sed that plants it
    copy_release
    cp "$tree/$3" "$work/before"
    sed -i "$4" "$tree/$3"
    if cmp -s "$work/before" "$tree/$3"; then
        count 1 "$1" 'nothing was changed'
    else
        step "$1" is_no_release "$2"
    fi
}
copy_release
step 'a release' gives "$VERSION with $(grep -c . c/symbols.txt) functions\n" "$tree/release/ready"
first=$(head -n 1 release/released.txt | cut -d ' ' -f 1)
planted 'a line under "Unreleased"' 'lines under "Unreleased"' CHANGELOG.md '3i ## Unreleased\n\n- A change.\n'
planted 'no date of this version' "begins with $first, and the header has $VERSION" CHANGELOG.md "s/^## $VERSION, .*/## $VERSION/"
planted 'another version in the header' "begins with $VERSION, and the header has" c/include/encoding_text.h '/_VERSION_MAJOR/s/[0-9]/7/'
planted 'a new function under a released version' "a function that is newer" c/symbols.txt "1i encoding_text_a@@ENCODING_TEXT_${first%.0} $first"
planted 'a function of this version under a released one' "a function that is newer" c/symbols.txt "0,/ $VERSION\$/s/@@.* $VERSION\$/@@ENCODING_TEXT_${first%.0} $first/"
planted 'a released function that is gone' 'none may go' c/symbols.txt "0,/ $first\$/{/ $first\$/d}"
planted 'a function of a later version' 'is newer than this version' c/symbols.txt '1s/@@.*/@@ENCODING_TEXT_9.9.9 9.9.9/'
planted 'a function without a version' 'has the line' c/symbols.txt '1s/ .*//'
planted 'a function at the node of another version' 'its version node' c/symbols.txt '1s/@@ENCODING_TEXT_[0-9.]*/@@ENCODING_TEXT_9.9/'
planted 'no record of this version' "no line for $VERSION" release/released.txt "/^$VERSION /d"
copy_release
sed -i "/^$VERSION /d" "$tree/release/released.txt"
step 'the record of this version' "$tree/release/ready" --record
step 'it is as it was' cmp release/released.txt "$tree/release/released.txt"
