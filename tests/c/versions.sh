# Checks that programs go with the shared library of another release. An older library is made of the archive in build/, with
# only the functions of the first release of this series. tests/c/run sources this file.
# shellcheck shell=bash disable=SC2154 # tests/c/run sets them
first=$(cut -d ' ' -f 2 c/symbols.txt | sort -uV | head -n 1)
last=$(cut -d ' ' -f 2 c/symbols.txt | sort -uV | tail -n 1)
older=$work/$first/$SHARED

functions_of() { # the release; prints the functions that it brought
    sed -n "s/@@.* ${1//./[.]}\$//p" c/symbols.txt
}

links_older() {
    mkdir -p "$work/$first" && functions_of "$first" > "$work/older" && c/exports "$work/older" > "$work/older.exports" &&
        "${cc[@]}" -shared -Wl,-soname,"$SHARED" -Wl,--version-script="$work/older.exports" -Wl,-z,defs,-z,now -o "$older" \
            -Wl,--whole-archive "$library" -Wl,--no-whole-archive
}

# Builds a program that refers to each function of a release, and prints their number.
refers() { # the program, the release, the library
    {
        printf '#include <stdio.h>\n'
        functions_of "$2" | sed 's/.*/void &(void);/'
        printf 'int main(void)\n{\n    static void (*const all[])(void) = {\n'
        functions_of "$2" | sed 's/$/,/'
        printf '    };\n    size_t count = 0;\n    for (size_t i = 0; i < sizeof all / sizeof *all; i++) {\n        count += all[i] != NULL;\n    }\n'
        printf '    printf("%%zu functions\\n", count);\n    return 0;\n}\n'
    } > "$1.c"
    "${cc[@]}" -std=c99 -Wall -Wextra -o "$1" "$1.c" "$3"
}

# Succeeds if a program that needs a newer release ends before it does anything, and the loader names that release.
is_refused() { # the program, the library's folder
    ! LD_LIBRARY_PATH="$2" "$1" > "$work/written" 2> "$work/said" && gives '' cat "$work/written" &&
        grep -F "ENCODING_TEXT_$last' not found" "$work/said"
}

does_not_link() { # the program, the release, the library
    ! refers "$@" 2> "$work/said" && grep -m 1 'undefined reference' "$work/said"
}

if [ "$first" = "$last" ]; then
    echo "programs over other releases: left out, $first is the first one of this series"
else
    step "a library of $first" links_older
    step "a program of $first builds" refers "$work/old_program" "$first" "$older"
    step 'it runs with this library' gives "$(functions_of "$first" | grep -c .) functions\n" env LD_LIBRARY_PATH="$PWD/build" "$work/old_program"
    step "a program of $last doesn't link with the library of $first" does_not_link "$work/new_program" "$last" "$older"
    step "a program of $last builds" refers "$work/new_program" "$last" "$shared"
    step 'it runs with this library' gives "$(functions_of "$last" | grep -c .) functions\n" env LD_LIBRARY_PATH="$PWD/build" "$work/new_program"
    step "it ends at its start with the library of $first" is_refused "$work/new_program" "$work/$first"
    step "a program of $last with functions of $first builds" "${cc[@]}" -o "$work/repair_new" -Ic/include examples/repair.c "$shared"
    step "it runs with the library of $first" gives 'a\357\277\275Z\n' env LD_LIBRARY_PATH="$work/$first" "$work/repair_new"
fi
