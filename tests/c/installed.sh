# Checks what `make install` put below $staged, in the folders $folders, besides the files' names: their modes and
# contents, the shared library's own name, and what pkg-config and CMake say of them. tests/c/run sources this file.
# shellcheck shell=bash disable=SC2154 # tests/c/run sets them
libdir=$staged/srv/lib

# Prints the mode of each file, and where each link leads.
modes() {
    (cd "$staged" && find . -type f -printf '%m %p\n' -o -type l -printf 'link to %l %p\n' | LC_ALL=C sort -k 2)
}

# What modes has to print: 755 for the programs and the shared library.
modes_wanted() {
    printf %b "$wanted" | sed -E "s|.*/bin/.*\|.*/$SHARED\$|755 &|; s|.*\.so\$|link to $SHARED &|; s|^\.|644 &|" | LC_ALL=C sort -k 2
}
step 'modes and links' gives "$(modes_wanted)\n" modes

# Succeeds if each file is that of the repository or of build/.
same_files() {
    local file place compared=0
    while IFS= read -r -d '' file; do
        for place in build man c/include LICENSES .; do
            if [ -f "$place/${file##*/}" ]; then
                cmp "$place/${file##*/}" "$file" || return
                compared=$((compared + 1))
                break
            fi
        done
    done < <(find "$staged" -type f -print0)
    # all but the files that are made for the folders, one for pkg-config and two for CMake
    [ "$compared" = $(($(find "$staged" -type f | wc -l) - 3)) ] && echo "$compared files"
}
step 'contents' same_files
step 'the link to the shared library' cmp "$libdir/libencoding_text.so" "$shared"

soname() { # the library
    LC_ALL=C readelf -d "$1" | sed -n 's/.*Library soname: \[\(.*\)\]/\1/p'
}
step 'name of the shared library' gives "$SHARED\n" soname "$libdir/$SHARED"

needs() { # the program; prints the shared libraries of this repository that it needs
    LC_ALL=C readelf -d "$1" | sed -n 's/.*(NEEDED).*\[\(libencoding_text.*\)\]/\1/p'
}

# The installed programs, on their happy path and with their statuses.
answers() { # the program, the input
    local status=0
    printf %b "$2" | "$staged/srv/text/bin/$1" || status=$?
    echo "$status"
}
step 'the installed utf8_repair' gives 'a\357\277\275Z1\n' answers utf8_repair 'a\342\230Z'
step 'the installed utf8_repair on text' gives 'text0\n' answers utf8_repair text
step 'the installed utf8_check' gives '(standard input):1:2: error: malformed UTF-8: E2 98: cut short (offset 1)\n1\n' answers utf8_check 'a\342\230Z'
step 'the installed utf8_check on text' gives '0\n' answers utf8_check text

if has pkg-config; then
    asked() { # what pkg-config is asked for
        PKG_CONFIG_PATH=$libdir/pkgconfig PKG_CONFIG_ALLOW_SYSTEM_CFLAGS=1 PKG_CONFIG_ALLOW_SYSTEM_LIBS=1 pkg-config "$@" encoding_text |
            tr -s ' ' '\n' | sed '/^$/d'
    }
    step 'the version by pkg-config' gives "$VERSION\n" asked --modversion
    step 'folders by pkg-config' gives '-I/srv/include/text\n-L/srv/lib\n-lencoding_text\n' asked --cflags --libs
    step 'a static link by pkg-config' gives '-L/srv/lib\n-lencoding_text\n' asked --static --libs
    step 'pkg-config names no other package' gives '' asked --print-requires --print-requires-private
    linked() {
        local flags
        read -ra flags <<< "$(asked --cflags --libs | sed "s|/srv|$work/linked|" | tr '\n' ' ')"
        ln -sfn "$staged/srv" "$work/linked"
        "${cc[@]}" -o "$work/by_pkg_config" examples/repair.c "${flags[@]}" && needs "$work/by_pkg_config"
    }
    step 'a program by pkg-config needs the shared library' gives "$SHARED\n" linked
fi

if has cmake; then
    mkdir -p "$work/asks"
    cp examples/repair.c "$work/asks"
    sed "s/@VERSION@/$VERSION/g; s/@LATER@/${VERSION%.*}.$((${VERSION##*.} + 1))/g" > "$work/asks/CMakeLists.txt" <<'END'
cmake_minimum_required(VERSION 3.13)
project(asks C)
foreach(version 0.1 0.1.0 @VERSION@ 0 0.0 0.0.9 @LATER@ 0.2 1 1.1 "@VERSION@;EXACT" "0.1;EXACT" "0.1.0;EXACT" "@LATER@;EXACT")
    unset(encoding_text_DIR CACHE)
    find_package(encoding_text ${version} QUIET)
    message(STATUS "asked for ${version}: ${encoding_text_FOUND}")
endforeach()
unset(encoding_text_DIR CACHE)
find_package(encoding_text REQUIRED)
add_executable(either repair.c)
target_link_libraries(either encoding_text::encoding_text)
# the name by which a project that installs the library copies it
file(GENERATE OUTPUT "${CMAKE_BINARY_DIR}/soname" CONTENT "$<TARGET_SONAME_FILE_NAME:encoding_text::shared>\n")
END
    asks() { # ON or OFF
        cmake -S "$work/asks" -B "$work/asks/$1" -DCMAKE_PREFIX_PATH="$staged/srv" -DBUILD_SHARED_LIBS="$1" -DCMAKE_C_COMPILER="${cc[0]}" \
            > "$work/asks/said" && cmake --build "$work/asks/$1" > /dev/null && needs "$work/asks/$1/either"
    }
    versions() { # prints the versions that CMake finds
        sed -n 's/^-- asked for \(.*\): 1$/\1/p' "$work/asks/said"
    }
    step "CMake's library with BUILD_SHARED_LIBS" gives "$SHARED\n" asks ON
    step "CMake's library without BUILD_SHARED_LIBS" gives '' asks OFF
    step 'name of the shared library by CMake' gives "$SHARED\n" cat "$work/asks/ON/soname"
    step 'versions that CMake takes' gives "0.1\n0.1.0\n$VERSION\n$VERSION;EXACT\n" versions
    step 'a program of CMake is repair.c' gives 'a\357\277\275Z\n' "$work/asks/ON/either"
fi
