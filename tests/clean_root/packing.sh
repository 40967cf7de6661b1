# Checks `make release` itself, in a copy of this tree. tests/release sources this file.
# shellcheck shell=bash
copy=${work:?}/copy
mkdir "$copy"
tar --exclude=./.git --exclude=./crates/*/out --exclude=target --exclude=./build/{logs,release,doc} -cf - . | tar -C "$copy" -xf -

pack_again() { # words for env
    env "$@" make -s -C "$copy" pack
}

packs_the_same() { # words for env
    pack_again "$@" && diff "${packed:?}/SHA256SUMS" "$copy/build/release/SHA256SUMS" && grep -c . "$packed/SHA256SUMS"
}

# Succeeds if packing gives the same bytes on a file system in memory, which counts the sizes of folders and blocks otherwise.
packs_the_same_in_memory() {
    mkdir "$work/memory"
    # shellcheck disable=SC2016 # the inner shell expands them
    unshare --mount bash -ec 'mount -t tmpfs tmpfs "$0" && stat -f -c %T "$0" "$1" && [ "$(stat -f -c %T "$0")" != "$(stat -f -c %T "$1")" ] &&
        mkdir "$0/two" && cp -a "$1" "$0/copy" && env TMPDIR="$0/two" make -s -C "$0/copy" pack && cp "$0/copy/build/release/SHA256SUMS" "$2"' \
        "$work/memory" "$copy" "$work/sums" && diff "$packed/SHA256SUMS" "$work/sums"
}

# Succeeds if the control file of a package has the size that dpkg-gencontrol counts: the KiB of each file, and one for each
# other entry.
has_size() { # the package
    local wanted
    wanted=$(dpkg-deb --fsys-tarfile "$1" | tar -tvf - | awk '{size += /^[-l]/ ? int(($3 + 1023) / 1024) + /^l/ : 1} END {print size}')
    [ "$wanted" -gt 1 ] && gives "$wanted\n" dpkg-deb -f "$1" Installed-Size
}

# Succeeds if `make release` fails with one line of its own, and leaves nothing.
refuses() { # a part of the line, words for env
    local before
    before=$(ls -A "$copy/build")
    ! pack_again "${@:2}" > "$work/said" 2>&1 && grep '^make release: ' "$work/said" > "$work/lines" &&
        gives '1\n' grep -c . "$work/lines" && grep -F -- "$1" "$work/lines" && [ "$before" = "$(ls -A "$copy/build")" ]
}

# Makes a folder for PATH that has every command but one.
without() { # the command
    local folder
    rm -rf "$work/commands"
    mkdir "$work/commands"
    while read -rd : folder; do
        find "$folder" -maxdepth 1 -exec ln -st "$work/commands" {} + 2> /dev/null
    done <<< "$PATH:"
    rm -f "$work/commands/$1"
    echo "PATH=$work/commands"
}

# Writes the sizes to a page without them, and succeeds if that is the page again.
writes_sizes() {
    sed -i '/^<!-- release\/sizes -->$/,/^<!-- end of release/{/^|/d}' "$copy/docs/PERFORMANCE.md"
    "$copy/release/sizes" --write && cmp docs/PERFORMANCE.md "$copy/docs/PERFORMANCE.md" && cmp README.md "$copy/README.md"
}

step 'the same bytes in another folder' packs_the_same TMPDIR="$work"
step 'packing changed no page' cmp docs/PERFORMANCE.md "$copy/docs/PERFORMANCE.md"
step 'its sizes in PERFORMANCE' writes_sizes
step 'the same bytes in memory' packs_the_same_in_memory
for package in "$packed"/*.deb; do
    step "size of $(basename "$package")" has_size "$package"
done
# Succeeds if the packages of both machines can be installed together: the files that both have outside of the folders of a
# machine are the same.
goes_with_the_other() { # the package
    local machine
    for machine in amd64 arm64; do
        dpkg-deb --ctrl-tarfile "$packed/$1_"*"_$machine.deb" | tar -xOf - ./md5sums | grep -v -- '-linux-gnu/' > "$work/$machine.sums"
    done
    grep -c . "$work/amd64.sums" && diff "$work"/a{md,rm}64.sums
}
for package in libencoding-text0 libencoding-text-dev; do
    step "$package for x86-64 and for ARM together" goes_with_the_other $package
done
rm -rf "$copy/build/release"
for tool in dpkg-deb cargo strip aarch64-linux-gnu-strip; do
    step "no $tool" refuses "$tool is not installed" "$(without $tool)"
done
step 'no compiler' refuses 'no-such-compiler is not installed' CC=no-such-compiler
step 'a folder for temporary files that there is not' refuses "TMPDIR is $work/nothing" TMPDIR="$work/nothing"
# shellcheck disable=SC2016 # the inner shell expands them
step 'a folder that may not be written' refuses 'build/ is not writable' unshare --mount bash -c \
    'mount --bind "$0" "$0" && mount -o remount,ro,bind "$0" && exec "$@"' "$copy/build"
echo x86-64-v3 > "$copy/build/cpu"
step 'a build for one processor' refuses 'run make first'
echo both > "$copy/build/cpu"
cp "$(type -P true)" "$copy/build/${SHARED:=libencoding_text.so.0}"
step 'a build for another target' refuses 'build/ is not for x86-64 Linux with glibc'
cp "build/$SHARED" "$copy/build"
cp "build/$SHARED" "$copy/build/aarch64"
step 'a build for x86-64 instead of that for ARM' refuses 'build/aarch64 is not for 64-bit ARM'
cp "build/aarch64/$SHARED" "$copy/build/aarch64"
cp build/both/libencoding_text.a "$copy/build/x86-64-v2"
step 'an archive for other systems that needs glibc' refuses 'needs more of the system than'
cp build/x86-64-v2/libencoding_text.a "$copy/build/x86-64-v2"
mv "$copy/build/aarch64" "$work/kept"
step 'no build for ARM' refuses 'build/aarch64/libencoding_text.a is missing'
mv "$work/kept" "$copy/build/aarch64"
echo >> "$copy/crates/encoding_text/src/lib.rt"
step 'other sources than those of the build' refuses 'made from other sources'
cp -p crates/encoding_text/src/lib.rt "$copy/crates/encoding_text/src"
sed -i 1d "$copy/c/symbols.txt"
step 'a symbol that is not listed' refuses 'c/symbols.txt differs'
rm -rf "$copy/build"
mkdir "$copy/build"
step 'no build' refuses 'run make first'
rm -rf "$copy"

# Succeeds if lintian has nothing to say, not even that an override is unused.
is_clean() { # the package
    gives '' lintian --allow-root --display-info --pedantic "$1" && dpkg-deb -f "$1" Package Version
}
step 'the programs in the package' dpkg-deb -x "$packed"/utf8-repair_*_amd64.deb "$work/packed"
step 'utf8_repair over pipes, devices and a terminal' tests/cli/program "$work/packed/usr/bin/utf8_repair"
step 'utf8_repair over lines' tests/cli/lines "$work/packed/usr/bin/utf8_repair"
step 'utf8_check over files, pipes, devices and a terminal' tests/cli/check "$work/packed/usr/bin/utf8_check"
# Succeeds if the program ends with its status for a processor without SSE4.2, and one line of its own.
lacks_a_feature() { # the program
    qemu-x86_64-static -cpu Conroe "$work/packed/usr/bin/$1" < /dev/null > "$work/out" 2> "$work/said"
    [ $? = 127 ] && gives '' cat "$work/out" && gives '1\n' grep -c '' "$work/said" && grep x86-64-v2 "$work/said"
}
for program in utf8_repair utf8_check; do
    step "$program on a processor without SSE4.2" lacks_a_feature $program
done
for package in "$packed"/*.deb; do
    step "lintian of $(basename "$package")" is_clean "$package"
done
