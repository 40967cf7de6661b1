# Uses each package in a root of Debian 12. tests/release sources this file.
# shellcheck shell=bash disable=SC2016 # the shell in the root expands them
step 'a root of Debian 12' keep_root 12 bookworm gcc g++ make cmake pkg-config cargo python3 python3-pip python3-venv sudo musl-tools man-db
step 'its copy' unpack_root 12
step 'no toolchain in it' inside '! command -v rt && ! command -v rattle'
step 'sums' inside 'cd /packed && sha256sum -c SHA256SUMS'

run_readme
step 'the Debian packages' inside 'dpkg -i /packed/*_amd64.deb && ldconfig -p | grep "libencoding_text.so.0 "'
step 'pages in the packages' inside 'cd /usr/share/doc/libencoding-text-dev && test -s DEFINITIONS.md -a -s COMPARED.md -a -s SECURITY.md &&
    ! grep "](" *.md && for it in repair check; do
        man_page=$(zcat /usr/share/man/man1/utf8_$it.1.gz) && grep "It 127" <<< "$man_page"
    done'
use_programs 'on Debian 12' /usr/bin
step 'repair.c by pkg-config builds' inside 'cd /programs && gcc -o c repair.c $(pkg-config --cflags --libs encoding_text)'
step 'repair.c by pkg-config' prints "${repaired:?}\n" /programs/c
step 'its version node' inside 'readelf -V /programs/c | grep ENCODING_TEXT_0.1'
step 'decode.cc by pkg-config builds' inside 'cd /programs && g++ -o cc decode.cc $(pkg-config --cflags --libs encoding_text)'
step 'decode.cc by pkg-config' prints '5004 code units, 1 for a malformed sequence\n' \
    'yes "aé€" 2> /dev/null | tr -d "\n" | head -c 10007 | /programs/cc'
step 'examples by CMake build' inside 'cd /programs && cmake -S . -B cmake && cmake --build cmake'
step 'repair.c by CMake' prints "$repaired\n" /programs/cmake/repair
step 'a request for another version by CMake' inside 'cd /programs && mkdir later && sed "s/encoding_text 0.1/encoding_text 0.2/" \
    CMakeLists.txt > later/CMakeLists.txt && cp *.c *.cc later && ! cmake -S later -B later/build 2>&1 | tee /programs/said |
    grep "Configuring done" && grep -m 1 "compatible with requested version" /programs/said'
for kind in -static -static-pie '-static -O2 -flto -Wl,--gc-sections -s'; do
    step "repair.c $kind builds" inside "cd /programs && gcc $kind -o static repair.c -lencoding_text && stat -c '%s bytes' static"
    step "repair.c $kind" prints "$repaired\n" /programs/static
done
step 'repair.c with LTO over the shared library builds' inside 'cd /programs && gcc -O2 -flto -o lto repair.c -lencoding_text'
step 'repair.c with LTO over the shared library' prints "$repaired\n" /programs/lto
asked='cd /programs && gcc -o chosen chosen.c && chosen() { ./chosen /usr/lib/x86_64-linux-gnu/libencoding_text.so.0 encoding_text_mem_is_ascii; }'
if grep -qw avx2 /proc/cpuinfo; then
    step 'ENCODING_TEXT_CPU' inside "$asked; chosen > 3; ENCODING_TEXT_CPU=x86-64-v2 chosen > 2; ! cmp -s 2 3 && cat 2 3"
else
    echo 'ENCODING_TEXT_CPU: left out, this processor has no AVX2'
fi
crate='export CARGO_HOME=/programs/cargo; cd /programs/encoding_text-*/'
step 'the crate' inside 'tar -C /programs -xf /packed/*.crate && cargo --version && rustc --version'
step 'the crate over the installed library builds' inside "$crate && cargo build -q --offline --example repair --target-dir /programs/installed &&
    grep -h rustc-link-search /programs/installed/debug/build/*/output | grep /usr/lib"
step 'the crate over the installed library' prints "$repaired" 'printf $damaged | /programs/installed/debug/examples/repair'
step 'removal' inside 'dpkg --purge libencoding-text-dev libencoding-text0 utf8-repair'
step 'it leaves no file' leaves_nothing

step 'the crate with its own library builds' inside "$crate && cargo build -q --offline --example repair && cargo build -q --offline --release --examples"
step 'the crate with its own library' prints "$repaired" 'printf $damaged | /programs/encoding_text-*/target/debug/examples/repair'
step 'a crate that depends on it builds' inside 'export CARGO_HOME=/programs/cargo; cargo new -q --vcs none /programs/user && cd /programs/user &&
    cargo add -q --offline --path /programs/encoding_text-*/ &&
    cp /programs/encoding_text-*/examples/repair.rs src/main.rs && cargo build -q --offline --release && stat -c "%s bytes" target/release/user'
step 'a crate that depends on it' prints "$repaired" 'printf $damaged | /programs/user/target/release/user'
for target in x86_64-pc-windows-gnu armv7-unknown-linux-gnueabihf; do
    step "the crate for $target" inside "$crate && ! cargo build -q --offline --target $target 2> said && grep 'error: encoding_text: .* the target is $target' said"
done
for target in aarch64-unknown-linux-gnu:aarch64 aarch64-unknown-linux-musl:aarch64 x86_64-unknown-linux-musl:x86_64; do
    # this Rust has no std for them, so the build ends after the library was found
    step "the crate for ${target%:*}" inside "$crate && ! cargo build -q --offline --target ${target%:*} --target-dir /programs/${target%:*} &&
        grep -rh --include=output 'rustc-link-search=native=.*/${target#*:}-none\$' /programs/${target%:*}"
done
step 'its pages' inside "$crate && test -s README.md -a -s COPYRIGHT -a -s MIT.txt -a -s Apache-2.0.txt && grep rust-version Cargo.toml"

step 'the tarball' inside 'mkdir /srv/one && tar -C /srv/one -xf /packed/*-x86_64-*.tar.gz && mv /srv/one/* /srv/moved'
use_programs 'of the tarball' /srv/moved/bin
moved='export PKG_CONFIG_PATH=/srv/moved/lib/pkgconfig LD_LIBRARY_PATH=/srv/moved/lib; cd /programs'
step 'repair.c over it builds' inside "$moved && gcc -o tar /srv/moved/share/doc/encoding_text/examples/repair.c \$(pkg-config --cflags --libs encoding_text) &&
    ldd tar | grep /srv/moved/lib/libencoding_text"
step 'repair.c over it' prints "$repaired\n" "$moved && ./tar"
step 'repair.c over its archive builds' inside 'cd /srv/moved && gcc -o /programs/plain -Iinclude share/doc/encoding_text/examples/repair.c lib/libencoding_text.a'
step 'repair.c over its archive' prints "$repaired\n" /programs/plain
for kind in '' -static; do
    step "repair.c over musl $kind builds" inside "cd /srv/moved && musl-gcc $kind -o /programs/musl -Iinclude \
        share/doc/encoding_text/examples/repair.c lib/none/libencoding_text.a"
    step "repair.c over musl $kind" prints "$repaired\n" /programs/musl
done
step 'examples over it by CMake build' inside 'cd /programs && cmake -S . -B cmake2 -DCMAKE_PREFIX_PATH=/srv/moved && cmake --build cmake2 &&
    ldd cmake2/repair | grep /srv/moved/lib/libencoding_text'
step 'its examples by CMake' prints "$repaired\n" /programs/cmake2/repair

run_tarball_page
run_wheel_page
run_crate_page
