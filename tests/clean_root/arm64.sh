# Uses each package for 64-bit ARM in roots of Debian 12 and 13 for ARM, with qemu. tests/release sources this file.
# shellcheck shell=bash disable=SC2016 # the shell in the root expands them
for release in '12-arm64 bookworm' '13-arm64 trixie'; do
    read -r on name <<< "$release"
    step "a root of $on" keep_root "$on" "$name" gcc libc6-dev make pkg-config cargo python3 python3-pip python3-venv sudo
    step "its copy, $on" unpack_root "$on"
    step "its machine, $on" prints 'aarch64\narm64\n' 'uname -m && dpkg --print-architecture'
    run_readme
    step "the Debian packages, $on" inside 'dpkg -i /packed/*_arm64.deb && ldconfig -p | grep "libencoding_text.so.0 "'
    use_programs "$on" /usr/bin
    for kind in '' -static -static-pie; do
        step "repair.c $kind builds, $on" inside "cd /programs && gcc $kind -o c repair.c -lencoding_text"
        step "repair.c $kind, $on" prints "${repaired:?}\n" /programs/c
    done
    step "removal, $on" inside 'dpkg --purge libencoding-text-dev libencoding-text0 utf8-repair'
    step "it leaves no file, $on" leaves_nothing
    run_tarball_page
    run_wheel_page
    run_crate_page
done
