# Uses the program and the library in a root of Debian 11, whose C library is older than that of the machine that builds.
# tests/release sources this file.
# shellcheck shell=bash disable=SC2016 # the shell in the root expands them
step 'a root of Debian 11' keep_root 11 bullseye gcc libc6-dev pkg-config
step 'its copy' unpack_root 11
step 'its C library' inside 'ldd --version | head -n 1'
step 'the Debian packages on Debian 11' inside 'dpkg -i /packed/*_amd64.deb && ldconfig -p | grep "libencoding_text.so.0 "'
use_programs 'on Debian 11' /usr/bin
step 'repair.c on Debian 11 builds' inside 'cd /programs && gcc -o c repair.c $(pkg-config --cflags --libs encoding_text)'
step 'repair.c on Debian 11' prints "${repaired:?}\n" /programs/c
step 'repair.c -static on Debian 11 builds' inside 'cd /programs && gcc -static -o static repair.c -lencoding_text'
step 'repair.c -static on Debian 11' prints "$repaired\n" /programs/static
step 'removal on Debian 11' inside 'dpkg --purge libencoding-text-dev libencoding-text0 utf8-repair'
step 'it leaves no file on Debian 11' leaves_nothing
step 'the tarball on Debian 11' inside 'tar -C /srv -xf /packed/*-x86_64-*.tar.gz'
use_programs 'of the tarball on Debian 11' '/srv/*/bin'
