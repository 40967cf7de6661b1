# Runs the commands of README's part on releases, and of the pages that the packages have, as they are written there, in a
# folder with nothing but what they name. tests/release sources this file.
# shellcheck shell=bash disable=SC2016 # the shell in the root expands them

# Prints the Nth indented block below a heading of a page.
block() { # the page, the heading, which block
    awk -v heading="## $2" -v wanted="$3" '
        /^#/ { inside = $0 == heading; number = 0 }
        inside && /^    / { if (!indented) number++; if (number == wanted) print substr($0, 5) }
        { indented = /^    / }' "$1"
}

# Runs a block in a folder of the root, and then a command. On ARM, the names of the packages have those of its machine.
run_block() { # the page, the heading, which block, the folder, the command
    local names=()
    [[ ${root:?} != *-arm64 ]] || names=(-e 's/amd64/arm64/g' -e 's/x86_64/aarch64/g')
    cp tests/clean_root/run_lines.sh "$root/programs" &&
        block "$1" "$2" "$3" | sed "${names[@]}" -e '' > "$root/programs/lines" && [ -s "$root/programs/lines" ] &&
        inside "cd $4 && . /programs/run_lines.sh /programs/lines && $5"
}

# A check of what a program of an example printed.
printed='[ "$(./a.out)" = $(printf "a\357\277\275Z") ]'

run_readme() {
    local on=${root##*/} part='Install a release'
    step "folders with the packages, on $on" inside 'for it in 1 2 3; do mkdir /srv/$it && cp /packed/* /srv/$it; done'
    step "README's Debian packages, on $on" run_block README.md "$part" 1 /srv/1 "$printed && ./a.out > printed && tr -d '\n' < printed | cmp repaired.txt -"
    step "README's tarball, on $on" run_block README.md "$part" 2 /srv/2 "$printed"
    step "a crate to add it to, on $on" inside 'cd /srv/3 && cargo init -q --vcs none --name user .'
    step "README's crate and wheel, on $on" run_block README.md "$part" 3 /srv/3 \
        'cp encoding_text-*/examples/repair.rs src/main.rs && cargo build -q --offline && ls target/debug/user && text/bin/python3 -c "import encoding_text"'
    step "README has no other block, on $on" gives '' block README.md "$part" 4
    step "removal of README's packages, on $on" inside 'dpkg --purge libencoding-text-dev libencoding-text0 utf8-repair && rm -r /srv/[123]'
}

# The page of the tarball, in its folder.
run_tarball_page() {
    local on=${root##*/} page=$root/srv/page/README.md
    step "the tarball's page, on $on" inside 'mkdir /srv/page && tar -C /srv/page --strip-components=1 -xf /packed/*-"$(uname -m)"-*.tar.gz'
    step "its commands, on $on" run_block "$page" 'Compile a program' 1 /srv/page "$printed"
    step "it has no other block, on $on" gives '' block "$page" 'Compile a program' 2
    step "its archive for other systems, on $on" inside 'ls -l /srv/page/lib/none/libencoding_text.a'
    if inside 'command -v man' > /dev/null; then
        while read -r command; do
            step "its $command, on $on" inside "cd /srv/page && $command | tee page | grep x86-64-v2 && grep '^ *127' page"
        done < <(grep -o 'man -l [^`]*' "$page")
    fi
}

# The page of the wheel: its command, and then its examples.
run_wheel_page() {
    local on=${root##*/}
    step "the wheel's page, on $on" inside 'mkdir /srv/wheel && cp /packed/*.whl /srv/wheel'
    step "its command, on $on" run_block python/README.md Install 1 /srv/wheel 'text/bin/python3 -c "
import doctest, pathlib
page = next(pathlib.Path(\"text/lib\").glob(\"*/site-packages/encoding_text-*.dist-info/METADATA\"))
found = doctest.testfile(str(page.resolve()), module_relative=False)
assert found.attempted > 1 and found.failed == 0, found"'
}

# The page of the crate: its program runs in a crate that depends on it.
run_crate_page() {
    local on=${root##*/}
    step "the crate's page, on $on" inside 'cargo new -q --vcs none /srv/user && tar -C /srv/user -xf /packed/*.crate && cd /srv/user &&
        cargo add -q --offline --path encoding_text-* && { echo "fn main() {"; sed -n "s/^    //p" encoding_text-*/README.md; echo "}"; } > src/main.rs &&
        grep assert_eq src/main.rs && cargo run -q --offline'
    step "it has no dead link, on $on" inside 'cd /srv/user/encoding_text-*/src && grep "PROMISES.md of the repository" promises.rs && ! grep -rn "](\.\./" . ../README.md'
    step "its documentation, on $on" inside 'cd /srv/user/encoding_text-* && RUSTDOCFLAGS="-D warnings" cargo doc -q --offline --no-deps &&
        ls target/doc/encoding_text/index.html'
}
