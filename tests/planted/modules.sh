# A crate of a few modules: whether tools/modules finds what is wrong in it. tests/checks sources this file.
# shellcheck shell=bash disable=SC2154 # tests/checks sets the names
module() { # its name, its lines
    mkdir -p "$(dirname "$room/crates/a/src/$1")"
    printf '%s\n' "${@:2}" > "$room/crates/a/src/$1.rt"
}
few() {
    rm -rf "$room"
    mkdir -p "$room/tools"
    cp tools/modules tools/imports.py "$room/tools"
    module lib 'mod one;' 'mod two;' 'mod three;' '' 'fn unused() -> bool {' '    false' '}'
    module one 'use crate::two::second;' '' 'pub fn first() -> bool {' '    !second()' '}'
    module two 'use crate::three::{third};' '' 'pub fn second() -> bool {' '    !third() && helper(1)' '}' '' \
        'fn helper(of: usize) -> bool {' '    let same = crate::three::is(of);' '    same' '}'
    module three 'pub fn third() -> bool {' '    false' '}'
}
finds() { # what it says; of the crate as it is
    local said
    said=$(cd "$room" && tools/modules)
    [ $? = 1 ] && grep -qx "FAILED: $1" <<< "$said" && echo "$said" | tail -n 1
}

rows_of_modules() {
    few
    step 'tools/modules, a crate without faults' env -C "$room" tools/modules
    module two 'use crate::one::first;' '' 'pub fn second() -> bool {' '    !first()' '}'
    step 'tools/modules, two modules that import each other' finds 'a cycle of modules: a::one > a::two > a::one'
    few
    module three 'use super::one::first;' '' 'pub fn third() -> bool {' '    !first()' '}'
    step 'tools/modules, a cycle of three' finds 'a cycle of modules: a::one > a::two > a::three > a::one'
    few
    module three 'pub fn third() -> bool {' '    !crate::one::first()' '}'
    step 'tools/modules, a cycle by a path' finds 'a cycle of modules: a::one > a::two > a::three > a::one'
    few
    module one 'mod inner;' 'pub use inner::first;' 'pub use inner::{first as again};'
    module one/inner 'use crate::two::second;' '' 'pub fn first() -> bool {' '    !second()' '}'
    step 'tools/modules, an item that is re-exported' env -C "$room" tools/modules
    module three 'use crate::one::{self, again};' '' 'pub fn third() -> bool {' '    !again()' '}'
    step 'tools/modules, a cycle by a re-exported item' finds 'a cycle of modules: a::one::inner > a::two > a::three > a::one::inner'
    few
    module two 'use crate::three::third;' '' 'pub fn second() -> bool {' '    !helper(1) && third()' '}' '' \
        '#[inline(always)]' 'fn helper<const N: usize>(of: usize) -> bool' '    ensures { a }' '{' '    // only' '    crate::three::is::<N>(' '        &of[1..],' '    )' '}'
    step 'tools/modules, a function that only passes on' finds 'a::two, line 8: helper is one call, and has one caller'
    module one 'use crate::two::{helper, second};' '' 'pub fn first() -> bool {' '    !second() && helper(2)' '}'
    step 'tools/modules, one with two callers' env -C "$room" tools/modules
    few
    sed -i 's/^fn helper/pub &/; s/let same = \(.*\);/\1/; /^    same$/d' "$room/crates/a/src/two.rt"
    step 'tools/modules, a public one' env -C "$room" tools/modules
    sed -i 's/^pub fn helper/pub(crate) fn helper/' "$room/crates/a/src/two.rt"
    step 'tools/modules, one of the crate' finds 'a::two, line 7: helper is one call, and has one caller'
}
