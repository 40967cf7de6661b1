# Tests the Python package for ARM64 with Debian's Python for it. tests/arm/run sources this file.
# shellcheck shell=bash disable=SC2154 # that script sets them
root=${XDG_CACHE_HOME:-$HOME/.cache}/encoding_text/python-arm64
export PYTHONDONTWRITEBYTECODE=1 SOURCE_DATE_EPOCH=1000000000

# The Python that tests run as a program of its own. Only a kernel with a handler for ARM64 can run it by its name. It has 1 GiB
# of addresses, since qemu doesn't limit those of one process.
emulated_python=$(printf ' %q' qemu-aarch64 -R 1G -L "$root" "$root/usr/bin/python3")

# Runs the tests of modules at once with the emulated Python, and succeeds if each has at least one. Prints how many there are.
python_tests() { # the modules
    local module run status=0 runs=()
    for module in "$@"; do
        qemu-aarch64 -L "$root" -E PYTHONPATH="$work/site:tests/python" -E PYTHON="${emulated_python# }" -E CALLS=1000 \
            "$root/usr/bin/python3" -m unittest "$module" > "$work/tests.$module" 2>&1 &
        runs+=($!)
    done
    for run in "${runs[@]}"; do
        wait "$run" || status=1
    done
    [ "$status" = 0 ] || tail -n 60 "$work"/tests.*
    awk -v modules=$# '/^Ran [1-9]/ {count += $2; some++} END {print count " tests"; exit some != modules}' "$work"/tests.* && return $status
}

# Succeeds if a compiler for this machine makes no wheel for ARM64.
refuses_compiler() {
    ! CC=${CC:-cc} python/wheel "${built:?}" "$work/no_wheel" && [ ! -e "$work/no_wheel" ]
}

if has python3; then
    CC=${cc[0]} step 'wheel' python/wheel "$built" "$work/wheel"
    step 'its tag' ls "$work"/wheel/encoding_text-*-cp38-abi3-manylinux_2_17_aarch64.whl
    step 'a compiler for another machine' refuses_compiler
    WHEEL=$(echo "$work"/wheel/*.whl)
    export WHEEL README=python/README.md
    step 'it installs' python3 -m zipfile -e "$WHEEL" "$work/site"
    if [ -x "$root/usr/bin/python3" ]; then
        modules=(tests/python/test_*.py)
        modules=("${modules[@]##*/}")
        step 'tests of the Python package' python_tests "${modules[@]%.py}"
    else
        left_out 'tests of the Python package on ARM' 'Python for ARM64'
    fi
else
    left_out 'the Python package on ARM' python3
fi
