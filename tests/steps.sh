# Functions for scripts that check one thing after another. A script sources this file first and ends with `finish`.
# In between it has an empty folder, $work, which is removed at its end.
# shellcheck shell=bash
passed=0
failed=0
omitted=0
work=$(mktemp -d)
trap 'rm -rf "$work"' EXIT

# Counts a check as passed if the status is 0.
count() { # the status, what was checked, what to print if it failed
    if [ "$1" = 0 ]; then
        passed=$((passed + 1))
    else
        failed=$((failed + 1))
        echo "$2: FAILED${3:+: $3}"
    fi
}

# Runs a command, and prints the last line of its output. If the command fails, prints the end of all of it.
step() { # what, then the command
    local what=$1 status=0
    shift
    "$@" > "$work/log" 2>&1 || status=$?
    count "$status" "$what"
    if [ "$status" = 0 ]; then
        echo "$what: $(tail -n 1 "$work/log")"
    else
        tail -n 60 "$work/log"
    fi
}

has() { # a command
    command -v "$1" > /dev/null
}

# Leaves a check out because something is missing. With CI=true that is a failure: a machine that checks for others has all of it.
left_out() { # what, what is missing, and what to do if tools/setup doesn't install it
    local why="$2 is missing (${3:-tools/setup installs it})"
    if [ "${CI:-}" = true ]; then
        count 1 "$1" "$why, and CI=true leaves nothing out"
    else
        omitted=$((omitted + 1))
        echo "$1: left out, $why"
    fi
}

# Succeeds if a command ends with status 0 and writes a certain output.
gives() { # the output, with the escapes of printf %b; then the command, whose status has to be 0
    gives_with 0 "$@"
}

# Succeeds if a command ends with a certain status and writes a certain output.
gives_with() { # the status, the output as for gives, the command
    local status=0 output=$work/output.$BASHPID
    ("${@:3}") > "$output" || status=$?
    [ "$status" = "$1" ] || echo "status $status, and not $1"
    printf %b "$2" | diff - "$output" && [ "$status" = "$1" ]
}

# Prints the sum as the last line, and exits. To have checked nothing is a failure, unless all of it was left out by name.
finish() {
    [ "$((passed + failed + omitted))" != 0 ] || count 1 'the checks' 'nothing was checked'
    echo "$passed passed, $failed failed"
    [ "$failed" = 0 ]
    exit
}
