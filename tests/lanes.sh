# Functions for `test`: it runs steps in lanes, reports their progress, and counts what each said. A script sources this file.
# A lane runs in a process of its own. What it found is in $work: a file ran/STEP for each step that ended.
# shellcheck shell=bash
work=$(mktemp -d)
logs=$PWD/build/logs
mkdir -p "$logs" "$work/ran"
touch "$work/told" "$work/left_out"
lanes=()
groups=()
without=${without:-}

# Ends all that the lanes left, each a process group of its own, with this script.
end_lanes() {
    local group
    # (a process that is ended right after its start may run this too)
    [ "$BASHPID" = $$ ] || return
    for group in "${groups[@]}"; do
        kill -- "-$group" 2> /dev/null
    done
    rm -rf "$work"
}
trap end_lanes EXIT

minutes() { # seconds
    printf '%d:%02d min' $(($1 / 60)) $(($1 % 60))
}

# Prints which crates the toolchain proves or builds at the moment in this folder.
proved_now() {
    pgrep -af 'rattle (check|build) --crate-name' | awk -v at="$PWD/" '
        index($0, at) { name = $0; sub(/.*--crate-name /, "", name); sub(/ .*/, "", name); print name ($0 ~ / --test/ ? " (tests)" : "") }' |
        sort -u | paste -sd ',' | sed 's/,/, /g'
}

# Prints what rt ci proves, and how much of that is done.
proving() { # its log
    local now ended all
    now=$(proved_now)
    ended=$(grep -cE '^rt: \S+( is kept|:? .*proved$)' "$1")
    all=$(grep -c '^[a-z]' crates.txt)
    echo "${now:-no proof runs}; $ended of $((all + $(crates_with_tests))) proofs done"
}

# Prints how many crates have tests.
crates_with_tests() {
    grep -lrE --include='*.rt' '#\[test\]' crates 2> /dev/null | cut -d / -f 2 | sort -u | wc -l
}

tick() { # the step, its log; tells every half minute how long it takes, and what it does
    local begun=$SECONDS now
    while sleep 30 > /dev/null 2>&1; do
        case $1 in
            proofs | each) now=$(proving "$2") ;;
            *) now=$(tail -n 1 "$2") ;;
        esac
        echo "[$1]     $(minutes $((SECONDS - begun))): $(cut -c 1-140 <<< "${now:-$(proved_now)}")"
    done
}

# Runs a step in this folder, and keeps its last line 'N passed, M failed' in $work/ran.
run_step() { # the step, about how long it takes on four cores, the command
    local step=$1 about=$2 log=$logs/$1.log begun=$SECONDS status line ticker
    shift 2
    echo "[$step] $* (about $about)"
    : > "$log"
    tick "$step" "$log" &
    ticker=$!
    "$@" > "$log" 2>&1 < /dev/null
    status=$?
    kill "$ticker" 2> /dev/null
    wait "$ticker" 2> /dev/null
    line=$(grep -E '^[0-9]+ passed, [0-9]+ failed$' "$log" | tail -n 1)
    if [ -z "$line" ]; then
        line='0 passed, 1 failed'
    elif [ "$line" = '0 passed, 0 failed' ] && ! grep -q 'left out' "$log"; then
        echo "$*: nothing was checked" >> "$log"
        line='0 passed, 1 failed'
    elif [ "$status" != 0 ] && [ "${line#*, }" = '0 failed' ]; then
        echo "$*: nothing failed, but status $status" >> "$log"
        line="${line%%,*}, 1 failed"
    fi
    echo "[$step]     $(minutes $((SECONDS - begun))): $line"
    grep -E 'left out' "$log" | tee -a "$work/left_out"
    echo "$line" > "$work/ran/$step"
    if [ "${line#*, }" != '0 failed' ]; then
        { echo "$*: $line"; grep -E 'FAILED|NOT PROVED|NOT REFUSED|NOT TRIED|BAD EDIT' "$log"; tail -n 20 "$log"; } | tee -a "$work/told"
    fi
}

# Fails a step that can't run, or that an option leaves out.
skip() { # the step, 'N passed, M failed', why
    echo "$2" > "$work/ran/$1"
    echo "$1: $3" | tee -a "$work/$([ "${2#*, }" = '0 failed' ] && echo left_out || echo told)"
}

source_of() { # a command
    case $1 in
        cargo) echo 'rustup installs it' ;;
        *) echo 'tools/setup installs it' ;;
    esac
}

# Runs these steps one after another, each as its line of the table says. The script sets $without: the options given.
lane() { # the steps
    local name step about options needs command option tool
    for name in "$@"; do
        IFS='|' read -r step about options needs command < <(grep "^$name *|" "$work/table" | sed 's/ *| */|/g')
        step=${step% }
        for option in $options; do
            if [[ "$without " = *" $option "* ]]; then
                skip "$step" '0 passed, 0 failed' "left out by --without $option"
                continue 2
            fi
        done
        for tool in $needs; do
            if ! command -v "$tool" > /dev/null; then
                skip "$step" '0 passed, 1 failed' "FAILED, $tool is not installed ($(source_of "$tool")); ./test --without ${options##* } leaves this out"
                continue 2
            fi
        done
        # shellcheck disable=SC2086 # a command of several words
        run_step "$step" "$about" $command
    done
}

# Starts a lane. One of the script itself has a process group of its own, with the lanes that it starts, so that all end with
# the script.
start() { # the commands
    [ "$BASHPID" != $$ ] || set -m
    "$@" &
    lanes+=($!)
    groups+=($!)
    set +m
}

# Waits for the lanes that were started. One that was killed, or ended with an error, is a failure.
join() {
    local lane status
    for lane in "${lanes[@]}"; do
        status=0
        wait "$lane" || status=$?
        if [ "$status" != 0 ]; then
            echo "FAILED: a lane of steps ended with status $status" | tee -a "$work/told"
            echo '0 passed, 1 failed' > "$work/ran/lane-$lane"
        fi
    done
    lanes=()
}

# Prints the sum of these steps, and fails if one of them failed or didn't run.
sum_up() { # the steps
    local step
    for step in "$@"; do
        if [ ! -s "$work/ran/$step" ]; then
            echo "$step: FAILED, it didn't run" >> "$work/told"
            echo '0 passed, 1 failed' > "$work/ran/$step"
        fi
    done
    cat "$work/told"
    if [ -s "$work/left_out" ]; then
        echo 'Left out (tools/setup installs what is missing):'
        sort -u "$work/left_out"
    fi
    cat "$work"/ran/* | awk '{ passed += $1; failed += $3 } END { print passed " passed, " failed " failed"; exit failed > 0 }'
}
