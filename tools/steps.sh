# Steps of a check: each is a command, whose output is shown where it fails. A script sources this at
# its head, runs its steps, and ends with `finish`, whose line is the count. A step that takes longer
# than CHECK_LIMIT seconds (2000) has failed: on a busy machine some need 900. A script that is given
# the name of a step runs that alone.
passed=0
failed=0
named=() # steps that failed
missing=()
work=$(mktemp -d)
trap 'rm -rf "$work"' EXIT
gocode=/usr/share/gocode/src
rustcode=/usr/share/cargo/registry

# spent: writes to the variable of that name how many seconds of processors all processes took that have ended.
spent() {
    local minutes seconds more_minutes more_seconds
    times >"$work/times"
    { read -r _ && IFS='ms ' read -r minutes seconds more_minutes more_seconds _; } <"$work/times"
    spent=$((60 * (minutes + more_minutes) + ${seconds%.*} + ${more_seconds%.*}))
}

# step NAME COMMAND..: it runs in a process group of its own, which is killed where it hangs.
step() {
    local name=$1 from=$SECONDS before took code
    shift
    [ -z "${only:-}" ] || [ "$only" = "$name" ] || return 0
    spent
    before=$spent
    run_step "$@"
    code=$?
    spent
    took="$((SECONDS - from)) s, $((spent - before)) s of processors"
    if [ "$code" -eq 0 ]; then
        passed=$((passed + 1))
        printf 'passed: %s (%s)\n' "$name" "$took"
        grep '^not compared: ' "$work/log"
        if grep '^once more' "$work/log"; then show_log; fi
    else
        failed=$((failed + 1))
        named+=("$name")
        printf 'FAILED: %s (%s, code %d)\n' "$name" "$took" "$code"
        show_log
    fi
}

# emulated NAME COMMAND..: a step by an emulator, which is so slow that what a test waits for may come too late: it has two tries. The
# same tests run without one, where they have one try.
emulated() {
    local name=$1
    shift
    step "$name" two_tries "$@"
}

two_tries() {
    "$@" && return
    echo 'once more, since the first try failed'
    "$@"
}

# The command of a step, with its log. It returns what the command does.
run_step() {
    local limit=${CHECK_LIMIT:-2000} it i
    set -m
    "$@" >"$work/log" 2>&1 &
    it=$!
    # It ends by itself: a subshell that is killed as it begins may still run the trap above.
    {
        for ((i = 0; i < limit; i++)); do
            sleep 1
            kill -0 -- "-$it" || exit
        done
        kill -KILL -- "-$it"
    } >/dev/null 2>&1 &
    set +m
    wait "$it"
}

show_log() {
    grep -m 3 -A 4 -e '^--- FAIL' "$work/log"
    tail -n 20 "$work/log"
}

# wants COMMAND PACKAGE: whether the command is there; else it is named in the line of what is missing.
wants() {
    command -v "$1" >/dev/null && return 0
    missing+=("$2")
    return 1
}

# has PATH PACKAGE: the same of a file or folder.
has() {
    [ -e "$1" ] && return 0
    missing+=("$2")
    return 1
}

# counted COMMAND..: a script of steps, whose count is added to this one's.
counted() {
    local more lost
    "$@" 2>&1 | tee "$work/counted" | sed '$d'
    read -r more _ lost _ < <(tail -n 1 "$work/counted")
    passed=$((passed + ${more:-0}))
    failed=$((failed + ${lost:-1}))
    while IFS= read -r more; do named+=("$more"); done < <(sed -n 's/^FAILED: \(.*\) ([0-9]* s, .*/\1/p' "$work/counted")
}

finish() {
    [ ${#missing[@]} -eq 0 ] || printf 'missing, so not tested: apt-get install %s\n' "${missing[*]}"
    # Once more, since much may stand between a step and the end.
    [ ${#named[@]} -eq 0 ] || printf 'failed: %s\n' "${named[@]}"
    printf '%d passed, %d failed\n' "$passed" "$failed"
    [ "$failed" -eq 0 ]
    exit
}
