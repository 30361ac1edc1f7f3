# The parts of a test run, and their sum. Read by .ci/run and tests/run.
passed=0
failed=0

# The two numbers of a line 'N passed, M failed', which rt may end with a remark in parentheses.
counts() {
    sed -nE 's/^([0-9]+) passed, ([0-9]+) failed( \(.*\))?$/\1 \2/p'
}

# Runs a part, and adds up the counts of its last line; a part that fails without saying so counts as one failure.
part() { # TITLE COMMAND..
    local title=$1 log status p f
    shift
    echo "== $title: $*"
    log=$(mktemp)
    "$@" 2>&1 | tee "$log"
    status=${PIPESTATUS[0]}
    read -r p f < <(tail -n 1 "$log" | counts)
    rm -f "$log"
    if [ -z "${f:-}" ] || [ $((p + f)) -eq 0 ]; then
        echo "$title: its last line does not count the tests that it ran (exit status $status)"
        failed=$((failed + 1))
        return
    fi
    passed=$((passed + p))
    failed=$((failed + f))
    if [ "$status" -ne 0 ] && [ "$f" -eq 0 ]; then
        echo "$title: exit status $status"
        failed=$((failed + 1))
    fi
}

# A part that is one test: it passes where the command does.
one() { # COMMAND..
    if "$@"; then echo "1 passed, 0 failed"; else echo "0 passed, 1 failed"; fi
}

finish() {
    echo "$passed passed, $failed failed"
    [ "$failed" -eq 0 ] && [ "$passed" -gt 0 ]
    exit
}
