# What passed and what failed: the tests source this. Each ends with `finish`, whose line 'N passed, M failed' is its last.
passed=0
failed=0

pass() {
    passed=$((passed + 1))
}

# fail TEXT: one failure, and what is told of it.
fail() {
    failed=$((failed + 1))
    printf '%s\n' "$1"
}

# count LINE: adds what a line 'N passed, M failed' says, or cargo's; any other line is a failure.
count() {
    if [[ $1 =~ ([0-9]+)\ passed[,\;]\ ([0-9]+)\ failed ]]; then
        passed=$((passed + BASH_REMATCH[1]))
        failed=$((failed + BASH_REMATCH[2]))
    else
        fail "no count: '$1'"
    fi
}

# run COMMAND..: shows what a test prints, as it prints it, and counts its last line. A status that its count does not explain is a
# failure too.
run() {
    local before=$failed out status
    out=$(mktemp)
    "$@" 2>&1 | tee "$out"
    status=${PIPESTATUS[0]}
    count "$(tail -n 1 "$out")"
    rm -f "$out"
    [ "$status" -eq 0 ] || [ "$failed" -gt "$before" ] || fail "$1 ended with $status"
}

# needs COMMAND..: what the tests cannot do without; where it fails, that is the one failure.
needs() {
    "$@" && return
    fail "$1 failed"
    finish
    exit 1
}

finish() {
    printf '%d passed, %d failed\n' "$passed" "$failed"
    [ "$failed" -eq 0 ]
}
