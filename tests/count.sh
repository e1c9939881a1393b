# Counts checks, for host/check and tests/console/check. Whoever sources this gives `log`, a file for what a check prints.
passed=0
failed=0

# Counts the command as passed or failed; what a failed one printed is shown. A subshell keeps its variables to itself.
check() { # NAME COMMAND..
    name=$1
    shift
    if ("$@") >"$log" 2>&1; then
        echo "passed: $name"
        passed=$((passed + 1))
    else
        cat "$log"
        echo "failed: $name"
        failed=$((failed + 1))
    fi
}

report() {
    echo "$passed passed, $failed failed"
    [ "$failed" -eq 0 ]
}
