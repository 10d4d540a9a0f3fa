says="the tools"
needs="python3"

# The tests of the tools, with the proved executable.
check() {
    local test status=0
    for test in tools/test_*.py; do
        CATSYNC_PROGRAM=$program python3 "$test" >"$temp/tools" 2>&1 && continue
        echo "prove: $test"
        cat "$temp/tools"
        status=1
    done
    return "$status"
}
