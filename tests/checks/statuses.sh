says="the exit statuses"
needs=""

# Each exit status that the examples don't have and a shell can bring about.
check() {
    local usage
    usage=$(usage_said)
    local script=examples/two_backends.script
    wrong_arguments &&
        ends 3 "catsync: the input has more than 1048576 bytes, or 268435456 for check" check walk < <(head -c 268435457 /dev/zero) &&
        ends 4 "catsync: reading failed" check walk </ &&
        to=/dev/full ends 5 "catsync: writing failed" check walk < <(cat "$script" "${script%.script}.output") &&
        ends 3 "catsync: the input has more than 1048576 bytes, or 268435456 for check" walk < <(head -c 1048577 /dev/zero) &&
        ends 3 "catsync: the input has more than 1048576 bytes, or 268435456 for check" walk </dev/zero &&
        ends 4 "catsync: reading failed" walk </ &&
        to=/dev/full ends 5 "catsync: writing failed" walk <"$script" &&
        ends 3 "catsync: the input has more than 1048576 bytes, or 268435456 for check" run < <(head -c 1048577 /dev/zero) &&
        ends 4 "catsync: reading failed" run </ &&
        to=/dev/full ends 5 "catsync: writing failed" run <"$script" &&
        "$program" run </dev/null >"$temp/output" 2>"$temp/said"
    [ $? -eq 2 ] && [ ! -s "$temp/output" ] && cmp "$temp/said" <("$program" walk </dev/null 2>&1) && script_ends
}

# The usage, and then which argument is wrong.
refuses() {
    local hint=$1
    shift
    ends 1 "$usage"$'\n'"catsync: $hint" "$@" <"$script"
}

# Inputs of a check, and the exit status of each: the script ends with its `end` line, the rest is the output.
script_ends() {
    local status input ended
    while IFS='|' read -r status input; do
        "$program" check walk < <(printf '%b' "$input") >"$temp/output" 2>"$temp/said"
        ended=$?
        [ "$ended" -eq "$status" ] && [ "$(cat "$temp/output")" = "$([ "$ended" -ne 0 ] || echo "checked 2 entries")" ] && continue
        echo "prove: catsync check walk: status $ended, and not $status, of '$input'"
        return 1
    done <<'CASES'
2|
2|backends 1\n1: show t\n
7|backends 1\n1: drop index i\nend\nend\n
7|backends 1\nend\n
7|backends 1\nend\n-- x\nh 1 0 start\nh 1 1 stop\nend\n
0|backends 1\nend\nh 1 0 start\nh 1 1 stop\nend\n
2|BACKENDS 1 -- one\nEND\r\nh 1 0 start\nh 1 1 stop\nend\n
0|backends 1\n-- none\nEND\r\nh 1 0 start\nh 1 1 stop\nend\n
CASES
}
