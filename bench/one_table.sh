#!/usr/bin/env bash
# Measures the walk of a script in which one backend alters one table again and again, and that of half as many commands:
# the least processor time of three runs each. It decides nothing. usage: bench/one_table.sh [COMMANDS]; 20000 if left out
set -u

cd "$(dirname "${BASH_SOURCE[0]}")/.." || exit 1
. bench/common.sh
need_program catsync ' -- walk < ../../examples/two_backends.script'
commands=${1:-20000}

measure() {
    awk -v commands="$1" -f bench/one_table.awk >"$temp/script" || exit 1
    walk_thrice "$temp/script"
    awk -v commands="$1" -v status="$status" -v seconds="$seconds" '
        /^h / { entries++ }
        /^l .* error / { errors++ }
        END {
            printf "%d commands, status %d: %.2f seconds, %d entries, %d errors\n", commands, status, seconds, entries, errors
        }' "$temp/output"
}

measure "$commands"
measure $((commands / 2))
