#!/usr/bin/env bash
# Measures the walk of a script in which 64 backends lap each other in a queue of 64 messages, and that of half as many
# commands: the least processor time of three runs each. It decides nothing. usage: bench/laps.sh [COMMANDS]; 20000 if left out
set -u

cd "$(dirname "${BASH_SOURCE[0]}")/.." || exit 1
. bench/common.sh
need_program catsync ' -- walk < ../../examples/two_backends.script'
commands=${1:-20000}

measure() {
    awk -v commands="$1" -f bench/laps.awk >"$temp/script" || exit 1
    walk_thrice "$temp/script"
    awk -v commands="$1" -v status="$status" -v seconds="$seconds" '
        /^h / { entries++ }
        /^h [0-9]+ [0-9]+ publish / { published += $5 }
        /^h [0-9]+ [0-9]+ fetch reset/ { resets++ }
        /^l .* error / { errors++ }
        END {
            printf "%d commands, status %d: %.2f seconds, %d entries, %d messages, %d resets, %d errors\n", commands, status, seconds, entries, published, resets, errors
        }' "$temp/output"
}

measure "$commands"
measure $((commands / 2))
