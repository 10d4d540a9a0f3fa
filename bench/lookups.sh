#!/usr/bin/env bash
# Measures the walk of a script of many lookups of names and columns over 64 backends, and that of half as many commands: the
# least processor time of three runs each. It decides nothing. usage: bench/lookups.sh [COMMANDS]; 20000 if left out
set -u

cd "$(dirname "${BASH_SOURCE[0]}")/.." || exit 1
. bench/common.sh
need_program catsync ' -- walk < ../../examples/two_backends.script'
commands=${1:-20000}

measure() {
    awk -v commands="$1" -f bench/lookups.awk >"$temp/script" || exit 1
    walk_thrice "$temp/script"
    awk -v commands="$1" -v status="$status" -v seconds="$seconds" '
        /^h / { entries++ }
        /^h [0-9]+ [0-9]+ scan (relname|attname|attlist) / { scans++ }
        /^h [0-9]+ [0-9]+ fetch [0-9]+/ { fetched += $5 }
        /^l .* error / { errors++ }
        END {
            printf "%d commands, status %d: %.2f seconds, %d entries, %d scans for catalog caches, %d messages fetched, %d errors\n", commands, status, seconds, entries, scans, fetched, errors
        }' "$temp/output"
}

measure "$commands"
measure $((commands / 2))
