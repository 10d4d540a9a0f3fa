#!/usr/bin/env bash
# Measures the walk of a script that makes many entries: 63 backends show a table that another alters again and again.
# The least processor time of three runs, and that for a million entries. It decides nothing.
# usage: bench/entries.sh [COMMANDS]; 20000 if left out
set -u

cd "$(dirname "${BASH_SOURCE[0]}")/.." || exit 1
. bench/common.sh
need_program catsync ' -- walk < ../../examples/two_backends.script'
commands=${1:-20000}

measure() {
    awk -v commands="$1" -f bench/entries.awk >"$temp/script" || exit 1
    walk_thrice "$temp/script"
    awk -v commands="$1" -v status="$status" -v seconds="$seconds" '
        /^h / { entries++ }
        /^l .* error / { errors++ }
        END {
            printf "%d commands, status %d: %.2f seconds, %d entries, %.2f seconds a million, %d errors\n", commands, status, seconds, entries, (entries > 0 ? seconds / entries * 1e6 : 0), errors
        }' "$temp/output"
}

measure "$commands"
measure $((commands / 2))
