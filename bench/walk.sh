#!/usr/bin/env bash
# Measures the walk of a script of many commands over 64 backends, with a random schedule and without one, and of half as
# many commands: the least processor time of three runs each. It decides nothing.
# usage: bench/walk.sh [COMMANDS], half of them `create table` and half `show`; 20000 if left out
set -u

cd "$(dirname "${BASH_SOURCE[0]}")/.." || exit 1
. bench/common.sh
need_program catsync ' -- walk < ../../examples/two_backends.script'
commands=${1:-20000}

measure() {
    local tables=$(($1 / 2))
    awk -v tables="$tables" -v schedule="$2" -f bench/script.awk >"$temp/script" || exit 1
    walk_thrice "$temp/script"
    awk -v name="$3" -v tables="$tables" -v status="$status" -v seconds="$seconds" '
        /^h / { entries++ }
        END {
            printf "%s: %d create table and %d show, status %d: %.2f seconds, %d entries\n", name, tables, tables, status, seconds, entries
        }' "$temp/output"
}

measure "$commands" 1 "random schedule"
measure $((commands / 2)) 1 "random schedule"
measure "$commands" 0 "no schedule"
measure $((commands / 2)) 0 "no schedule"
