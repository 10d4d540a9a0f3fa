#!/usr/bin/env bash
# Measures runs on threads: a script of many commands over 64 backends, walked and run, the walk without a schedule and with one; then 63
# backends that look while one writes, two backends that show a table again and again in a block, which takes no entry, and two that begin and end blocks,
# which takes a look and a release each. Of each the processor time, the time by the clock and the most memory of one run, how
# many entries it made, and how often one came from another backend than the one before: it took at least so many turns, and
# one. It decides nothing.
# usage: bench/threads.sh [COMMANDS]; 20000, the most that a script can have, if left out
set -u

cd "$(dirname "${BASH_SOURCE[0]}")/.." || exit 1
. bench/common.sh
need_program catsync ' -- walk < ../../examples/two_backends.script'
commands=${1:-20000}

# How many entries an output has, and how often one is of another backend than the one before it.
hands() {
    awk '$1 == "h" { entries++; if ($2 != last) hands++; last = $2 } END { print entries + 0 " entries, " hands - 1 " times from hand to hand" }' "$1"
}

# The script in $temp/script, by both words.
measure() {
    local word
    echo "$1"
    for word in walk run; do
        echo "  $word: $(run_on "$temp/script" "$temp/written" "$word"), $(hands "$temp/written")"
    done
}

awk -v tables=$((commands / 2)) -v schedule=0 -f bench/script.awk >"$temp/script" || exit 1
measure "$commands commands, half create table and half show, where the walk takes one backend after another"
awk -v tables=$((commands / 2)) -v schedule=1 -f bench/script.awk >"$temp/script" || exit 1
measure "the same commands, where the walk goes by a schedule"
awk -v commands="$commands" -f bench/entries.awk >"$temp/script" || exit 1
measure "$commands commands, most of them show of one table that changes"
{
    echo "backends 2"
    echo "1: create table t (a int4)"
    for b in 1 2; do
        echo "$b: begin"
        for ((command = 4; command < commands / 2; command++)); do
            echo "$b: show t"
        done
        echo "$b: commit"
    done
    echo "end"
} >"$temp/script"
measure "two backends that show one table again and again"
{
    echo "backends 2"
    for b in 1 2; do
        for ((command = 0; command < commands / 2; command += 2)); do
            echo "$b: begin"
            echo "$b: commit"
        done
    done
    echo "end"
} >"$temp/script"
measure "two backends that begin and end blocks"
