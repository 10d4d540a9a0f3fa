#!/usr/bin/env bash
# Measures `lines` of history_lines on the outputs of long walks, beside these walks: the least processor time of three runs
# each. No text counts: `layer_runs texts walk` writes none, and what it takes to read the entries (`lines read`) is taken
# off the time of reading them and asking `lines` (`lines count`). It decides nothing.
# usage: bench/lines.sh [COMMANDS]; 20000 if left out
set -u

cd "$(dirname "${BASH_SOURCE[0]}")/.." || exit 1
. bench/common.sh
need_program layer_runs
layers=$program
need_program catsync ' -- walk < ../../examples/two_backends.script'
catsync=$program
commands=${1:-20000}

# The least processor seconds of three runs of a command on an input, in $seconds; what it prints is in $temp/said.
thrice() {
    local input=$1 run times
    shift
    times=$(for ((run = 0; run < 3; run++)); do
        TIMEFORMAT='%U %S'
        time "$@" 2>&1 >"$temp/said" <"$input" || echo failed >&2
    done 2>&1)
    seconds=$(awk '/failed/ { bad = 1 } /^[0-9.]+ [0-9.]+$/ { sum = $1 + $2; if (least == "" || sum < least) least = sum } END { print bad ? "failed" : least }' <<<"$times")
}

measure() {
    local walked reading
    "$catsync" walk <"$temp/script" >"$temp/output" || exit 1
    cat "$temp/script" "$temp/output" >"$temp/case"
    thrice "$temp/script" "$layers" texts walk
    walked=$seconds
    thrice "$temp/case" "$layers" lines read
    reading=$seconds
    thrice "$temp/case" "$layers" lines count
    awk -v name="$1" -v walked="$walked" -v reading="$reading" -v both="$seconds" '
        {
            lines = both - reading
            printf "%s: %s: lines %.2f seconds, %.2f times the walk (%.2f seconds), and reading the entries %.2f\n", name, $0, lines, (walked > 0 ? lines / walked : 0), walked, reading
        }' "$temp/said"
}

awk -v tables="$((commands / 2))" -v schedule=1 -f bench/script.awk >"$temp/script" || exit 1
measure "$commands commands on many tables"
awk -v commands="$commands" -f bench/entries.awk >"$temp/script" || exit 1
measure "$commands commands on one table"
awk -v commands="$((commands / 2))" -f bench/entries.awk >"$temp/script" || exit 1
measure "half as many"
