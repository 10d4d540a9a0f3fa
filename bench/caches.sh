#!/usr/bin/env bash
# Measures a backend's caches with 10, 1,000 and 20,000 names: a lookup of one that is absent, a lookup of one that has a row, a
# message that takes one out with the put that brings it back, and a message that takes out nothing. The time that the names take to
# be put there first is taken away. Processor time, least of three. It decides nothing.
# usage: bench/caches.sh [COUNT [PROGRAM]]; 20000000 if left out. PROGRAM is a layer_runs of the same words over other crates,
# which is measured beside in the same run. For the caches that kept an index of lists, as at 123e999d, it is made in a clone of that
# commit that has this crates/layer_runs/src, where caches.rt calls LocalCaches::new without `.ok()?`
set -u

cd "$(dirname "${BASH_SOURCE[0]}")/.." || exit 1
. bench/common.sh
need_program layer_runs
count=${1:-20000000}
beside=${2-}

# The processor seconds that a program takes for so many of a word, with so many names.
seconds() {
    local times TIMEFORMAT='%U %S'
    times=$({ time "$1" caches "$2" "$3" "$4" >/dev/null 2>&1; } 2>&1) || exit 1
    awk '{ printf "%.6f", $1 + $2 }' <<<"$times"
}

# Nanoseconds for one of a word, least of three.
each() {
    local none all least=
    for _ in 1 2 3; do
        none=$(seconds "$1" "$2" 0 "$3") || exit 1
        all=$(seconds "$1" "$2" "$count" "$3") || exit 1
        least=$(awk -v none="$none" -v all="$all" -v count="$count" -v least="$least" 'BEGIN {
            ns = (all - none) * 1e9 / count
            printf "%.1f", (least == "" || ns < least) ? ns : least
        }')
    done
    echo "$least"
}

measure() {
    local names line
    for names in 10 1000 20000; do
        line="$1, of $names: $(each "$program" "$2" "$names") ns" || exit 1
        [ -z "$beside" ] || line="$line, beside $(each "$beside" "$2" "$names") ns" || exit 1
        echo "$line"
    done
}

measure "a lookup of an absent name" absent
measure "a lookup of a name that has a row" present
measure "a message that takes a name out, and its put" puts
measure "a message that takes out none of the absent names" messages
