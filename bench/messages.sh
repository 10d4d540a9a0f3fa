#!/usr/bin/env bash
# Measures messages: the walk of so many tables of 60 columns over 64 backends, each made by some of them; and what it
# costs to publish and to fetch one message, without the text of any entry. It decides nothing.
# usage: bench/messages.sh [TABLES], at most 1600; 1000 if left out
set -u

cd "$(dirname "${BASH_SOURCE[0]}")/.." || exit 1
. bench/common.sh
need_program layer_runs
bench=$program
need_program catsync ' -- walk < stdin'
tables=${1:-1000}
columns=60
runs=10

script() {
    awk -v tables="$tables" -v columns="$columns" -v part="$1" -f bench/wide.awk >"$temp/$1" || exit 1
}

# The walk of a script: its seconds, its entries, and how many messages were published and fetched.
measure_walk() {
    local begun ended status
    begun=$(now)
    "$program" walk <"$temp/spread" >"$temp/output"
    status=$?
    ended=$(now)
    awk -v tables="$tables" -v columns="$columns" -v status="$status" -v begun="$begun" -v ended="$ended" '
        /^h / { entries++ }
        /^h [0-9]+ [0-9]+ publish / { published += $5 }
        /^h [0-9]+ [0-9]+ fetch / { fetched += $5 }
        END {
            printf "%d tables of %d columns over 64 backends, status %d: %.2f seconds, %d entries, %d messages published and %d fetched\n", tables, columns, status, ended - begun, entries, published, fetched
        }' "$temp/output"
}

# The least seconds of some walks of a script.
least() {
    local begun run
    for ((run = 0; run < runs; run++)); do
        begun=$(now)
        "$bench" texts walk <"$temp/$1" || exit 1
        echo "$begun $(now)"
    done | awk 'NR == 1 || $2 - $1 < least { least = $2 - $1 } END { print least }'
}

# What a message costs, by what the second of two scripts takes longer: it does the same with so many messages besides.
measure_message() {
    local without with
    script "$2"
    script "$3"
    without=$(least "$2")
    with=$(least "$3")
    awk -v name="$1" -v count="$4" -v without="$without" -v with="$with" 'BEGIN {
        printf "%s %d messages: %.3f - %.3f seconds, %.0f ns each\n", name, count, with, without, (with - without) / count * 1e9
    }'
}

messages=$((tables * (columns + 3)))
script spread
measure_walk
measure_message "publishing" written published "$messages"
measure_message "fetching" sent fetched $((messages * 63))
