#!/usr/bin/env bash
# Measures the queue of messages: insertions of 64 and of one, and fetches, with 64 backends of which one never reads.
# It decides nothing.
# usage: bench/queue.sh [MESSAGES], 10000000 if left out
set -u

cd "$(dirname "${BASH_SOURCE[0]}")/.." || exit 1
. bench/common.sh
need_program layer_runs
messages=${1:-10000000}

# The time for each message of a word's, of which each inserted one counts so many times.
measure() {
    local begun ended status
    begun=$(now)
    "$program" ring "$2" "$messages"
    status=$?
    ended=$(now)
    awk -v name="$1" -v status="$status" -v count="$messages" -v times="$3" -v begun="$begun" -v ended="$ended" 'BEGIN {
        printf "%s: status %d, %.1f ns a message\n", name, status, (ended - begun) * 1e9 / (count * times)
    }'
}

measure "inserted 64 at a time" batches 1
measure "inserted one at a time" singles 1
measure "fetched by 63 backends" fetches 63
