#!/usr/bin/env bash
# Measures the walk of a script in which a reset rebuilds 500 relations that one backend holds open, and then 1,000, 2,000 and
# 4,000, in the order in which they were opened and in the opposite one: the least processor time of three runs each, which
# should double from line to line. It decides nothing.
# usage: bench/open_relations.sh [RELATIONS ..]
set -u

cd "$(dirname "${BASH_SOURCE[0]}")/.." || exit 1
. bench/common.sh
need_program catsync ' -- walk < ../../examples/two_backends.script'

measure() {
    awk -v relations="$1" -v least_first="$2" -f bench/open_relations.awk >"$temp/script" || exit 1
    walk_thrice "$temp/script"
    awk -v relations="$1" -v order="$([ "$2" = 1 ] && echo "in the order of opening" || echo "in the opposite order")" -v status="$status" -v seconds="$seconds" '
        /^h / { entries++ }
        /^h 2 [0-9]+ scan class / { builds++ }
        /^h 2 [0-9]+ fetch reset/ { resets++; before = builds }
        /^l .* error / { errors++ }
        END {
            printf "%d open relations, rebuilt %s, status %d: %.2f seconds, %d entries, %d resets, %d rebuilds after that, %d errors\n", relations, order, status, seconds, entries, resets, builds - before, errors
        }' "$temp/output"
}

[ $# -gt 0 ] || set -- 500 1000 2000 4000
for least_first in 0 1; do
    for relations; do
        measure "$relations" "$least_first"
    done
done
