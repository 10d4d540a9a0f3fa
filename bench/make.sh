#!/usr/bin/env bash
# Measures the making of scripts, a walk of each and the check of its output: the processor time and the most memory of one run
# each, and what the script's comment says. It decides nothing.
# usage: bench/make.sh [NUMBER..]; 1 7 1000 if left out
set -u

cd "$(dirname "${BASH_SOURCE[0]}")/.." || exit 1
. bench/common.sh
need_program catsync ' -- walk < ../../examples/two_backends.script'
[ $# -gt 0 ] || set -- 1 7 1000

for number; do
    echo "make $number: $(run_on /dev/null "$temp/script" make "$number"): $(head -n 1 "$temp/script")"
    [ -s "$temp/script" ] || exit 1
    echo "  walk: $(run_on "$temp/script" "$temp/output" walk)"
    cat "$temp/script" "$temp/output" >"$temp/checked"
    echo "  check walk: $(run_on "$temp/checked" "$temp/answer" check walk), $(wc -c <"$temp/checked") bytes: $(cat "$temp/answer")"
done
