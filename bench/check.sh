#!/usr/bin/env bash
# Measures the check of an output of many entries, beside the walk that made it, and of half as many commands; then the same of
# about a million entries, those of 80 resets of a backend that holds 1,003 relations open, and of half as many: the processor time
# and the most memory of one run each. It decides nothing.
# usage: bench/check.sh [COMMANDS [RESETS]]; 20000, the most that a script can have, and 80 if left out
set -u

cd "$(dirname "${BASH_SOURCE[0]}")/.." || exit 1
. bench/common.sh
need_program catsync ' -- walk < ../../examples/two_backends.script'
commands=${1:-20000}
resets=${2:-80}

# The script that has just been made.
measure() {
    echo "$1"
    echo "  walk: $(run_on "$temp/script" "$temp/written" walk), $(grep -c '^h ' "$temp/written") entries"
    cat "$temp/script" "$temp/written" >"$temp/checked"
    echo "  check walk: $(run_on "$temp/checked" "$temp/written" check walk), $(wc -c <"$temp/checked") bytes: $(cat "$temp/written")"
}

for count in "$commands" $((commands / 2)); do
    awk -v commands="$count" -f bench/entries.awk >"$temp/script" || exit 1
    measure "$count commands"
done
for count in "$resets" $((resets / 2)); do
    awk -v relations=1003 -v resets="$count" -f bench/resets.awk >"$temp/script" || exit 1
    measure "$count resets of 1003 open relations"
done
