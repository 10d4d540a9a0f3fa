#!/usr/bin/env bash
# Measures texts: a script of 1,048,576 bytes and 20,000 commands read and written back; a history of so many lines
# read; the same history read and written back into a pipe. It decides nothing.
# usage: bench/texts.sh [LINES], 1000000 if left out
set -u

cd "$(dirname "${BASH_SOURCE[0]}")/.." || exit 1
. bench/common.sh
need_program layer_runs
lines=${1:-1000000}

# The seconds of an argument on an input, and whether it wrote what is wanted.
measure() {
    local begun ended status
    begun=$(now)
    "$program" texts "$2" <"$temp/$3" | cat >"$temp/output"
    status=${PIPESTATUS[0]}
    ended=$(now)
    local same=yes
    [ "$4" = none ] || cmp -s "$temp/output" "$temp/$4" || same=no
    awk -v name="$1" -v status="$status" -v same="$same" -v begun="$begun" -v ended="$ended" 'BEGIN {
        printf "%s: status %d, the text is as wanted: %s, %.2f seconds\n", name, status, same, ended - begun
    }'
}

awk -f bench/long_script.awk >"$temp/script"
head -n 20002 "$temp/script" >"$temp/spelling"
awk -v lines="$lines" -f bench/history.awk >"$temp/history"
{ cat "$temp/history"; echo end; } >"$temp/copied"

measure "a script of $(wc -c <"$temp/script") bytes and 20000 commands read and written back" script script spelling
measure "$lines entries read" read history none
measure "$lines entries read, and written into a pipe" copy history copied
