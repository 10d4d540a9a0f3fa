#!/usr/bin/env bash
# A large search, once in parts and once in one run: bench/parts.sh [FOLDER [PARTS [JOBS]]]
#
# Five sessions create a table of one name. The parts are files in FOLDER, where those that are there already are kept, so that
# it can be stopped and started again; JOBS of them are made at once. At the end what they are merged to is compared with what
# the one run prints. CATSYNC_PROGRAM names another program than the proved executable.
set -eu -o pipefail

top=$(cd "$(dirname "${BASH_SOURCE[0]}")/.." && pwd)
folder=${1:-/tmp/catsync-parts}
parts=${2:-64}
jobs=${3:-2}
explore=("$top/tools/explore")
[ -z "${CATSYNC_PROGRAM-}" ] || explore+=(--program "$CATSYNC_PROGRAM")
mkdir -p "$folder"
script=$folder/script
{
    echo "backends 5"
    for backend in 1 2 3 4 5; do
        echo "$backend: create table t (a int4)"
    done
    echo end
} >"$script"

# Runs a command, and prints its name and its time.
timed() {
    local name=$1 TIMEFORMAT="%R s, %U s of processor and %S s of the system"
    shift
    { time "$@"; } 2>&1 | sed "s/^/$name: /"
}

# Makes a part, unless it is there and whole.
part() {
    grep -qs '"is_over": true' "$folder/part$1" || timed "part $1" "${explore[@]}" --part "$1/$parts" --out "$folder/part$1" <"$script"
}

one_run() {
    "${explore[@]}" --most 10000000 --jobs "$jobs" <"$script" >"$folder/one"
}

merge() {
    local number files=()
    for ((number = 1; number <= parts; number++)); do
        files+=("$folder/part$number")
    done
    "$top/tools/explore" --merge "${files[@]}" >"$folder/merged"
}

pids=()
for ((first = 1; first <= jobs; first++)); do
    (for ((number = first; number <= parts; number += jobs)); do part "$number"; done) &
    pids+=($!)
done
for pid in "${pids[@]}"; do
    wait "$pid"
done
timed merge merge
timed "one run" one_run
head -n 1 "$folder/one"
cmp "$folder/merged" "$folder/one" && echo "the parts are merged to what one run prints"
