#!/usr/bin/env bash
# What the gate costs from nothing: ./prove in a fresh clone of HEAD where nothing is kept, and `rt selftest` before and after it,
# each in minutes of the processor and by the clock. The self-test is the kit's, the same for each repository, so it tells how fast
# the machine is: hosts differ by a factor of two, and so does one host from hour to hour. It takes one to two hours and wants the
# machine for itself, and root, since it hides what the kit keeps. Where CATSYNC_ORACLE (a whole path) names a second reading, what
# asks it counts too. It measures, and decides nothing; of a command that fails it shows the end of what that wrote.
#
#   bench/gate.sh
set -u
cd "$(dirname "${BASH_SOURCE[0]}")/.." || exit 1
case "$*" in
"") exec unshare --mount bench/gate.sh --hide-kept ;;
--hide-kept) ;;
*)
    echo "usage: bench/gate.sh" >&2
    exit 2
    ;;
esac
rt=$(readlink -f "$(command -v rt)") || {
    echo "bench: no rt on PATH" >&2
    exit 1
}
source bench/common.sh

# Runs a command, and says its minutes and its last line.
count() {
    local name=$1 times status
    shift
    TIMEFORMAT='%U %S %R'
    times=$({ time "$@" >"$temp/said" 2>&1; } 2>&1)
    status=$?
    awk -v name="$name" -v last="$(tail -n 1 "$temp/said")" '{ printf "%-12s %6.1f minutes, %6.1f by the clock: %s\n", name, ($1 + $2) / 60, $3 / 60, last }' <<<"$times"
    [ "$status" -eq 0 ] || tail -n 40 "$temp/said"
}

kept=$(dirname "$(dirname "$(dirname "$rt")")")/rattle-kept
mkdir -p "$kept" "$temp/kept" && mount --bind "$temp/kept" "$kept" || exit 1
git clone -q . "$temp/clone" && cd "$temp/clone" || exit 1
echo "of $(git rev-parse --short HEAD), a second reading: ${CATSYNC_ORACLE:-none}"
count 'rt selftest' rt selftest
count ./prove ./prove
count 'rt selftest' rt selftest
