#!/usr/bin/env bash
# Measures a block of many savepoints, and one of half as many: of names of their own, all of one name and released, and each with
# a write that is rolled back; the least processor time of three runs each. It decides nothing.
# usage: bench/savepoints.sh [SAVEPOINTS]; 10000 if left out, and 19000 at most
set -u

cd "$(dirname "${BASH_SOURCE[0]}")/.." || exit 1
. bench/common.sh
need_program catsync ' -- walk < ../../examples/two_backends.script'
savepoints=${1:-10000}

# A block of so many commands: 'names' are savepoints, each of its own name; 'released' are savepoints of one name, and then their
# releases; 'rolled' are savepoints of one name, each rolled back to after a write and left standing.
script() {
    awk -v count="$1" -v form="$2" 'BEGIN {
        print "backends 1\n1: create table t (a int4)\n1: begin"
        if (form == "names") {
            for (i = 1; i <= count; i++) print "1: savepoint s" i
            print "1: rollback to s1"
        } else if (form == "released") {
            for (i = 1; i <= count / 2; i++) print "1: savepoint s"
            for (i = 1; i <= count / 2; i++) print "1: release s"
        } else {
            for (i = 1; i <= count / 3; i++) print "1: savepoint s\n1: alter table t set (fillfactor = " 10 + i % 91 ")\n1: rollback to s"
        }
        print "1: commit\nend"
    }' >"$temp/script"
}

measure() {
    script "$1" "$2" || exit 1
    walk_thrice "$temp/script"
    awk -v name="$2" -v count="$1" -v status="$status" -v seconds="$seconds" '
        /^h / { entries++ }
        END { printf "%s: %d commands, status %d: %.2f seconds, %d entries\n", name, count, status, seconds, entries }' "$temp/output"
}

for form in names released rolled; do
    measure "$savepoints" "$form"
    measure $((savepoints / 2)) "$form"
done
