#!/usr/bin/env bash
# Measures commands on indexes, and half as many: an index of 32 columns that is made and dropped again and again; a table of many
# indexes, made in one block, without its drop and with it; a table with as many foreign keys to as many tables that is dropped.
# The least processor time of three runs each. It decides nothing. usage: bench/indexes.sh [COMMANDS]; 4000 if left out
set -u

cd "$(dirname "${BASH_SOURCE[0]}")/.." || exit 1
. bench/common.sh
need_program catsync ' -- walk < ../../examples/two_backends.script'
commands=${1:-4000}

script() {
    awk -v count="$1" -v form="$2" 'BEGIN {
        print "backends 1"
        for (i = 1; i <= 32; i++) {
            columns = columns (i > 1 ? "," : "") "c" i
            typed = typed (i > 1 ? "," : "") "c" i " int4"
        }
        print "1: create table t (" typed ")"
        if (form == "wide") {
            for (i = 1; i <= count / 2; i++) print "1: create index i on t (" columns ")\n1: drop index i"
        } else if (form == "keys" || form == "drop of keys") {
            for (i = 1; i <= count / 2; i++) print "1: create table u" i " (a int4)"
            print "1: begin"
            for (i = 1; i <= count / 2; i++) print "1: alter table t add constraint k" i " foreign key (c1) references u" i " (a)"
            if (form != "keys") print "1: drop table t"
            print "1: commit"
        } else {
            print "1: begin"
            for (i = 1; i <= count; i++) print "1: create index i" i " on t (c1)"
            print "1: commit"
            if (form != "many") print "1: drop table t"
        }
        print "end"
    }' >"$temp/script"
}

measure() {
    script "$1" "$2" || exit 1
    walk_thrice "$temp/script"
    awk -v name="$2" -v count="$1" -v status="$status" -v seconds="$seconds" '
        /^h / { entries++ }
        END { printf "%s: %d, status %d: %.2f seconds, %d entries\n", name, count, status, seconds, entries }' "$temp/output"
}

for form in wide many "drop of many" keys "drop of keys"; do
    measure "$commands" "$form"
    measure $((commands / 2)) "$form"
done
