# Writes a script in which one backend holds many relations open as another one's wide table laps it; those of least oid are
# opened last, or first where that is asked for: awk -v relations=N [-v least_first=1] -f open_relations.awk.

BEGIN {
    print "ring 64"
    print "backends 2"
    for (i = 1; i <= relations; i++) {
        print "1: create table t" i " (a int4)"
    }
    line = "1: create table w (c1 int4"
    for (i = 2; i <= 67; i++) {
        line = line ", c" i " int4"
    }
    print line ")"
    print "2: begin"
    for (i = 1; i <= relations; i++) {
        print "2: open t" (least_first ? i : relations + 1 - i)
    }
    print "2: lock table t1 in row share mode"
    print "2: peek t1 fillfactor"
    print "2: commit"
    # a table takes 7 steps, an open 16; the reset comes after the lock, and each rebuild takes 12
    print "steps 1*" 7 * relations " 2*" 2 + 16 * relations " 1*8 2*" 12 * relations + 100 " 1"
    print "end"
}
