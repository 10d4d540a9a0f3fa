# Writes a script in which one backend holds relations open and is lapped again and again, so that each lock of it rebuilds
# all of them: awk -v relations=N -v resets=N -f resets.awk. Its walk makes about 12 entries for each relation and reset.

BEGIN {
    print "ring 64"
    print "backends 2"
    for (i = 1; i <= relations; i++) {
        print "1: create table t" i " (a int4)"
    }
    columns = "c1 int4"
    for (i = 2; i <= 67; i++) {
        columns = columns ", c" i " int4"
    }
    for (i = 1; i <= resets; i++) {
        print "1: create table w" i " (" columns ")"
    }
    print "2: begin"
    for (i = 1; i <= relations; i++) {
        print "2: open t" i
    }
    for (i = 1; i <= resets; i++) {
        print "2: lock table t" i " in row share mode"
    }
    print "2: commit"
    # the tables are made and opened first; then each table of 67 columns laps the second backend, which locks one more
    print "steps 1*" 7 * relations
    print "steps 2*" 2 + 16 * relations
    for (i = 1; i <= resets; i++) {
        print "steps 1*8 2*" 12 * relations + 5
    }
    print "end"
}
