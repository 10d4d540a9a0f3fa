# Writes a script whose walk makes many entries for its commands: awk -v commands=N -f entries.awk
# 63 backends show one table, which the first alters after every few of their steps, so that they begin to build its
# descriptor again and again.

BEGIN {
    backends = 64
    steps = 8
    altering = 40
    rounds = int(commands / 11)
    shows = int((commands - rounds - 1) / (backends - 1))
    print "backends " backends
    print "1: create table t (a int4, b text)"
    for (i = 1; i <= rounds; i++) {
        print "1: alter table t alter column a set statistics " i % 100
    }
    for (b = 2; b <= backends; b++) {
        for (i = 1; i <= shows; i++) {
            print b ": show t"
        }
    }
    # the table is made first
    print "steps 1*20"
    line = "steps"
    for (b = 2; b <= backends; b++) {
        line = line " " b "*" steps
    }
    for (i = 1; i <= rounds; i++) {
        print line " 1*" altering
    }
    print "end"
}
