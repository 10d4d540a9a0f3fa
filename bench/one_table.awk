# Writes a script in which one backend alters one table again and again: awk -v commands=N -f one_table.awk

BEGIN {
    print "backends 1"
    print "1: create table t (a int4, b text)"
    for (i = 2; i <= commands; i++) {
        print "1: alter table t alter column a set statistics " i % 100
    }
    print "end"
}
