# Writes a script of many tables, each made by one backend and shown by one: awk -v tables=N -v schedule=0|1 -f script.awk
# The draws are the same in each run.

function draw(n) {
    seed = (seed * 16807) % 2147483647
    return seed % n + 1
}

BEGIN {
    seed = 20240229
    backends = 64
    print "backends " backends
    for (i = 1; i <= tables; i++) {
        maker = draw(backends)
        reader = draw(backends)
        print maker ": create table t" i " (a int4)"
        print reader ": show t" i
        # a table is made in 4 entries, and shown in at most 18
        entries[maker] += 4
        entries[reader] += 18
    }
    if (schedule) {
        all = 0
        for (b = 1; b <= backends; b++) {
            all += entries[b] + 2
        }
        line = "steps"
        while (all > 0) {
            count = draw(8)
            line = line " " draw(backends) "*" count
            all -= count
        }
        # then each backend goes on to its stop
        for (b = 1; b <= backends; b++) {
            line = line " " b "*" entries[b] + 2
        }
        print line
    }
    print "end"
}
