# Writes a script of 1,048,576 bytes with 20,000 commands: awk -f long_script.awk

BEGIN {
    left = 1048576
    put("backends 64")
    for (i = 1; i <= 20000; i++) {
        put((i % 64 + 1) ": " command(i))
    }
    put("end")
    # blanks after the last line don't count
    while (left > 1) {
        printf " "
        left--
    }
    print ""
}

function put(line) {
    print line
    left -= length(line) + 1
}

function command(i) {
    if (i % 5 == 0) {
        return "alter table t" i " alter column a set statistics " i % 10000
    }
    if (i % 5 == 1) {
        return "create index i" i " on t" i " (a, b)"
    }
    if (i % 5 == 2) {
        return "lock table t" i " in share row exclusive mode"
    }
    if (i % 5 == 3) {
        return "show t" i " statistics"
    }
    return "create table t" i " (a int4, b timestamptz, c text)"
}
