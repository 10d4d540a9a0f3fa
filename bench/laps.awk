# Writes a script in which 64 backends with a queue of 64 messages make wide tables, alter and show them, so that they are
# lapped again and again: awk -v commands=N -f laps.awk. The draws are the same in each run.

function draw(n) {
    seed = (seed * 16807) % 2147483647
    return seed % n + 1
}

function columns(n,    text, i) {
    text = "c1 int4"
    for (i = 2; i <= n; i++) {
        text = text ", c" i " int4"
    }
    return text
}

# One command in forty makes a table of 60 columns, one in three alters a table, and the others show one.
function command(    kind, t) {
    kind = draw(120)
    if (kind <= 3) {
        return "create table w" ++made " (" columns(60) ")"
    }
    t = draw(backends)
    if (kind <= 40) {
        return "alter table t" t " alter column c1 set statistics " draw(100)
    }
    return "show t" t " columns"
}

BEGIN {
    seed = 20240229
    backends = 64
    print "ring 64"
    print "backends " backends
    for (b = 1; b <= backends; b++) {
        print b ": create table t" b " (" columns(8) ")"
    }
    for (i = backends + 1; i <= commands; i++) {
        print draw(backends) ": " command()
    }
    line = "steps"
    for (b = 1; b <= backends; b++) {
        line = line " " b "*8"
    }
    # a script has at most a million steps: a command takes some 20, and what is left each backend makes at the end
    for (i = 0; i < commands * 7 / 20; i++) {
        line = line " " draw(backends) "*" draw(100)
    }
    for (b = 1; b <= backends; b++) {
        line = line " " b "*9500"
    }
    print line
    print "end"
}
