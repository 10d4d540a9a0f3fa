# Writes a script in which 64 backends look up columns of 1,000 names, of which more and more are tables as they are made:
# awk -v commands=N -f lookups.awk. The draws are the same in each run.

function draw(n) {
    seed = (seed * 16807) % 2147483647
    return seed % n + 1
}

# One command in twenty makes the next table; the others look up one of all names, made or not.
function command(    kind, t) {
    kind = draw(20)
    if (kind == 1 && made < names) {
        return "create table t" ++made " (c1 int4, c2 int4)"
    }
    t = "t" draw(names)
    if (kind <= 7) {
        return "column " t " c" draw(3)
    }
    if (kind <= 13) {
        return "columns " t
    }
    return "show " t " columns"
}

BEGIN {
    seed = 20240229
    backends = 64
    names = 1000
    print "backends " backends
    for (i = 1; i <= commands; i++) {
        print draw(backends) ": " command()
    }
    # a script has at most a million steps: a command takes some 10, and what is left each backend makes at the end
    line = "steps"
    for (i = 0; i < commands * 7 / 20; i++) {
        line = line " " draw(backends) "*" draw(100)
    }
    for (b = 1; b <= backends; b++) {
        line = line " " b "*9500"
    }
    print line
    print "end"
}
