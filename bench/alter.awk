# Writes a script in which 64 backends alter the tables of 64 backends: awk -v commands=N -f alter.awk
# A backend makes its table first. The draws are the same in each run.

function draw(n) {
    seed = (seed * 16807) % 2147483647
    return seed % n + 1
}

# One alteration of the table: its columns are named by how many were added.
function alteration(t,    kind) {
    kind = draw(5)
    if (kind == 1) {
        return "add column c" ++added[t] " int4"
    }
    if (kind == 2) {
        return "drop column c" draw(added[t])
    }
    if (kind == 3) {
        return "rename column c" draw(added[t]) " to d" ++renamed[t]
    }
    if (kind == 4) {
        return "alter column c" draw(added[t]) " set statistics " draw(100)
    }
    return "set (fillfactor = " 9 + draw(91) ")"
}

BEGIN {
    seed = 20240229
    backends = 64
    print "backends " backends
    for (b = 1; b <= backends; b++) {
        print b ": create table t" b " (c1 int4)"
        added[b] = 1
    }
    for (i = backends + 1; i <= commands; i++) {
        print draw(backends) ": alter table t" (t = draw(backends)) " " alteration(t)
    }
    line = "steps"
    for (b = 1; b <= backends; b++) {
        line = line " " b "*8"
    }
    # a script has at most a million steps: a command takes some 30, and what is left each backend makes at the end
    for (i = 0; i < commands * 7 / 20; i++) {
        line = line " " draw(backends) "*" draw(100)
    }
    for (b = 1; b <= backends; b++) {
        line = line " " b "*9500"
    }
    print line
    print "end"
}
