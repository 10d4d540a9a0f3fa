# Writes lines of entries, as a table made and shown gives them, over and over: awk -v lines=N -f history.awk

BEGIN {
    for (i = 0; i < lines; i++) {
        backend = i % 64 + 1
        command = i % 20000 + 1
        print "h " backend " " command " " event(i % 12, 16384 + i)
    }
}

function event(kind, rel) {
    if (kind == 0) {
        return "write " rel " +class(" rel ",t" rel ",r,-) +att(" rel ",1,a,int4,-1,l) +att(" rel ",2,b,text,-1,l)"
    }
    if (kind == 1) {
        return "visible " rel
    }
    if (kind == 2) {
        return "release 1"
    }
    if (kind == 3) {
        return "scan relname t" rel " rows 1"
    }
    if (kind == 4) {
        return "lock " rel " as ok"
    }
    if (kind == 5) {
        return "lock " rel " as held 12 ax"
    }
    split("class attribute attrdef constraint index trigger", purposes, " ")
    return "scan " purposes[kind - 5] " " rel " rows 1"
}
