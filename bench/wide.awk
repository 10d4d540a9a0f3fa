# Writes a script of wide tables over 64 backends: awk -v tables=N -v columns=K -v part=PART -f wide.awk, with PART
# spread: each table is made by some backend, by a schedule that is the same in each run;
# written, published: backend 1 makes all in one block, whose commit is visible, or whose messages are published too;
# sent, fetched: that, while the other 63 sleep, or are awake afterwards and have fetched all messages.

function draw(n) {
    seed = (seed * 16807) % 2147483647
    return seed % n + 1
}

function up(n, d) {
    return int((n + d - 1) / d)
}

# A table of n columns has n + 2 messages for the caches of names and one for its descriptor.
BEGIN {
    seed = 20240229
    backends = 64
    messages = tables * (columns + 3)
    insertions = up(tables * (columns + 2), 64) + up(tables, 64)
    fetches = up(messages, 32)
    print "backends " backends
    if (part == "spread") {
        spread()
    } else {
        one_block()
    }
    print "end"
}

function spread(    i, b, all, line, count) {
    for (i = 1; i <= tables; i++) {
        print draw(backends) ": create table t" i " (" list() ")"
    }
    # each backend fetches nearly all messages, and each table has 6 entries
    all = backends * fetches * 2 + tables * 6
    line = "steps"
    while (all > 0) {
        count = draw(100)
        line = line " " draw(backends) "*" count
        all -= count
    }
    # then each backend goes on to its stop
    for (b = 1; b <= backends; b++) {
        line = line " " b "*" fetches * 2 + tables * 6
    }
    print line
}

function one_block(    i, b) {
    print "1: begin"
    for (i = 1; i <= tables; i++) {
        print "1: create table t" i " (" list() ")"
    }
    print "1: commit"
    for (b = 2; b <= backends; b++) {
        print b ": show u"
    }
    # its start and look, its writes, what makes them visible
    if (part == "written") {
        print "steps 1*" tables + 3
    } else if (part == "published") {
        print "steps 1*" tables + 3 + insertions
    } else {
        for (b = 2; b <= backends; b++) {
            print "steps " b
        }
        print "steps 1*" tables + 3 + insertions + 2
        for (b = 2; b <= backends && part == "fetched"; b++) {
            print "steps " b "*" 2 * fetches
        }
    }
}

function list(    i, text) {
    text = "c1 int4"
    for (i = 2; i <= columns; i++) {
        text = text ", c" i " int4"
    }
    return text
}
