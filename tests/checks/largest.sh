says="the longest script"
needs="awk"

# The longest script, of 64 backends, 20,000 commands and 1,000,000 steps: one table is made, and each backend shows it. The first
# backend makes the table in 6 entries, and fetches its own messages in one more; the others start later, so none wait for them.
# Each `show` takes 4 entries, and a backend's first one makes 7 scans more, that of the name and 6 for the descriptor, each after a
# look; each backend starts and stops.
check() {
    awk 'BEGIN {
        print "backends 64\n1: create table t (a int4)"
        for (command = 1; command < 20000; command++) print command % 64 + 1 ": show t"
        for (backend = 1; backend < 65; backend++) print "steps " backend "*15625"
        print "end"
    }' >"$temp/largest"
    head -c "$((1048576 - $(wc -c <"$temp/largest")))" /dev/zero | tr '\0' ' ' >>"$temp/largest"
    ends 0 "" walk <"$temp/largest" &&
        [ "$(wc -l <"$temp/output")" -eq $((6 + 1 + 19999 * 4 + 64 * (2 + 6 * 2 + 2) + 20000 + 1)) ]
}
