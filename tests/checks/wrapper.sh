says="what ./catsync answers by itself in a fresh clone"
needs="git sha256sum"

# What ./catsync answers by itself, in a fresh clone, where no executable is proved; and that it hands on what the program does that
# it has built without proof.
check() {
    stands_for_rt && "$program" make 1 >"$temp/made_1" && fresh_clone && cd "$temp/clone" && rm -rf crates/catsync/out || return 1
    local usage
    usage=$(usage_said)
    local script=examples/two_backends.script
    program=./catsync
    ./catsync --help | grep -q '^Usage: catsync walk < SCRIPT > OUTPUT$' &&
        ./catsync --help | grep -q '^       catsync run < SCRIPT > OUTPUT$' &&
        ./catsync --help | grep -q '^       catsync check walk < SCRIPT_AND_OUTPUT$' &&
        ./catsync --help | grep -q '^       catsync check run < SCRIPT_AND_OUTPUT$' &&
        ./catsync --help | grep -q '^       catsync make N > SCRIPT$' &&
        ./catsync --version | grep -q '^catsync .* runs the program built without proof, .*; the first run builds it$' &&
        wrong_arguments &&
        refuses "after walk comes nothing, since the script is standard input; found '--help'" walk --help &&
        refuses "after run comes nothing, since the script is standard input; found '-'" run - &&
        PATH=$temp/bin:$PATH ./catsync make 1 2>/dev/null | cmp - "$temp/made_1" &&
        ./catsync --version | grep -q '^catsync .* runs the program built without proof, .*: crates/catsync/out/unproved-[0-9a-f]*$' &&
        ends 2 "$running"$'\n'"$(cat examples/bad_line.error)" walk <examples/bad_line.script &&
        ends 4 "$running"$'\n'"catsync: reading failed" walk </ &&
        ends 4 "$running"$'\n'"catsync: reading failed" walk <&- &&
        to=/dev/full ends 5 "$running"$'\n'"catsync: writing failed" walk <"$script" &&
        is_checked "$script" examples/two_backends.output && is_run "$script"
}

# The usage, which argument is wrong, and how a file is handed over where one is named: a word that begins with `-` is none.
refuses() {
    local said="$usage"$'\n'"catsync: $1"
    shift
    [ $# -ne 2 ] || [[ $1 != walk && $1 != run || $2 = -* ]] ||
        said+=$'\n'"catsync: $1 reads its script from standard input: ./catsync $1 < $(printf %q "$2")"
    ends 1 "$said" "$@" <"$script"
}

# As in tests/lib.sh, of ./catsync, which says what it runs.
accepts() {
    ends 0 "$running" check "$1" < <(cat "$2" "$3") && grep -qx "checked $(grep -c '^h ' "$3") entries" "$temp/output"
}

is_run() {
    ends 0 "$running" run <"$1" && mv "$temp/output" "$temp/ran" && accepts run "$1" "$temp/ran"
}
