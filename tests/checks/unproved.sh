says="that ./catsync keeps the program that it has built without proof"
needs="git sha256sum flock python3"

# In a clone of its own, with a stand-in for rt: the first run builds the program, and says so; the next ones and the tools take it,
# until a source has other bytes. It isn't kept where sources change meanwhile or nothing can be written, nor where rt fails.
check() {
    stands_for_rt && git clone --quiet "$top" "$temp/kept" && cd "$temp/kept" || return 1
    script=examples/two_backends
    out=crates/catsync/out
    main=crates/catsync/src/main.rt
    : >"$temp/builds"
    unset CATSYNC_PROGRAM
    without=$PATH
    PATH=$temp/bin:$PATH
    walks built && PATH=$without walks running && touch "$main" && walks running && builds 1 && tools_take_it &&
        echo "// changed" >>"$main" && walks built && kept 1 && git checkout --quiet "$main" && walks built && kept 1 && builds 3 &&
        rm -rf "$out" && RT_DOES='sleep 0.5; echo "// changed" >>src/main.rt' walks not_kept && kept 0 && git checkout --quiet "$main" &&
        rm -rf "$out" && : >"$out" && walks not_kept && rm "$out" && builds 5 && refused && says_how_far && two_at_once && short_of_memory && killed
}

# Walks a script by ./catsync, and compares what it prints and what it says that it does.
walks() {
    ./catsync walk <"$script.script" >"$temp/output" 2>"$temp/said" && cmp "$temp/output" "$script.output" &&
        diff <(told) <(said "$1") && return
    echo "prove: ./catsync walk, $1: status $?, and on standard error '$(cat "$temp/said")'"
    return 1
}

# What it said, without how long that takes.
told() {
    sed '/^catsync: [0-9]* s: /d; s/ in [0-9]* s/ in N s/; s/unproved-[0-9a-f]\{16\}$/unproved-SUM/' "$temp/said"
}

said() {
    [ "$1" = running ] || echo "${running%: *}: building the program without proof, once, in 75 to 130 s of processor time"
    [ "$1" != not_kept ] || echo "catsync: built in N s; it can't be kept, as $out can't be written or sources have changed"
    [ "$1" != built ] || echo "catsync: built in N s, and kept as $out/unproved-SUM"
    [ "$1" = not_kept ] || echo "$running"
}

# So many programs are kept, and nothing is left of how they were built.
kept() {
    [ "$(find "$out" -name 'unproved-*' | wc -l)" -eq "$1" ] && [ -z "$(find "$out" -name 'building.??????')" ] && return
    echo "prove: in $out: $(ls "$out")"
    return 1
}

# So many were built until now.
builds() {
    [ "$(wc -l <"$temp/builds")" -eq "$1" ] && return
    echo "prove: built $(wc -l <"$temp/builds") times, and not $1"
    return 1
}

tools_take_it() {
    tools/explore <examples/two_creators.script | head -n 1 | grep -q '^all 114 orders: 13 sets of answers, '
}

# Where rt fails its words are said, and the status is 125; without rt it is 127.
refused() {
    ended=$(RT_DOES='echo "error: no such name" >&2; exit 1' ./catsync make 1 2>"$temp/said" || echo $?)
    [ "$ended" = 125 ] && diff <(told) <(said not_kept | head -n 1 && echo "error: no such name" &&
        echo "catsync: the program couldn't be built without proof") && kept 0 || return 1
    mkdir -p "$temp/tools" && for tool in bash dirname find sort xargs sha256sum head cat; do
        ln -sf "$(type -P "$tool")" "$temp/tools"
    done
    ended=$(PATH=$temp/tools ./catsync make 1 2>"$temp/said" || echo $?)
    [ "$ended" = 127 ] && diff "$temp/said" - <<<"${running%: *}, none built without proof, and no rt on PATH to build it"
}

# On a terminal it says what rt does, and nothing twice, though files of rt's go as it goes on.
says_how_far() {
    rm -rf "$out"
    RT_BEGINS='sleep 3; : >"$folder/module.bc"; sleep 3; rm "$folder/module.bc"; sleep 3' RT_DOES='sleep 3' \
        python3 -c 'import pty, sys; pty.spawn(sys.argv[1:])' ./catsync make 1 </dev/null >"$temp/terminal" &&
        tr '\r' '\n' <"$temp/terminal" | sed -n 's/.*catsync: [0-9]* s: //p' | uniq |
        diff - <(printf '%s\n' "reading the sources" compiling "trying it") && kept 1 && rm -rf "$out"
}

# Of two runs at once one builds, and both print the output.
two_at_once() {
    : >"$temp/builds"
    RT_DOES='sleep 8' ./catsync walk <"$script.script" >"$temp/other" 2>/dev/null &
    until [ -s "$temp/builds" ]; do sleep 0.1; done
    ./catsync walk <"$script.script" >"$temp/output" 2>"$temp/said" && wait $! && cmp "$temp/output" "$script.output" &&
        cmp "$temp/other" "$script.output" && grep -q ': waiting for another run that builds' "$temp/said" && builds 1 && kept 1
}

# What the program's memory checker says where it has too little is one line here, and in the tools; a run that is told to end ends
# the program.
short_of_memory() {
    local kept
    kept=$(echo "$out"/unproved-*)
    mv "$kept" "$temp/whole" && cat >"$kept" <<'CHECKER' && chmod +x "$kept" || return 1
#!/bin/sh
[ -z "${SLEEPS-}" ] || exec sleep 30
echo "==1==ERROR: AddressSanitizer failed to allocate 0x1 (1) bytes at address 0x2 (errno: 12)" >&2
echo "==1==ReserveShadowMemoryRange failed while trying to map 0x1 bytes. Perhaps you're using ulimit -v or ulimit -d" >&2
kill -ABRT $$
CHECKER
    ended=$(./catsync walk <"$script.script" 2>"$temp/said" || echo $?)
    [ "$ended" = 6 ] && diff "$temp/said" - <<<"$running
catsync: want of memory: the program built without proof needs more than the proved one, and addresses without a limit (ulimit -v)" &&
        tools/explore <"$script.script" 2>&1 | diff - <(echo "explore: $PWD/$kept: want of memory, or of addresses (ulimit -v)") || return 1
    SLEEPS=1 ./catsync walk <"$script.script" >"$temp/output" 2>/dev/null &
    until pgrep -x -P $! sleep >/dev/null; do sleep 0.1; done
    local sleeps
    sleeps=$(pgrep -x -P $! sleep)
    kill $!
    wait $! 2>/dev/null
    [ $? -eq 143 ] && ! kill -0 "$sleeps" 2>/dev/null && mv "$temp/whole" "$kept"
}

# A run that is told to end while it builds leaves nothing; what one leaves that is killed goes with the next.
killed() {
    local signal
    for signal in TERM KILL; do
        rm -rf "$out" && : >"$temp/builds"
        RT_DOES='sleep 30' ./catsync walk <"$script.script" >"$temp/output" 2>/dev/null &
        until [ -s "$temp/builds" ]; do sleep 0.1; done
        kill -s "$signal" $!
        wait $! 2>/dev/null
        [ "$signal" = KILL ] || kept 0 || return 1
    done
    # What the killed run had started may hold the lock a little longer.
    kill "$(cat "$temp/builds")" && flock "$out/building.lock" true && walks built && kept 1
}
