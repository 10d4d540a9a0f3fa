says="the README's first command in a fresh clone, and the explorer's after it"
needs="git awk sha256sum python3"

# The README's first command, as it stands there, in a fresh clone of HEAD: with --edits by the program built without proof, else
# by its stand-in; and the README shows its output, with numbers. Then the tools run without a word more.
check() {
    fresh_clone && cd "$temp/clone" && rm -rf crates/catsync/out || return 1
    local command
    command=$(sed -n 's/^    \(\.\/catsync .*\)$/\1/p' README.md | head -n 1)
    [ -n "$command" ] || return 1
    echo "prove: in a fresh clone: $command"
    [ "$mode" = edits ] || { stands_for_rt && PATH=$temp/bin:$PATH; } || return 1
    bash -c "$command" >"$temp/output" || return 1
    cmp "$temp/output" crates/catsync/stdout || return 1
    sed -nE 's/^ .* ([0-9]+  ([hl] [0-9]+ [0-9]+ .*|end))$/\1/p' README.md >"$temp/shown"
    awk '{ print NR "  " $0 }' "$temp/output" | diff - "$temp/shown" || return 1
    command=$(sed -n 's/^    \(tools\/explore .*\)$/\1/p' README.md | head -n 1)
    [ -n "$command" ] && echo "prove: and: $command" && bash -c "$command" >"$temp/output" && head -n 1 "$temp/output" | grep '^all [0-9]* orders: '
}
