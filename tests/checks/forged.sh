says="at which entry forged outputs differ"
needs=""

# Outputs changed by a sed script: at which entry each is refused, or at which line after the entries, and why. Those of tests/run_only
# go to `check run`, others to `check walk`.
check() {
    local output change entry why kind
    while IFS='|' read -r output change entry why; do
        kind=walk
        [[ $output != tests/run_only/* ]] || kind=run
        [[ $why == "after "* ]] || why="entry $entry differs: $why"
        ends 7 "catsync: $why" check "$kind" < <(cat "${output%.output}.script" && sed "$change" "$output") || return 1
    done <tests/forged.txt || return 1
    [ -s tests/forged.txt ] && cut_off tests/runs/lapped_by_a_wide_table
}

# An output cut after a line, or before its line feed, is refused at the first entry whose line isn't whole, or after its last one.
cut_off() {
    local lines entries line whole
    lines=$(wc -l <"$1.output")
    entries=$(grep -c '^h ' "$1.output")
    for ((line = 1; line <= lines; line++)); do
        whole=$((line > entries ? entries + 1 : line))
        refuses_at "$whole" < <(cat "$1.script" && head -n "$((line - 1))" "$1.output") || return 1
        refuses_at "$whole" < <(cat "$1.script" && head -n "$line" "$1.output" | head -c -1) || return 1
    done
    ends 7 "catsync: after $entries entries line $lines differs: no line feed follows 'end'" \
        check walk < <(cat "$1.script" && head -c -1 "$1.output")
}
