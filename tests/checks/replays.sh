says="how much of a history is allowed"
needs=""

# The histories of tests/lines: how much of each its script allows, and the answers by that; and one that is read and written.
check() {
    local cases
    for cases in tests/lines/*.cases; do
        "$layers" lines answers <"$cases" | cmp - "${cases%.cases}.expected" || return 1
    done
    changed_histories tests/runs/block_fails_after_an_unlock &&
        "$layers" texts copy < <(grep '^h ' crates/catsync/stdout) | cmp - <(grep '^h ' crates/catsync/stdout && echo end)
}

# A history changed by a sed script: how many entries are allowed, how many commands these finish, and the last answer.
changed_histories() {
    local change entries answers last all
    all=$(grep -c '^h ' "$1.output")
    while IFS='|' read -r change entries answers last; do
        "$layers" lines answers < <(cat "$1.script" && sed "$change" "$1.output") >"$temp/output" || return 1
        [ "$(head -n 1 "$temp/output")" = "$entries of $all entries" ] &&
            [ "$(grep -c '^l ' "$temp/output")" -eq "$answers" ] &&
            [ "$(sed -n '$s/^l [0-9]* [0-9]* //p' "$temp/output")" = "$last" ] && continue
        echo "prove: layer_runs lines: $(tail -n 1 "$temp/output") after $(head -n 1 "$temp/output") of '$change'"
        return 1
    done <tests/lines/changed.txt && [ -s tests/lines/changed.txt ]
}
