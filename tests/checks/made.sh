says="the scripts that are made"
needs="awk"

# Scripts that are made: each is one whose walk has the numbers of its comment, and twice the same, and an output of it. With a
# second reading of the rules it is that one's.
check() {
    local number numbers=({1..10} 1000)
    [ -z "${CATSYNC_ORACLE-}" ] || numbers=({1..100} 1000)
    for number in "${numbers[@]}"; do
        ends 0 "" make "$number" </ && mv "$temp/output" "$temp/made" &&
            ends 0 "" make "$number" </dev/null && cmp "$temp/output" "$temp/made" &&
            ends 0 "" walk <"$temp/made" && mv "$temp/output" "$temp/walked" &&
            counts <"$temp/walked" | cmp - <(head -n 1 "$temp/made") && is_checked "$temp/made" "$temp/walked" || return 1
        [ -z "${CATSYNC_ORACLE-}" ] || python3 "$CATSYNC_ORACLE/oracle/walker.py" make "$number" | cmp - "$temp/made" || return 1
    done
    is_run "$temp/made"
}

# What the comment of a made script says, by an output.
counts() {
    awk '
        /^h / { entries++ }
        /^h [0-9]+ [0-9]+ publish / { publishes++ }
        /^h [0-9]+ [0-9]+ fetch reset$/ { resets++ }
        /^l [0-9]+ [0-9]+ error / { errors++ }
        END { printf "-- entries %d publishes %d resets %d errors %d\n", entries, publishes, resets, errors }'
}
