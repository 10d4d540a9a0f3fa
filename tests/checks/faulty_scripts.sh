says="which line of a script is faulty, and how"
needs=""

# The line and the rule of each script of tests/faulty_scripts.txt, and of one with a command too many.
check() {
    local line rule text
    while IFS='|' read -r line rule text; do
        [[ $line != "#"* ]] || continue
        is_faulty "$line" "$rule" < <(printf '%b' "$text") || return 1
    done <tests/faulty_scripts.txt || return 1
    [ -s tests/faulty_scripts.txt ] && is_faulty 0 "" < <(begins 20000) && is_faulty 20002 TooManyCommands < <(begins 20001)
}

# Whether a script is refused at this line for this rule; with line 0, walked.
is_faulty() {
    "$program" walk >"$temp/output" 2>"$temp/said"
    local ended=$?
    if [ "$1" -eq 0 ]; then
        [ "$ended" -eq 0 ] && [ ! -s "$temp/said" ] && return
    else
        [ "$ended" -eq 2 ] && [ ! -s "$temp/output" ] && grep -q "^catsync: line $1: $2: " "$temp/said" && return
    fi
    echo "prove: catsync walk: status $ended and '$(cat "$temp/said")', and not line $1: $2"
    return 1
}

# A script of so many commands.
begins() {
    echo "backends 64"
    yes "64: begin" | head -n "$1"
    printf 'steps 1*999999 64\nend\n'
}
