says="the examples and the other runs"
needs=""

# Of each script: what it prints, or its status and the line on standard error where it is refused.
check() {
    local folder script name
    for folder in examples tests/runs; do
        for script in "$folder"/*.script; do
            name=${script%.script}
            if [ -e "$name.output" ]; then
                ends 0 "" walk <"$script" && cmp "$temp/output" "$name.output" || return 1
            else
                ends "$(cat "$name.status")" "$(cat "$name.error")" walk <"$script" || return 1
            fi
        done
    done
}
