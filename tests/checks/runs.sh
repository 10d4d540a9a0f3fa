says="that what run prints of their scripts is an output"
needs=""

# Of each script: what it prints when it is run is an output of it, or it is refused as by a walk.
check() {
    local folder script name
    for folder in examples tests/runs; do
        for script in "$folder"/*.script; do
            name=${script%.script}
            if [ -e "$name.output" ]; then
                is_run "$script" || return 1
            else
                ends "$(cat "$name.status")" "$(cat "$name.error")" run <"$script" || return 1
            fi
        done
    done
}
