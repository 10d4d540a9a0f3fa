says="an output of a run that is none of a walk"
needs=""

# `check run` accepts each output of tests/run_only; `check walk` refuses its first entry.
check() {
    local output script
    for output in tests/run_only/*.output; do
        script=${output%.output}.script
        accepts run "$script" "$output" && refuses_at 1 < <(cat "$script" "$output") || return 1
    done
}
