says="that the examples and the other runs are outputs, and no prefix is"
needs=""

# Each output of these folders and of the program's stored run is one of its script, and none of it without its last byte.
check() {
    local output
    for output in examples/*.output tests/runs/*.output tests/allowed/*.output; do
        is_checked "${output%.output}.script" "$output" || return 1
    done
    is_checked crates/catsync/stdin crates/catsync/stdout
}
