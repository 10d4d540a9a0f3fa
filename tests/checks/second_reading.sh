says="their outputs by the second reading of the rules"
needs="python3 $oracle/oracle/walker.py"

# The output of each of these scripts and of the program's stored run, by a second reading of the rules.
check() {
    local output
    for output in examples/*.output tests/runs/*.output; do
        python3 "$oracle/oracle/walker.py" walk "${flags[@]}" <"${output%.output}.script" | cmp - "$output" || return 1
    done
    python3 "$oracle/oracle/walker.py" walk "${flags[@]}" <crates/catsync/stdin | cmp - crates/catsync/stdout
}
