says="the script of 7"
needs=""

# How the script of 7 begins and ends, and its length.
check() {
    ends 0 "" make 7 </dev/null && (head -n 10 "$temp/output" && tail -n 3 "$temp/output") | cmp - tests/made_7.txt &&
        [ "$(wc -c <"$temp/output")" -eq 116755 ]
}
