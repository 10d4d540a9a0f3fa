says="what is said of faulty lines"
needs=""

# What is said of each line of tests/faulty_lines.txt.
check() {
    local kind line number
    while read -r kind line; do
        case $kind in
        "<") number=2 && printf 'backends 2\n%b\nend\n' "$line" >"$temp/script" ;;
        "=") number=1 && printf '%b\n' "$line" >"$temp/script" ;;
        ">") ends 2 "catsync: line $number: $line" walk <"$temp/script" || return 1 ;;
        esac
    done <tests/faulty_lines.txt
}
