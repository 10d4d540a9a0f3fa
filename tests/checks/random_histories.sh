says="random histories against the second reading"
needs="python3 $oracle"

check() {
    python3 tests/lines_agree.py --walks 40 --changed 400 --program "$layers" --keep "$temp/histories"
}
