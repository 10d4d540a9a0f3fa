says="random walks and runs, by check walk and check run"
needs="python3"

check() {
    python3 tests/walks_checked.py --to 300 --program "$program"
}
