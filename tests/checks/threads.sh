says="runs on threads, by check run"
needs="python3"

check() {
    python3 tests/threads_checked.py --scripts 6 --runs 5 --program "$program"
}
