says="the schedules of the examples and races, played in a PostgreSQL server"
needs="python3"

# Each is played once, and the known hole 20 times. Where there is no server, or nothing can be traced, the reason is said.
check() {
    local reason
    if ! reason=$(python3 tests/replayed.py --can); then
        echo "prove: skipped: server_replays: $says: $reason"
        exit 77
    fi
    python3 tests/replayed.py --program "$program"
}
