# What the measuring scripts share. They source it at the top of the repository, and find a folder in $temp.

# Ends the script where the proved executable of a crate isn't there.
need_program() {
    program=crates/$1/out/$1
    if [ ! -x "$program" ]; then
        echo "bench: no $program: make it first, by 'rt run${2:-}' in crates/$1" >&2
        exit 1
    fi
}

now() {
    date +%s.%N
}

temp=$(mktemp -d) || exit 1
trap 'rm -rf "$temp"' EXIT

# The least processor seconds of three walks of a script, in $seconds; the output is in $temp/output, the status in $status.
walk_thrice() {
    local run times
    times=$(for ((run = 0; run < 3; run++)); do
        TIMEFORMAT='%U %S'
        time "$program" walk <"$1" 2>&1 >"$temp/output"
        echo "status $?" >&2
    done 2>&1)
    status=$(awk '/^status / { status = $2 } END { print status }' <<<"$times")
    seconds=$(awk '/^[0-9.]+ [0-9.]+$/ { sum = $1 + $2; if (least == "" || sum < least) least = sum } END { print least }' <<<"$times")
}

# Runs the program with arguments on a file: what it writes goes to a second file, and its seconds, of the processor and by the clock, and megabytes are printed.
run_on() {
    local input=$1 written=$2
    shift 2
    python3 - "$input" "$written" "$program" "$@" <<'PYTHON'
import resource
import subprocess
import sys
import time

source, target, *command = sys.argv[1:]
with open(source, "rb") as script, open(target, "wb") as written:
    began = time.monotonic()
    status = subprocess.run(command, stdin=script, stdout=written, check=False).returncode
    clock = time.monotonic() - began
used = resource.getrusage(resource.RUSAGE_CHILDREN)
print(f"status {status}, {used.ru_utime + used.ru_stime:.2f} seconds of the processor, {clock:.2f} by the clock, {used.ru_maxrss / 1024:.0f} MB")
PYTHON
}
