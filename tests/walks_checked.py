#!/usr/bin/env python3
"""Walks random scripts, and lets `check walk` judge each output: it is one of its script, and isn't with something after its
end, without its last byte, or with its last entry twice or left out. `check run` finds the same of them where each backend has
stopped by then, and takes also the output in which the first of them stops last, whatever the schedule. Each script is run too,
and `check run` finds the same of what that prints. No second reading of the rules is needed.

    tests/walks_checked.py [--from N] [--to N] [--program FILE]

The scripts are those of the seeds N to N (tests/random_scripts.py). Prints 'N scripts, M entries: K differ', after a line for
each script that differs; the exit status is 0 where none does.
"""
import argparse
import os
import re
import subprocess
import sys

sys.dont_write_bytecode = sys.pycache_prefix is None

from random_scripts import script_of

TOP = os.path.dirname(os.path.dirname(os.path.abspath(__file__)))
PROGRAM = os.path.join(TOP, "crates", "catsync", "out", "catsync")


def run(program, words, given):
    """Exit status, standard output and standard error."""
    done = subprocess.run([program] + words, input=given.encode(), capture_output=True, check=False)
    return done.returncode, done.stdout.decode(), done.stderr.decode()


def forged(output, entries):
    """Outputs that are none of the script, each with the entry that differs."""
    lines = output.splitlines(keepends=True)
    yield output[:-1], entries + 1
    yield output + "\n", entries + 1
    yield output + " ", entries + 1
    yield output + lines[-1], entries + 1
    yield "".join(lines[:entries] + lines[entries - 1:]), entries + 1
    yield "".join(lines[:entries - 1] + lines[entries:]), entries
    yield "", 1


def have_stopped(script, output):
    """Whether each backend of a script has stopped by its output's end."""
    backends = re.search(r"^\s*backends\s+(\d+)", script, re.IGNORECASE | re.MULTILINE)[1]
    return len(re.findall(r"^h .* stop$", output, re.MULTILINE)) == int(backends)


def stops_later(output, entries):
    """The output with its first stop moved after all other entries: those between come one line earlier."""
    lines = output.splitlines(keepends=True)
    first = next(at for at, line in enumerate(lines) if line.endswith(" stop\n"))
    moved = lines[:first] + lines[first + 1:entries] + [lines[first]]
    return "".join(moved + [re.sub(r"as of (\d+)", lambda place: "as of %d" % (int(place[1]) - (int(place[1]) > first)), line)
                            for line in lines[entries:]])


def judged(program, kind, text, entries, place):
    """What is wrong with a check of a script and an output that has so many entries, or differs at this place."""
    status, answer, said = run(program, ["check", kind], text)
    if place is None and (status, answer) != (0, "checked %d entries\n" % entries):
        return ["check %s: status %d, %s" % (kind, status, (answer + said).strip())]
    if place is not None and (status != 7 or answer or not re.match("catsync: (entry %d|after %d entries line [0-9]+) differs: ." % (place, place - 1), said)):
        return ["check %s: status %d, %s, and not entry %d" % (kind, status, (answer + said).strip(), place)]
    return []


def differences(program, script):
    """What is wrong with the walk of a script and the checks of it, and how many entries the walk has."""
    status, output, said = run(program, ["walk"], script)
    if status:
        return ["walk: status %d, %s" % (status, said.strip())], 0
    entries = sum(line.startswith("h ") for line in output.splitlines())
    stopped = have_stopped(script, output)
    found = judged(program, "walk", script + output, entries, None)
    found += judged(program, "run", script + output, entries, None if stopped else entries + 1)
    if stopped:
        found += judged(program, "run", script + stops_later(output, entries), entries, None)
    for text, place in forged(output, entries):
        found += judged(program, "walk", script + text, entries, place)
        if stopped:
            found += judged(program, "run", script + text, entries, place)
    return found, entries


def run_differences(program, script):
    """What is wrong with the run of a script and the checks of it, and how many entries the run has."""
    status, output, said = run(program, ["run"], script)
    if status or said:
        return ["run: status %d, %s" % (status, said.strip())], 0
    entries = sum(line.startswith("h ") for line in output.splitlines())
    found = judged(program, "run", script + output, entries, None)
    for text, place in forged(output, entries):
        found += judged(program, "run", script + text, entries, place)
    return found, entries


def main():
    parser = argparse.ArgumentParser(description=__doc__, formatter_class=argparse.RawDescriptionHelpFormatter)
    parser.add_argument("--from", dest="first", type=int, default=1)
    parser.add_argument("--to", dest="last", type=int, default=100)
    parser.add_argument("--program", default=PROGRAM, help="an executable to run in place of the proved one")
    options = parser.parse_args()
    total = differ = 0
    for seed in range(options.first, options.last + 1):
        script = script_of(seed)
        found, entries = differences(options.program, script)
        found_of_run, entries_of_run = run_differences(options.program, script)
        total += entries + entries_of_run
        differ += bool(found or found_of_run)
        for text in found + found_of_run:
            print("seed %d: %s" % (seed, text), flush=True)
    print("%d scripts, %d entries: %d differ" % (options.last + 1 - options.first, total, differ))
    return 1 if differ or options.last < options.first else 0


if __name__ == "__main__":
    sys.exit(main())
