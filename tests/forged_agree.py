#!/usr/bin/env python3
"""Compares what `check walk` or `check run` says of outputs with a second reading of the rules: whether each is one of its script, how many entries
it has, and else the first entry that differs. CATSYNC_ORACLE names the folder with that reading. For its time it is no part of ./prove.

    tests/forged_agree.py [--kind walk|run] [--seed N] [--scripts N] [--forged N] [--program FILE] [--keep FILE]

The scripts are random. Of each there is the output of its walk, of every second (with `--kind run` of each) also one that the rules
allow and no walk makes, with other looks and other orders of scans, and for `run` of the backends; and forged ones: their entries changed as in tests/lines_agree.py, or the bytes of the whole
(a line that goes, comes twice or elsewhere, other bytes, a blank after the end, all cut off). Prints
'N outputs, M forged (K of them outputs): D differ'; the first that differ go to the file of --keep. The exit status is 0 where none does.
"""
import argparse
import itertools
import os
import random
import re
import subprocess
import sys
import tempfile
from typing import NamedTuple, Optional

sys.dont_write_bytecode = sys.pycache_prefix is None

import lines_agree

PROGRAM = os.path.join(lines_agree.TOP, "crates", "catsync", "out", "catsync")
MOST_PLAYED = 2000          # entries of an output that is played by the rules
MOST_KEPT = 20              # outputs that differ
BYTES = " \n\r\t0159abhl-"


class Verdict(NamedTuple):
    """How many entries an output has, or the first entry that differs."""
    entries: Optional[int]
    differs: Optional[int]


class Judge:
    """The second reading of the rules."""

    def __init__(self, folder, kind):
        self.oracle, self.kind = lines_agree.Oracle(folder), kind
        self.rules = self.oracle.rules

    def walked(self, script):
        """The output of the script's walk."""
        return self.oracle.run(["walk"], script.encode, self.oracle.stage)

    def played(self, script, draw):
        """An output that the rules allow; none where the play is too long, or comes to no end."""
        player = self.oracle.players.Player(self.rules.read_script(script.encode()), self.kind, draw, 0, draw.choice((0.02, 0.1, 0.3)))
        player.play(MOST_PLAYED)
        return None if player.checker.complete() else self.text(player.checker)

    def text(self, checker):
        return self.rules.text(checker.history.entries, checker.lines())

    def checker(self, script):
        return self.rules.Checker(self.rules.read_script(script.encode()), self.kind)

    def entries(self, output):
        return self.oracle.entries(output.split("\n")[:-1])

    def takes(self, checker, entry):
        """Whether an entry may come next; if so it is taken. A `fail` may not yet."""
        return entry.event != "fail" and checker.take(entry) is None

    def at_end(self, checker, output):
        """The verdict where all entries of the output have been taken."""
        count = len(checker.history)
        is_output = not checker.complete() and self.text(checker) == output
        return Verdict(count, None) if is_output else Verdict(None, count + 1)

    def verdict(self, script, output):
        checker = self.checker(script)
        for number, entry in enumerate(self.entries(output), 1):
            if not self.takes(checker, entry):
                return Verdict(None, number)
        return self.at_end(checker, output)

    def verdicts(self, script, base, outputs):
        """The verdicts of outputs: each is asked where its entries leave those of the base, and wholly only where it goes on."""
        entries, forms = self.entries(base), [self.entries(output) for output in outputs]
        leaving = {}
        for number, form in enumerate(forms):
            at = sum(1 for _ in itertools.takewhile(lambda pair: pair[0] == pair[1], zip(entries, form)))
            leaving.setdefault(at, []).append(number)
        checker, found = self.checker(script), {}
        for at, entry in enumerate(entries + [None]):
            for number in leaving.get(at, ()):
                form = forms[number]
                if at == len(form):
                    found[number] = self.at_end(checker, outputs[number])
                elif not self.may_come(checker, form[at]):
                    found[number] = Verdict(None, at + 1)
            if entry is not None:
                checker.take(entry)
        return [found[number] if number in found else self.verdict(script, output) for number, output in enumerate(outputs)]

    def may_come(self, checker, entry):
        """Whether an entry may come next, by the rules and for `walk` by the schedule."""
        return (entry.event != "fail" and entry.backend in checker.sessions and checker.allowed(entry) is None
                and (self.kind == "run" or checker.follows(entry) is None))


# ---------------------------------------------------------------- forged outputs

def with_entries(draw, output):
    """Its entries are changed."""
    lines = output.splitlines()
    entries = [line for line in lines if line.startswith("h ")]
    rest = lines[len(entries):]
    if len(entries) > 1:
        draw.choice(lines_agree.CHANGES)(draw, entries)
    return "".join(line + "\n" for line in entries + rest)


def with_answers(draw, output):
    """Its answer lines are changed."""
    lines = output.splitlines()
    at = sum(line.startswith("h ") for line in lines)
    front, rest = lines[:at], lines[at:]
    change = draw.choice((lines_agree.drop, lines_agree.double, lines_agree.swap, lines_agree.move, answer_number, answer_from_above))
    if len(rest) > 1:
        change(draw, rest)
    return "".join(line + "\n" for line in front + rest)


def answer_number(draw, lines):
    """A number of a line is another one."""
    at = draw.randrange(len(lines))
    found = list(re.finditer(r"\d+", lines[at]))
    if found:
        number = draw.choice(found)
        lines[at] = lines[at][:number.start()] + str(int(number.group()) + draw.choice((1, 2, 10))) + lines[at][number.end():]


def answer_from_above(draw, lines):
    """A line has the answer of another."""
    one, other = draw.randrange(len(lines)), draw.randrange(len(lines))
    parts, others = lines[one].split(" ", 3), lines[other].split(" ", 3)
    lines[one] = " ".join(parts[:3] + others[3:])


def with_bytes(draw, output):
    """A byte goes, comes or is another one."""
    at, byte = draw.randrange(len(output)), draw.choice(BYTES)
    return output[:at] + draw.choice(("", byte, byte + output[at])) + output[at + 1:]


def after_end(draw, output):
    return output + draw.choice(("\n", " ", "\r\n", "end\n", "h 1 1 look no\n", "l 1 1 ok\n", "-- \n"))


def cut_off(draw, output):
    return output[:draw.randrange(len(output))]


FORGERS = (with_entries,) * 10 + (with_answers,) * 3 + (with_bytes,) * 3 + (after_end, cut_off)


# ---------------------------------------------------------------- the comparison

def asked(program, kind, script, output):
    """The program's verdict, or what it says where that is none."""
    done = subprocess.run([program, "check", kind], input=(script + output).encode("latin-1"), capture_output=True, check=False)
    said = (done.stdout + done.stderr).decode("latin-1").strip()
    found = re.fullmatch(r"checked (\d+) entries", said)
    if done.returncode == 0 and found:
        return Verdict(int(found[1]), None)
    found = re.match(r"catsync: (?:entry (\d+)|after (\d+) entries line \d+) differs: .", said)
    if done.returncode == 7 and found:
        return Verdict(None, int(found[1] or int(found[2]) + 1))
    return "status %d: %s" % (done.returncode, said)


class Tally:
    """What was compared."""

    def __init__(self, program, kind, kept):
        self.program, self.kind, self.kept = program, kind, kept
        self.outputs = self.forged = self.still = self.differ = 0

    def __str__(self):
        return "%d outputs, %d forged (%d of them outputs): %d differ" % (self.outputs, self.forged, self.still, self.differ)

    def compare(self, name, script, output, wanted):
        found = asked(self.program, self.kind, script, output)
        if found == wanted:
            return
        self.differ += 1
        if self.differ <= MOST_KEPT:
            print("%s: %s, and not %s" % (name, found, wanted), flush=True)
            self.kept.write("-- %s: %s, and not %s\n%s%s\n" % (name, found, wanted, script, output))
            self.kept.flush()


def bases(judge, seed, draw, script):
    """Outputs of a script, by their names."""
    yield "%d walked" % seed, judge.walked(script)
    if seed % 2 == 0 or judge.kind == "run":
        played = judge.played(script, draw)
        if played:
            yield "%d played" % seed, played


def compare_script(judge, tally, seed, most):
    """The outputs of one script, and so many forged ones of each."""
    draw = random.Random(seed)
    script = judge.oracle.script(seed)
    for name, base in bases(judge, seed, draw, script):
        tally.outputs += 1
        tally.compare(name, script, base, judge.verdict(script, base))
        forged = [draw.choice(FORGERS)(draw, base) for _ in range(most)]
        for number, (output, verdict) in enumerate(zip(forged, judge.verdicts(script, base, forged))):
            tally.forged += 1
            tally.still += verdict.differs is None
            tally.compare("%s, forged %d" % (name, number), script, output, verdict)


def main():
    parser = argparse.ArgumentParser(description=__doc__, formatter_class=argparse.RawDescriptionHelpFormatter)
    parser.add_argument("--kind", choices=("walk", "run"), default="walk", help="which check is compared")
    parser.add_argument("--seed", type=int, default=1, help="the first script's")
    parser.add_argument("--scripts", type=int, default=100)
    parser.add_argument("--forged", type=int, default=20, help="forged outputs of each output")
    parser.add_argument("--program", default=PROGRAM, help="an executable to run in place of the proved one")
    parser.add_argument("--keep", default=os.path.join(tempfile.gettempdir(), "forged_agree.outputs"), help="the file for outputs that differ")
    options = parser.parse_args()
    if not os.environ.get("CATSYNC_ORACLE"):
        print("forged_agree: skipped: CATSYNC_ORACLE isn't set")
        return 0
    judge = Judge(os.environ["CATSYNC_ORACLE"], options.kind)
    with open(options.keep, "w", encoding="latin-1") as kept:
        tally = Tally(options.program, options.kind, kept)
        for number in range(options.scripts):
            compare_script(judge, tally, options.seed + number, options.forged)
            if number % 100 == 99:
                print("%s so far" % tally, file=sys.stderr, flush=True)
    print(tally)
    return 1 if tally.differ else 0


if __name__ == "__main__":
    sys.exit(main())
