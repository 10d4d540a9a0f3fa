#!/usr/bin/env python3
"""Runs scripts on threads again and again, and lets `check run` judge each output: the threads' turns come in another order
each time, and each order has to be one that the definitions allow. Where CATSYNC_ORACLE names a second reading of the rules,
that judges each output too.

    tests/threads_checked.py [--scripts N] [--runs N] [--from N] [--program FILE] [--keep FOLDER]

The scripts are random (tests/random_scripts.py), of 2, 8 and 64 backends by turns, with blocks, savepoints, open relations and small
queues. Prints how many histories came of each script, and 'N runs of M scripts, H histories: K differ' in the end; an output
that differs is kept in the folder beside its script. With --keep the first two outputs of a script that differ from one another are kept
there too. The exit status is 0 where no output is refused, and some script had two histories.
"""
import argparse
import os
import subprocess
import sys
import tempfile

sys.dont_write_bytecode = sys.pycache_prefix is None

from random_scripts import script_of

TOP = os.path.dirname(os.path.dirname(os.path.abspath(__file__)))
PROGRAM = os.path.join(TOP, "crates", "catsync", "out", "catsync")
BACKENDS = (2, 8, 64)


def answer(program, words, given):
    """Exit status, standard output and standard error."""
    done = subprocess.run([program] + words, input=given.encode(), capture_output=True, check=False)
    return done.returncode, done.stdout.decode(), done.stderr.decode()


def second_reading():
    """What a second reading of the rules says is wrong with an output of a run, if there is such a reading."""
    if not os.environ.get("CATSYNC_ORACLE"):
        return lambda script, output: None
    import forged_agree
    judge = forged_agree.Judge(os.environ["CATSYNC_ORACLE"], "run")

    def says(script, output):
        verdict = judge.verdict(script, output)
        return None if verdict.differs is None else "entry %d differs by the second reading" % verdict.differs
    return says


def refusal(program, says, script, output):
    """Why an output is none of a run of the script, if so."""
    status, checked, said = answer(program, ["check", "run"], script + output)
    entries = sum(line.startswith("h ") for line in output.splitlines())
    if (status, checked) != (0, "checked %d entries\n" % entries):
        return "check run: status %d, %s" % (status, (checked + said).strip())
    return says(script, output)


class Runs:
    """Runs of one script."""

    def __init__(self, options, says, name, script):
        self.options, self.says, self.name, self.script = options, says, name, script
        self.histories, self.refused = {}, 0

    def keep(self, name, text):
        os.makedirs(self.options.keep, exist_ok=True)
        with open(os.path.join(self.options.keep, name), "w", encoding="utf-8") as file:
            file.write(text)

    def refuse(self, why, output):
        self.refused += 1
        print("%s: %s" % (self.name, why), flush=True)
        self.keep("%s.script" % self.name, self.script)
        self.keep("%s.refused.%d" % (self.name, self.refused), output)

    def run(self):
        """Runs it once more; an output that came before was judged then."""
        status, output, said = answer(self.options.program, ["run"], self.script)
        if status:
            self.refuse("run: status %d, %s" % (status, said.strip()), output)
        elif output not in self.histories:
            self.histories[output] = len(self.histories)
            why = refusal(self.options.program, self.says, self.script, output)
            if why:
                self.refuse(why, output)

    def show(self):
        """Keeps the first two histories."""
        if len(self.histories) > 1:
            self.keep("%s.script" % self.name, self.script)
            for output in list(self.histories)[:2]:
                self.keep("%s.output.%d" % (self.name, self.histories[output]), output)


def main():
    parser = argparse.ArgumentParser(description=__doc__, formatter_class=argparse.RawDescriptionHelpFormatter)
    parser.add_argument("--scripts", type=int, default=20)
    parser.add_argument("--runs", type=int, default=50, help="runs of each script")
    parser.add_argument("--from", dest="first", type=int, default=1, help="the first script's seed")
    parser.add_argument("--program", default=PROGRAM, help="an executable to run in place of the proved one")
    parser.add_argument("--keep", help="the folder for outputs")
    options = parser.parse_args()
    shows = options.keep is not None
    options.keep = options.keep or os.path.join(tempfile.gettempdir(), "threads_checked")
    says, histories, refused, most = second_reading(), 0, 0, 0
    for number in range(options.scripts):
        seed, backends = options.first + number, BACKENDS[number % len(BACKENDS)]
        runs = Runs(options, says, "run%d" % seed, script_of(seed, backends))
        for _ in range(options.runs):
            runs.run()
        if shows:
            runs.show()
        print("%s: %d backends, %d histories of %d runs" % (runs.name, backends, len(runs.histories), options.runs), flush=True)
        histories, refused, most = histories + len(runs.histories), refused + runs.refused, max(most, len(runs.histories))
    print("%d runs of %d scripts, %d histories: %d differ" % (options.scripts * options.runs, options.scripts, histories, refused))
    return 1 if refused or most < 2 else 0


if __name__ == "__main__":
    sys.exit(main())
