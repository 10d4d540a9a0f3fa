#!/usr/bin/env python3
"""Lists which goals of a crate the prover searched longest, dearest first, in its own steps, which no load changes. It decides
nothing.

    bench/goals.py CRATE [COUNT]

They are read off what `rt check` left in crates/CRATE/out/incremental, where goals of texts that were checked earlier stay and count:
the sum is right where the crate was checked once, from nothing (`rt check` begins with what another checkout on the machine left).
One or two seconds go into a million steps; an answer in the function's Answers.antt, by the lemmas that the goal needs, takes next
to none. Where an answer searches itself, its steps are those of a goal of `Answers`; of a module of lemmas the lemma is named.
COUNT is how many are listed; 30 if left out.
"""
import glob
import os
import re
import sys

TOP = os.path.dirname(os.path.dirname(os.path.abspath(__file__)))
GOAL = re.compile(r'"name":"([^"]+)","notes".*?"phases":\[([0-9,]+)\]')


def searched(crate):
    """The steps, the function and the name of each goal that was searched."""
    kept = glob.escape(os.path.join(TOP, "crates", crate, "out", "incremental"))
    for path in glob.glob(os.path.join(kept, "*", "records", f"Rattle-{crate}-proofs.*.decls.oantt")):
        function = os.path.basename(path).split("-proofs.", 1)[1][:-len(".decls.oantt")]
        function = function[:-len(".Proof")] if function.endswith(".Proof") else function
        with open(path, encoding="latin1") as file:
            for name, phases in GOAL.findall(file.read()):
                yield sum(map(int, phases.split(","))), function, name


def main():
    if len(sys.argv) not in (2, 3) or not all(count.isdigit() for count in sys.argv[2:]):
        sys.exit("usage: bench/goals.py CRATE [COUNT]")
    goals = sorted(searched(sys.argv[1]), reverse=True)
    if not goals:
        sys.exit(f"bench: nothing is kept of {sys.argv[1]}: run 'rt check' in crates/{sys.argv[1]} first")
    print(f"{sum(steps for steps, _, _ in goals):10,}  in all, of {len(goals)} goals")
    for steps, function, name in goals[:int(sys.argv[2]) if len(sys.argv) == 3 else 30]:
        print(f"{steps:10,}  {function}  {name}")


if __name__ == "__main__":
    main()
