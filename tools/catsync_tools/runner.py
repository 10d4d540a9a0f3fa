"""Runs a script after its set-up."""
from collections import Counter

from .counting import setup_turns
from .program import Run
from .runs import Runs
from .scripts import turns_of


class Runner:
    """A script whose set-up was run: the steps of that, and the backends that haven't stopped in it."""

    def __init__(self, source, program):
        self.runs = Runs(program, source.script)
        self.setup = setup_turns(source, self.runs)
        first = self.runs.run(self.setup, self.runs.backends) if self.setup else self.runs.first
        self.past = first.steps[:sum(count for _, count in self.setup)]
        stopped = {backend for backend, _, text in self.past if text == "stop"}
        self.backends = [backend for backend in self.runs.backends if backend not in stopped]

        self.steps = Counter(backend for backend, _, _ in first.steps[len(self.past):])     # of each, as this run went

    def run(self, first, rest):
        """The run in which these backends make the first steps after the set-up, and these then go on to their stop."""
        return self.after_setup(self.runs.run(self.setup + turns_of(first), rest))

    def with_turns(self, turns):
        """The run of these turns after the set-up, which may end before the backends' stops."""
        return self.after_setup(self.runs.with_turns(self.setup + turns))

    def after_setup(self, run):
        """A run whose steps are those after the set-up; its output and its answers are those of all."""
        return Run(run.output, run.steps[len(self.past):], run.answers)
