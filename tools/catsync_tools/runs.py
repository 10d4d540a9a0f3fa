"""Runs of a script that go on until each backend has stopped."""
from .faults import Fault
from .items import MOST_STEPS
from .scripts import steps_line

FURTHER = 64            # steps that a backend may make beyond those that were seen


class Runs:
    """A script, and how many steps its runs have."""

    def __init__(self, program, script):
        self.program, self.script = program, script
        self.first = program.run(script.without_steps())
        self.backends = sorted({backend for backend, _, _ in self.first.steps})
        self.longest = len(self.first.steps)

    def run(self, turns, rest):
        """The run of these turns, after which these backends go on to their stop, one after the other. A turn without a count
        goes on to the backend's stop."""
        known = sum(count or 0 for _, count in turns)
        to_stop = len(rest) + sum(count is None for _, count in turns)
        while self.longest <= MOST_STEPS and known < MOST_STEPS:
            further = min(self.longest + FURTHER, (MOST_STEPS - known) // max(to_stop, 1))
            line = [(backend, count or further) for backend, count in turns] + [(backend, further) for backend in rest]
            run = self.with_turns(line)
            self.longest = max(self.longest, len(run.steps))
            if sum(text == "stop" for _, _, text in run.steps) == len(self.backends):
                return run
            self.longest *= 2
        raise Fault("the script has too many steps: a schedule has at most %d" % MOST_STEPS)

    def with_turns(self, turns):
        """The run of these turns alone."""
        return self.program.run(self.script.with_steps(steps_line(turns)))
