"""Serial orders: those in which each command, or each transaction, runs to its end before another backend goes on.

A whole command or transaction is one step here, with the accesses of all its steps; so the search for orders (orders.py)
finds the serial ones that differ, and of those that only swap what doesn't meet it runs one.
"""
from typing import Dict, List, NamedTuple, Tuple

from .access import Access, Accesses
from .program import Run

Groups = Dict[int, List[int]]       # for each backend the first command of each group of its commands, in order


def commands_of(commands) -> Groups:
    """Each command by itself, of commands by backend and number."""
    found: Groups = {}
    for backend, number in sorted(commands):
        found.setdefault(backend, []).append(number)
    return found


def transactions_of(commands) -> Groups:
    """Commands by transactions: a block is one, up to the command that ends it."""
    found: Groups = {}
    for backend, own in commands_of(commands).items():
        firsts, in_block = [], False
        for number in own:
            if not in_block:
                firsts.append(number)
            words = commands[backend, number].lower().rstrip(" \t;").split()
            in_block = in_block and words not in (["commit"], ["rollback"]) or words == ["begin"]
        found[backend] = firsts
    return found


def group_of(groups: Groups, backend, command):
    """The number of the group that a command is in; what comes before the first is in it, as what comes after the last."""
    return max(0, sum(first <= command for first in groups.get(backend, ())) - 1)


class Whole(NamedTuple):
    """The steps of a group, one after the other."""
    backend: int
    group: int
    steps: List[Tuple[int, int, str]]


def wholes_of(groups: Groups, steps) -> List[Whole]:
    """The steps of a serial run by groups."""
    found: List[Whole] = []
    for step in steps:
        group = group_of(groups, step[0], step[1])
        if not found or (found[-1].backend, found[-1].group) != (step[0], group):
            found.append(Whole(step[0], group, []))
        found[-1].steps.append(step)
    return found


class WholeAccesses:
    """The accesses of groups of steps."""

    def __init__(self, past):
        self.steps = Accesses(False, past)

    def start(self):
        """A history begins."""
        self.steps.start()

    def of(self, step):
        """The access of the next group: all that its steps do."""
        accesses = [self.steps.of((step[0], command, text)) for command, text in zip(step[1], step[2].split("\n"))]
        return Access(frozenset().union(*(access.does for access in accesses)),
                      frozenset().union(*(access.meets for access in accesses)))


class SerialRuns:
    """Runs in which each group's steps are made one after the other."""

    def __init__(self, runner, groups: Groups):
        self.runner, self.groups = runner, groups
        self.sizes: Dict[Tuple[int, ...], int] = {}     # of the last of such groups, by whose they are
        self.last = Run(b"", [], ())

    def run(self, first, rest):
        """The run in which these backends make their next groups, and these then go on to their stop; its groups."""
        for count in range(1, len(first) + 1):
            if tuple(first[:count]) not in self.sizes:
                self.made(first[:count], self.runner.run(self.backends(first[:count - 1]), [first[count - 1]] + [
                    backend for backend in self.runner.backends if backend != first[count - 1]]))
        self.last = self.runner.run(self.backends(first), rest)
        return self.made(first, self.last)

    def backends(self, first):
        """Whose each step is in the groups that these backends make."""
        return [backend for count, backend in enumerate(first, 1) for _ in range(self.sizes[tuple(first[:count])])]

    def made(self, first, run):
        """The groups of a run, whose sizes are put down."""
        wholes = wholes_of(self.groups, run.steps)
        made: Tuple[int, ...] = ()
        for whole in wholes:
            made += (whole.backend,)
            self.sizes[made] = len(whole.steps)
        return Run(run.output, [(whole.backend, [command for _, command, _ in whole.steps],
                                 "\n".join(text for _, _, text in whole.steps)) for whole in wholes], run.answers)
