"""The orders of a script's steps: all of them, those counted once that only swap steps which don't meet (access.py).

An order is known by its history (history.py): histories in which the same steps come before the same steps are one order.

A run can't be stopped half-way and continued, so the steps of an order are made from the start, or known (walks.py). Which
are made is decided by races: two steps of different backends which meet, with no step that comes between them. For each race
of a history there has to be a history in which the later step comes first; where none is due, one is put down in which it does
(`Branch.want`). A backend whose next step was tried at some place, with all that can follow, sleeps there: it isn't tried
again until a step that meets its own has been made. So no order is run twice; a run in which all that haven't stopped are
asleep is given up, since its order was run before. This search is known as dynamic partial order reduction with source
sets and sleep sets (Abdulla, Aronis, Jonsson, Sagonas: Optimal dynamic partial order reduction, POPL 2014).
"""
from typing import Dict, List, NamedTuple, Set

from .access import Access
from .history import History, Placed


def initials(steps):
    """The backends whose first step among these may be made first."""
    firsts: Dict[int, int] = {}
    found = []
    for step in steps:
        if step.backend in firsts:
            continue
        if not any(step.before.get(backend, 0) >= turn for backend, turn in firsts.items()):
            found.append(step.backend)
        firsts[step.backend] = step.turn
    return found


def asleep_after(asleep, access):
    """The sleepers that a step doesn't wake."""
    return {backend: own for backend, own in asleep.items() if not own.meets_one_of(access)}


def awake_after(backends, steps: List[Placed], asleep):
    """The backends that haven't stopped in these steps, and don't sleep after them."""
    stopped = {step.backend for step in steps if step.is_stop}
    return [backend for backend in backends if backend not in stopped and backend not in asleep]


def awake_first(backends, asleep):
    """All backends, those first that are awake."""
    return [backend for backend in backends if backend not in asleep] + sorted(asleep)


class Branch:
    """A place in the history that is being run: whose step was made there, whose are still to be tried, with the steps
    that are to follow it, and who sleeps there."""

    def __init__(self, backend, asleep):
        self.backend = backend
        self.asleep: Dict[int, Access] = asleep
        self.tried: Set[int] = set()
        self.to_try: Dict[int, List[Placed]] = {}
        self.made = 0       # of those that were tried, how many with all that can follow

    def want(self, steps):
        """Puts down that these steps are to be made here, unless one that may be made first of them is tried anyway."""
        first = set(initials(steps))
        if self.backend not in first and self.tried.isdisjoint(first) and first.isdisjoint(self.asleep):
            self.tried.add(steps[0].backend)
            self.to_try[steps[0].backend] = steps

    def next_one(self):
        """The steps to be tried next, or None."""
        self.made += 1
        return self.to_try.pop(min(self.to_try)) if self.to_try else None


class Share(NamedTuple):
    """A share of a search: the orders whose schedules begin with these backends' steps, and in which none of the sleepers
    goes on before a step that meets its own."""
    first: List[int]
    asleep: Dict[int, Access]


WHOLE = Share([], {})


class Search:
    """Makes all orders of a share, one after the other. Their first steps are the same, and the races of these are left
    alone."""

    def __init__(self, walks, backends, share: Share = WHOLE):
        self.walks = walks          # makes the steps (walks.py)
        self.backends = backends
        self.first = list(share.first)
        self.asleep = dict(share.asleep)
        self.branches: List[Branch] = []
        self.history = History()

    @property
    def place(self):
        """How many steps are made before the next one is chosen."""
        return len(self.first) + len(self.branches)

    @property
    def done(self):
        """About which part of the orders is made, by the weights of the tree's branches: at each place all steps that were tried or
        are to be, as far as is known, count alike."""
        done, weight = 0.0, 1.0
        for branch in self.branches:
            weight /= branch.made + 1 + len(branch.to_try)
            done += weight * branch.made
        return done + weight

    def orders(self):
        """The answers of each order with its history, until the next one is asked for; an order that was given up has None
        for its answers."""
        branch, steps = Branch(0, self.asleep), []
        while branch is not None:
            made, rest = self.schedule(branch, steps)
            branch, steps = self.make(made, rest, branch), []
            if branch is not None and not self.is_stuck(branch):
                continue
            yield (self.walks.answers(self.history, made, rest) if branch is None else None), self.history
            branch, steps = self.go_back()

    def is_stuck(self, branch):
        """Whether all that haven't stopped sleep at this place."""
        return not awake_after(self.backends, self.history.steps[:self.place], branch.asleep)

    def schedule(self, branch, steps):
        """The steps up to the branch and these; then those to the stop who are awake, and at last the sleepers."""
        asleep = branch.asleep
        for step in steps:
            asleep = asleep_after(asleep, step.access)
        made = self.first + [known.backend for known in self.branches] + [step.backend for step in steps]
        return made, awake_first(self.backends, asleep)

    def make(self, made, rest, branch):
        """Makes the steps of a schedule that leaves the history at this branch, and puts down what their races ask for. None,
        or where a sleeper goes on the branch at which another has to."""
        place = self.place
        for at, step in self.walks.go(self.history, place, made, rest):
            if at < place:
                continue
            if at > place:
                branch = Branch(step.backend, asleep_after(branch.asleep, self.history.steps[at - 1].access))
            if step.backend in branch.asleep:
                return branch
            branch.backend = step.backend
            self.branches.append(branch)
            self.put_down_races(at)
        return None

    def put_down_races(self, second):
        """Puts down what the races of a step with earlier ones ask for."""
        for first in self.history.races(second):
            if first >= len(self.first):
                self.branches[first - len(self.first)].want(self.history.reversal(first, second))

    def go_back(self):
        """Goes back to the last place at which steps are to be tried: its branch, which is taken off, and the steps."""
        while self.branches:
            branch = self.branches.pop()
            branch.asleep[branch.backend] = self.history.steps[self.place].access
            steps = branch.next_one()
            if steps is not None:
                return branch, steps
        return None, []
