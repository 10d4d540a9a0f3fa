"""Steps with what comes before each, and the races between them.

Within a history a step comes before another if it is of the same backend and earlier, or if it is earlier and their
accesses meet (access.py), or by way of steps between.
"""
from typing import Dict, List, Optional, Set, Tuple

from .access import Access


class Placed:
    """A step in a history: whose it is, its access, how many steps of each backend come before it, itself included, its
    command, and its text; that of a step made of several (serial.py) has a line for each."""
    __slots__ = ("backend", "access", "before", "command", "text", "turn", "is_stop", "needed", "begun", "turns")

    def __init__(self, backend, access: Access, before: Dict[int, int], command, text):
        self.backend, self.access, self.before, self.command, self.text = backend, access, before, command, text
        self.turn = before[backend]     # its number among the steps of its backend
        self.is_stop = text == "stop" or text.endswith("\nstop")
        # for turns that each go as far as they can (chains.py): how many of the backend's own steps it needs by way of
        # others' steps, how many were made before its turn, and the turns up to it
        self.needed, self.begun, self.turns = 0, 0, 1

    def comes_before(self, other):
        """Whether it comes before a later step of the history."""
        return other.before.get(self.backend, 0) >= self.turn


class History:
    """Steps with what comes before each, and the races of each with earlier steps. Its last steps can be taken off."""

    def __init__(self):
        self.steps: List[Placed] = []
        self.met: List[Set[int]] = []                       # for each step the places of those that it meets
        self.previous: List[Optional[int]] = []             # for each step the place of its backend's step before it
        self.latest: Dict[int, int] = {}                    # for each backend the place of its latest step
        self.did: Dict[tuple, Dict[int, int]] = {}          # for each access and backend the place of the latest step
        self.replaced: List[List[Tuple[dict, Optional[int]]]] = []  # for each step what was in `did` before it
        self.past = None                                    # what it has led to (walks.py)

    def place(self, backend, access: Access, command, text):
        """One more step."""
        met = self.met_by(backend, access)
        step = Placed(backend, access, self.before(backend, met), command, text)
        if backend in self.latest:
            self.find_turn(step, self.steps[self.latest[backend]], met)
        self.append(step, met)

    def find_turn(self, step: Placed, previous: Placed, met):
        """Whether a step can be made in the turn of its backend's step before it."""
        step.needed = max([previous.needed] + [self.steps[at].before.get(step.backend, 0) for at in met])
        step.begun, step.turns = previous.begun, previous.turns
        if step.needed > step.begun:
            step.begun, step.turns = previous.turn, previous.turns + 1

    def met_by(self, backend, access: Access):
        """The places of the latest steps of other backends that an access meets."""
        did = self.did
        return {at for what in access.meets if what in did for other, at in did[what].items() if other != backend}

    def before(self, backend, met):
        """How many steps of each backend come before a backend's next step, which meets these, itself included."""
        most: Dict[int, int] = {}
        for at in met | {self.latest[backend]} if backend in self.latest else met:
            for other, count in self.steps[at].before.items():
                if count > most.get(other, 0):
                    most[other] = count
        most[backend] = most.get(backend, 0) + 1
        return most

    def append(self, step: Placed, met: Set[int]):
        """One more step, which meets these."""
        place, backend, replaced = len(self.steps), step.backend, []
        for what in step.access.does:
            own = self.did.setdefault(what, {})
            replaced.append((own, own.get(backend)))
            own[backend] = place
        self.replaced.append(replaced)
        self.previous.append(self.latest.get(backend))
        self.latest[backend] = place
        self.steps.append(step)
        self.met.append(met)

    def keep(self, count):
        """Takes off all steps after so many."""
        while len(self.steps) > count:
            backend = self.steps.pop().backend
            self.met.pop()
            for own, place in self.replaced.pop():
                put_back(own, backend, place)
            put_back(self.latest, backend, self.previous.pop())

    def is_stopped(self, backend):
        """Whether a backend has stopped."""
        return backend in self.latest and self.steps[self.latest[backend]].is_stop

    def races(self, second):
        """The earlier steps that meet this one, with none that comes between them."""
        met, previous, steps = self.met[second], self.previous[second], self.steps
        between = met if previous is None else met | {previous}
        return [first for first in met
                if not any(at > first and steps[first].comes_before(steps[at]) for at in between)]

    def reversal(self, first, second):
        """The steps after the first that don't come after it, up to the second, and the second: made in the first's
        place they make the second come before it."""
        backend, turn = self.steps[first].backend, self.steps[first].turn
        return [step for step in self.steps[first + 1:second] if step.before.get(backend, 0) < turn] + [self.steps[second]]


def put_back(places, backend, place):
    """Puts back a place that was replaced."""
    if place is None:
        del places[backend]
    else:
        places[backend] = place


def history_of(steps, accesses):
    """The history of the steps of a run."""
    history = History()
    accesses.start()
    for backend, command, text in steps:
        history.place(backend, accesses.of((backend, command, text)), command, text)
    return history
