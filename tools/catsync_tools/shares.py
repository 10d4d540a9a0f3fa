"""Splits a search into shares, so that several processors or machines can have one each.

A share is a place to which a schedule leads, with those who sleep there (orders.py). At a place that is split each backend
which is awake goes on in one share, and the ones before it sleep in that: so each order is in just one share, in whatever
way the places are chosen. The place that seems to have the most orders after it is split next. It is guessed by how many
interleavings the steps have which are left, so what the shares are depends on the script alone.
"""
import heapq
from collections import Counter
from math import lgamma
from typing import Dict, List, NamedTuple, Set, Tuple

from .history import History, Placed
from .orders import Share, asleep_after, awake_after, awake_first


class Place(NamedTuple):
    """A place that can be split: its share, the steps of it and of what may follow, and who is awake there."""
    share: Share
    steps: List[Placed]
    awake: List[int]


def guess(place):
    """The logarithm of about how many orders a share has: that of the interleavings of the steps that are left and meet
    one of another backend. Where nothing that is left wakes a sleeper it is less than 0: there may well be none."""
    left = place.steps[len(place.share.first):]
    doing: Dict[tuple, Set[int]] = {}
    for step in left:
        for what in step.access.does:
            doing.setdefault(what, set()).add(step.backend)
    counts = Counter(step.backend for step in left
                     if any(what in doing and doing[what] != {step.backend} for what in step.access.meets))
    if any(not any(own.meets_one_of(step.access) for step in left if step.backend != backend)
           for backend, own in place.share.asleep.items()):
        return -1.0
    return lgamma(sum(counts.values()) + 1) - sum(lgamma(count + 1) for count in counts.values())


class Splitter:
    """Splits the places of a search."""

    def __init__(self, walks, backends):
        self.walks, self.backends = walks, backends

    def place(self, share):
        """The place of a share."""
        history = History()
        for _ in self.walks.go(history, 0, share.first, awake_first(self.backends, share.asleep)):
            pass
        return Place(share, history.steps, awake_after(self.backends, history.steps[:len(share.first)], share.asleep))

    def split(self, place):
        """The places that are one step further, without those after which all sleep."""
        at, asleep, found = len(place.share.first), dict(place.share.asleep), []
        for backend in place.awake:
            first = place.share.first + [backend]
            steps = place.steps if place.steps[at].backend == backend else self.place(Share(first, {})).steps
            share = Share(first, asleep_after(asleep, steps[at].access))
            awake = awake_after(self.backends, steps[:at + 1], share.asleep)
            if awake or at + 1 == len(steps):
                found.append(Place(share, steps, awake))
            asleep[backend] = steps[at].access
        return found


def shares(walks, backends, count) -> List[Share]:
    """So many shares that have all orders between them, or a few more; fewer where there are no more orders."""
    splitter = Splitter(walks, backends)
    number, done = 0, []
    first = splitter.place(Share([], {}))
    places: List[Tuple[float, int, Place]] = [(0, 0, first)]
    while places and len(places) + len(done) < count:
        _, _, place = heapq.heappop(places)
        for further in splitter.split(place):
            number += 1
            if further.awake:
                heapq.heappush(places, (-guess(further), number, further))
            else:
                done.append(further.share)
    return [place.share for _, _, place in sorted(places)] + done
