"""The fewest turns in which steps can be made, each after those that come before it in their order.

A search over places (chains.py), with one turn after the other. A turn goes as far as it can, as with more steps made no
more turns follow. The search goes by how many turns there have to be at least (A*), and what it leaves out loses nothing:

- Where a turn goes as far as one from there can go at most, it is made at once. Later it would go no further, and the
  others are none the worse for it.
- Where none does, there are some that wait for no other than each other. The first turn among these ends early, and it
  goes as far now as after turns of the rest. So only these are tried.
- A place is passed over if another was tried that has all its steps and needed no more turns.
"""
import heapq
from typing import Dict, List, NamedTuple, Optional, Tuple

from .chains import Chains, ChainTurns, Place
from .history import Placed
from .scripts import Turns

MOST_TRIED = 20000      # places, before a search is given up


class Shortest(NamedTuple):
    """Turns, or None where more are needed than are wanted; how many are needed at least, which is fewer than these only
    where the search was given up; and how many places it tried."""
    turns: Optional[Turns]
    least: int
    tried: int


class Tried:
    """The places that were tried, as sets of bits: for each chain those with so many of its steps or more, and those with
    so many turns or fewer."""

    def __init__(self, chains: Chains):
        self.count = 0
        self.made = [[0] * (length + 1) for length in chains.end]
        self.turns = [0] * (sum(chains.end) + 1)

    def add(self, place: Place, turns):
        """One more place."""
        bit = 1 << self.count
        self.count += 1
        for made, at in zip(self.made, place):
            for fewer in range(at + 1):
                made[fewer] |= bit
        for more in range(turns, len(self.turns)):
            self.turns[more] |= bit

    def has_better(self, place: Place, turns):
        """Whether one of them has all steps of a place, and needed no more turns."""
        found = self.turns[turns]
        for made, at in zip(self.made, place):
            found &= made[at]
        return found != 0


class Search:
    """The search for the steps of one order."""

    def __init__(self, chains: Chains):
        self.chains = chains
        self.tried = Tried(chains)
        self.turns: Dict[Place, int] = {}
        self.way: Dict[Place, Tuple[Optional[Place], ChainTurns]] = {}
        self.queue: List[Tuple[int, int, Place]] = []

    def find(self, most, most_tried):
        """The fewest turns where they are at most so many; given up after so many places, with few turns."""
        self.put(None, *self.chains.go_on(self.chains.start))
        while True:
            least, _, place = heapq.heappop(self.queue)
            if least > most:
                return Shortest(None, least, self.tried.count)
            if self.tried.count == most_tried:
                place = self.hurry(place)
            if place == self.chains.end:
                return Shortest(self.way_to(place) if self.turns[place] <= most else None, least, self.tried.count)
            if not self.tried.has_better(place, self.turns[place]):
                self.tried.add(place, self.turns[place])
                for after, turns in self.chains.short_turns(place):
                    self.put(place, after, turns)

    def put(self, before, place, turns):
        """A place to be tried, with the turns that lead to it from another."""
        count = len(turns) if before is None else self.turns[before] + len(turns)
        if count < self.turns.get(place, count + 1):
            self.turns[place], self.way[place] = count, (before, turns)
            heapq.heappush(self.queue, (self.least(place), -sum(place), place))

    def least(self, place):
        """How many turns are needed at least, those that lead to a place included."""
        return self.turns[place] + self.chains.least(place)

    def hurry(self, place):
        """The end, with turns from a place of which each is that after which the fewest seem to follow."""
        while place != self.chains.end:
            following = self.chains.short_turns(place)
            for after, turns in following:
                self.put(place, after, turns)
            place = min((after for after, _ in following), key=self.least)
        return place

    def way_to(self, place):
        """All turns that lead to a place."""
        parts: List[ChainTurns] = []
        last: Optional[Place] = place
        while last is not None:
            last, turns = self.way[last]
            parts.append(turns)
        return [(self.chains.backends[own], count) for turns in reversed(parts) for own, count in turns]


def fewest_turns(steps: List[Placed], most=None, most_tried=MOST_TRIED):
    """The fewest turns in which these steps can be made, if they are at most so many."""
    most = len(steps) if most is None else most
    least = sum(last.turns for last in {step.backend: step for step in steps}.values())
    return Shortest(None, least, 0) if least > most else Search(Chains(steps)).find(most, most_tried)
