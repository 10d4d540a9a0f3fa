"""The steps of an order as chains, one for each backend, and how far turns can go along them.

A place says how many of its steps each backend has made; a turn of a backend goes on from there. It can't go past a step
that needs a step of another backend which needs the turn's first step. Turns that all go so far are the fewest that a
backend can have, so the chains tell for each place how many turns there have to be after it at least.
"""
from typing import Dict, List, Tuple

from .history import Placed

Place = Tuple[int, ...]
ChainTurns = List[Tuple[int, int]]  # chains, each with how many steps its turn has
Needed = List[Tuple[int, int]]      # other chains, with how many of their steps have to be made


class Chain:
    """The steps of one backend. After so many of them `needs` has what the next one needs beyond what the one before it
    needs, `ends` how far a turn can go at most, `needed` what it needs for that, and `least` how many turns are left then
    at least."""

    def __init__(self, own, befores: List[List[Dict[int, int]]]):
        length = len(befores[own])
        self.own = own
        self.needs: List[Needed] = []
        self.ends = [length] * length
        self.needed: List[Needed] = [[] for _ in befores[own]]
        self.least = [0] * (length + 1)
        self.find_ends([[(other, count) for other, count in before.items() if other != own] for before in befores[own]],
                       self.find_returns(own, befores))

    def find_returns(self, own, befores):
        """For each step how many steps of its own backend the steps of others need that it needs."""
        returns, latest, known = [], 0, {}
        for before in befores[own]:
            needs = [(other, count) for other, count in before.items() if other != own and count > known.get(other, 0)]
            latest = max([latest] + [befores[other][count - 1].get(own, 0) for other, count in needs])
            self.needs.append(needs)
            returns.append(latest)
            known = before
        return returns

    def find_ends(self, befores: List[Needed], returns):
        """How far turns can go at most, from the last place to the first."""
        end = len(returns)
        for at in reversed(range(len(returns))):
            while returns[end - 1] > at:
                end -= 1
            self.ends[at], self.needed[at], self.least[at] = end, befores[end - 1], self.least[end] + 1

    def reach(self, place):
        """How far a turn goes from a place."""
        at = place[self.own]
        while at < len(self.needs) and all(place[other] >= count for other, count in self.needs[at]):
            at += 1
        return at


class Chains:
    """The chains of all backends."""

    def __init__(self, steps: List[Placed]):
        self.backends = sorted({step.backend for step in steps})
        numbers = {backend: number for number, backend in enumerate(self.backends)}
        befores: List[List[Dict[int, int]]] = [[] for _ in numbers]
        for step in steps:
            befores[numbers[step.backend]].append({numbers[backend]: count for backend, count in step.before.items()})
        self.all = [Chain(own, befores) for own in range(len(befores))]
        self.start = (0,) * len(befores)
        self.end = tuple(len(own) for own in befores)

    def least(self, place):
        """How many turns there are from a place to the end at least."""
        return sum(chain.least[at] for chain, at in zip(self.all, place))

    def waits_for(self, place, own):
        """The chains of which steps have to be made before a turn of this one can go as far as it can at most."""
        return [other for other, count in self.all[own].needed[place[own]] if place[other] < count]

    def unfinished(self, place):
        """The chains that aren't at their end."""
        return [own for own, at in enumerate(place) if at < self.end[own]]

    def go_on(self, place, own=0, steps=0):
        """A turn of so many steps, if there are any, and then all turns that go as far as they can at most: the place after
        them, and the turns."""
        turns: ChainTurns = [(own, steps)] if steps else []
        made = list(place)
        made[own] += steps
        is_moved = True
        while is_moved:
            is_moved = False
            for free in self.unfinished(made):
                if not self.waits_for(made, free):
                    end = self.all[free].ends[made[free]]
                    turns.append((free, end - made[free]))
                    made[free], is_moved = end, True
        return tuple(made), turns

    def short_turns(self, place):
        """Where no turn goes as far as it can at most: those that are tried, and what `go_on` tells of each. They are of the
        fewest chains that wait for no other than each other."""
        waits = {own: self.waits_for(place, own) for own in self.unfinished(place)}
        knot = min((all_waited_for(waits, own) for own in waits), key=len)
        steps = {own: self.all[own].reach(place) - place[own] for own in sorted(knot)}
        return [self.go_on(place, own, count) for own, count in steps.items() if count]


def all_waited_for(waits, own):
    """A chain, those that it waits for, those that these wait for, and so on."""
    found, following = {own}, [own]
    while following:
        others = set(waits[following.pop()]) - found
        found |= others
        following += others
    return found
