"""The sets of answers that schedules led to."""
import sys
from typing import Dict, Tuple

from .outputs import PLACE
from .scripts import Turns
from .turns import MOST_TRIED, fewest_turns

Size = Tuple[int, int]      # of a schedule: turns, and steps
Answers = Tuple[str, ...]

LARGEST: Size = (sys.maxsize, sys.maxsize)
PLACES_EACH = 20            # that searches may try beyond the first for each schedule


def without_places(answers):
    """Answers without the numbers of the entries that they name: these differ between orders that are the same."""
    return tuple(PLACE.sub(" as of _", answer) for answer in answers)


class Found:
    """A set of answers: how many schedules led to it, and the shortest; of several that are as short it is the first by
    its turns, so that it doesn't matter in which order schedules are run."""

    def __init__(self, count=0, turns=(), size=LARGEST, least=LARGEST):
        self.count = count
        self.turns: Turns = list(turns)
        self.size: Size = size
        self.least: Size = least

    def add(self, steps, most_tried):
        """One more schedule, and with it all of its order; how many places the search for the shortest of these tried."""
        most = self.size[0] if len(steps) <= self.size[1] else self.size[0] - 1
        found = fewest_turns(steps, min(most, len(steps)), most_tried)
        size = (len(found.turns), len(steps)) if found.turns else LARGEST
        self.merge(Found(1, found.turns or (), size, (found.least, len(steps))))
        return found.tried

    def merge(self, other):
        """What was found elsewhere."""
        self.count += other.count
        self.turns, self.size = min((self.turns, self.size), (other.turns, other.size), key=lambda one: (one[1], one[0]))
        self.least = min(self.least, other.least)

    @property
    def is_shortest(self):
        """Whether no search was given up that could have found a shorter one."""
        return self.size <= self.least


class Findings:
    """All sets of answers that were found. Places count only where they are asked for."""

    def __init__(self, places):
        self.places = places
        self.left = MOST_TRIED
        self.sets: Dict[Answers, Found] = {}

    def key(self, answers) -> Answers:
        """What two runs with the same answers have in common."""
        return tuple(answers) if self.places else without_places(answers)

    def add(self, key: Answers, steps):
        """One more run's answers, as its set has them, and its steps."""
        found = self.sets.setdefault(key, Found())
        self.left += PLACES_EACH
        self.left -= found.add(steps, self.left)

    def merge(self, sets: Dict[Answers, Found]):
        """What was found elsewhere."""
        for key, found in sets.items():
            self.sets.setdefault(key, Found()).merge(found)

    def start_counting(self):
        """Forgets how many schedules there were, and not what they led to."""
        for found in self.sets.values():
            found.count = 0

    def sorted(self):
        """The sets with the most schedules first."""
        return sorted(self.sets.items(), key=lambda item: (-item[1].count, item[1].size, item[1].turns))
