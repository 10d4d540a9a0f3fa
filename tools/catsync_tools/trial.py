"""What becomes of a script's expectations.

Those of its own schedule take one run. For the others orders are run until each is met or broken: the serial ones, then all
where there are few enough, and else random schedules; as tools/explore does it (search.py).
"""
from typing import Dict, List, NamedTuple, Set, Tuple

from .counting import counted_script
from .expected import NEVER, OWN, SOME, Answers, Expectation, plain
from .faults import Fault
from .findings import without_places
from .scripts import steps_line
from .search import Exploration, Piece, Settings
from .sentences import counted, estimate
from .turns import fewest_turns

MET, BROKEN, UNDECIDED, EMPTY = "met", "broken", "undecided", "empty"    # empty: no answer can have what never comes
MOST_CAME = 5           # lines of what came where none of all orders has what is expected


class Result(NamedTuple):
    """What became of an expectation, and lines that say why."""
    verdict: str
    lines: List[str]


class Known(NamedTuple):
    """Of answers which expectations they have, and what they have in place of others that some order should have."""
    had: Tuple[int, ...]
    came: Tuple[Tuple[int, str], ...]


class Trial(Exploration):
    """A search for orders that have what some expectations say, each by its number."""

    def __init__(self, expected: List[Expectation], source, program, jobs, progress):
        super().__init__(Settings(jobs=jobs), source, program, progress)
        self.expected = expected
        self.reached: Dict[int, tuple] = {}     # an order that has it: its turns and answers
        self.came: Dict[int, Dict[str, None]] = {}  # what came in place of what some order should have
        self.known: Dict[tuple, Known] = {}     # by answers

    # A search that looks for all of them

    @property
    def is_found(self):
        """Whether for each there is an order that has it."""
        return len(self.reached) == len(self.expected)

    @property
    def looks_for(self):
        """Whether anything is looked for."""
        return True

    def is_enough(self, piece: Piece, before: Set[int]):
        """Whether with what a task has reached all are, after those tasks before it, to which it is added."""
        before.update(piece.reached)
        return len(before | self.reached.keys()) == len(self.expected)

    def learn(self, piece: Piece):
        """Takes what a task has reached."""
        for number, order in piece.reached.items():
            self.reached.setdefault(number, order)
        for number, lines in piece.came.items():
            for line in lines:
                note(self.came, number, line)

    def add(self, piece: Piece, answers, steps):
        """One more schedule of a task; whether none is left to look for."""
        piece.schedules += 1
        known = self.known_of(without_places(answers))
        for number in known.had:
            if number not in self.reached and number not in piece.reached:
                piece.reached[number] = (fewest_turns(steps).turns, answers)
        for number, line in known.came:
            note(piece.came, number, line)
        return len(self.reached.keys() | piece.reached.keys()) == len(self.expected)

    def known_of(self, answers):
        """What these answers have."""
        if answers not in self.known:
            found = Answers(answers)
            had = tuple(number for number, one in enumerate(self.expected) if found.has_all(one.parts))
            self.known[answers] = Known(had, tuple((number, found.came(one.parts)) for number, one in enumerate(self.expected)
                                                   if one.runs == SOME and number not in had))
        return self.known[answers]

    def so_far(self):
        """How many of them were decided before the tasks at hand."""
        return "%d of %s decided" % (len(self.reached), counted(len(self.expected), "expectation"))

    # What comes of it

    def results(self, most):
        """What becomes of each, where at most so many orders are run."""
        self.run_serial()
        is_all = self.is_found or self.run_orders(most)
        none = "none of all %s has it" % counted(self.schedules, "order")
        if not is_all:
            self.run_random(most)
            none = "not decided within %s: no serial order and no random schedule has it; there are %s: --most N" % (
                counted(most, "order"), estimate(self.guess, most))
        return [self.result(number, one, is_all, none) for number, one in enumerate(self.expected)]

    def result(self, number, one: Expectation, is_all, none):
        """What becomes of one: where an order has it, or where none has."""
        if number not in self.reached:
            verdict = UNDECIDED if not is_all else MET if one.runs == NEVER else BROKEN
            return Result(verdict, [none] + (self.came_of(number) if verdict == BROKEN else []))
        turns, answers = self.reached[number]
        return Result(MET if one.runs == SOME else BROKEN, [steps_line(turns)] + [
            Answers(answers).line("+", part) for part in one.parts])

    def came_of(self, number):
        """What came in place of an expectation, different each time."""
        lines = list(self.came.get(number, ()))
        return lines[:MOST_CAME] + ["+ .."] * (len(lines) > MOST_CAME)


def note(came, number, line):
    """Keeps what came in place of an expectation: one more than are told at most."""
    lines = came.setdefault(number, {})
    if len(lines) <= MOST_CAME:
        lines[line] = None


def check_setup(source, answers):
    """A Fault where a command of the set-up is refused, and no expectation is about that command."""
    meant = {(part.backend, part.command) for one in source.expected for part in one.parts}
    for item in source.setup:
        command = (item.backend, item.until.command)
        answer = plain(answers.texts.get(command, ""))
        if answer.startswith("error ") and command not in meant:
            raise Fault("line %d: the set-up's %d.%d is refused: %s" % ((item.line,) + command + (answer,)))


def own_results(source, program):
    """What becomes of those of the script's own schedule."""
    answers = Answers(program.run(counted_script(source, lambda: program)).answers)
    check_setup(source, answers)
    found = {}
    for one in source.expected:
        if one.runs == OWN:
            differences = answers.differences(one.parts)
            found[one] = Result(BROKEN, differences) if differences else Result(MET, [
                answers.line("+", part) for part in one.parts])
    return found


def results_of(source, program, jobs, most, progress):
    """What becomes of a script's expectations."""
    found = own_results(source, program)
    others = [one for one in source.expected if one.runs != OWN]
    if others:
        trial = Trial(others, source, program.path, jobs, progress)
        try:
            found.update(zip(others, trial.results(most)))
        finally:
            trial.program.close()
    return found
