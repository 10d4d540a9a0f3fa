"""A permutation's report beside the one that is expected, as far as both can be compared."""
import difflib
import re
from typing import List, NamedTuple, Set

from .isolation import Spec
from .permutation import LINE, ROWS, UNKNOWN, Item

STARTING = "starting permutation:"
_ERROR = re.compile("(?:ERROR|FATAL|PANIC):  .*")
_NOTICE = re.compile("(.*): (WARNING|NOTICE|INFO|LOG|DEBUG):  .*")
_END = re.compile(r"\([0-9]+ rows?\)")
_WAITING, _COMPLETED = " <waiting ...>", "<... completed>"


class LeftOut(NamedTuple):
    """What isn't compared: steps of which nothing is said, and steps whose results aren't."""
    steps: Set[str]
    results: Set[str]


def without_notes(text):
    """A report without the lines at its end in which tools/spec says what isn't said."""
    lines = text.split("\n")
    end = len(lines) - (not lines[-1])
    while end and lines[end - 1].startswith("#"):
        end -= 1
    return "\n".join(lines[:end] + [""])


class Reader:
    """Reads the permutations of a file with an expected report."""

    def __init__(self, text, spec: Spec):
        self.lines, self.at = without_notes(text).split("\n"), 0
        self.sessions = {session.name for session in spec.sessions} | {"control connection"}
        self.steps = sorted(spec.steps.values(), key=lambda step: -len(step.name))

    def permutations(self) -> List[List[Item]]:
        """The parts of each permutation's report; the first is its title."""
        found: List[List[Item]] = []
        step = None
        while self.at < len(self.lines):
            line = self.lines[self.at]
            if line.startswith(STARTING):
                found.append([Item(LINE, line.rstrip())])
                self.at, step = self.at + 1, None
            elif not found or not line:
                self.at += 1
            else:
                item = self.step() or self.other(step)
                step = item.step
                found[-1].append(item)
        return found

    def step(self):
        """A line of a step, which is as long as its SQL; None where there is none here."""
        line = self.lines[self.at]
        if not line.startswith("step "):
            return None
        rest = "\n".join(self.lines[self.at:]) + "\n"
        for step in self.steps:
            head = "step %s: " % step.name
            for tail in (_COMPLETED, step.sql + _WAITING, step.sql):
                if rest.startswith(head + tail + "\n"):
                    self.at += 1 + (head + tail).count("\n")
                    return Item(LINE, head + tail, step.name)
        return None

    def other(self, step):
        """An error, a notice, or a result with all of its lines."""
        line = self.lines[self.at]
        notice = _NOTICE.fullmatch(line)
        if _ERROR.fullmatch(line) or line.startswith("step ") or notice and notice.group(1) in self.sessions:
            self.at += 1
            return Item(LINE if not notice or notice.group(2) == "WARNING" else UNKNOWN, line, step)
        first = self.at
        while self.at < len(self.lines) and not self.lines[self.at].startswith("step "):
            self.at += 1
            if _END.fullmatch(self.lines[self.at - 1]):
                break
        return Item(ROWS, "\n".join(self.lines[first:self.at]) + "\n", step)


def expected_in(text, spec: Spec) -> List[List[Item]]:
    """The permutations of an expected report."""
    return Reader(text, spec).permutations()


def placed(items: List[Item]):
    """Parts of a report, of which those without a step are of the one before."""
    found: List[Item] = []
    for item in items:
        found.append(item if item.step or not found else item._replace(step=found[-1].step))
    return found


def differences(here: List[Item], expected: List[Item], silent: Set[str], left_out: LeftOut) -> List[str]:
    """What differs, each line with `-` where it is expected and with `+` where it came. Of steps of which nothing is said nothing
    is compared, and of results those that can be said."""
    here, expected = placed(here), placed(expected)
    unsaid = {item.step for item in here if item.kind == UNKNOWN}
    for item in expected:
        if item.step in silent:
            left_out.steps.add(item.step)
        elif item.kind == ROWS and item.step in unsaid:
            left_out.results.add(item.step or "the set-up")
    texts = [[line for item in items if item.kind != UNKNOWN and item.step not in silent and not (
        item.kind == ROWS and item.step in unsaid) for line in item.text.split("\n")] for items in (expected, here)]
    return [line.rstrip() for line in difflib.ndiff(*texts) if line[0] in "+-"]
