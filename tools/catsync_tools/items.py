"""The items of a schedule: whose turn is next, and how far it goes."""
import re
from bisect import bisect_left
from difflib import get_close_matches
from typing import List, NamedTuple, Optional, Tuple

from .events import FORMS, SCANS
from .faults import Fault
from .sentences import counted, listed
from .spellings import tokens_of

MOST_STEPS = 1000000

Own = List[Tuple[int, str]]         # the steps of one backend: the command and the text of each

EVENT_WORDS = tuple(FORMS) + tuple(SCANS) + ("yes", "no", "reset", "ok", "held", "rows", "row", "running")

NO_ENTRY = "no such entry comes before its stop"

_COUNT = re.compile("[0-9]{1,9}")


class Count(NamedTuple):
    """So many steps."""
    count: int

    def steps(self, own: Own, at):
        """How many steps it takes from a place in a backend's steps on."""
        return self.count

    def missing(self, own: Own, at):
        """Never said: steps beyond the stop are passed over."""
        return ""


class Answered(NamedTuple):
    """Until this command is answered."""
    command: int

    def steps(self, own: Own, at) -> Optional[int]:
        """How many steps it takes; None where a later command has begun. A command that makes no step of its own is answered
        with the step before it."""
        end = bisect_left(own, (self.command + 1,))
        return end - at if end >= at else None

    def missing(self, own: Own, at):
        """Why it can't be reached."""
        return "command %d is answered already" % self.command


class Made(NamedTuple):
    """Until the next entry that has these words in this order, the first of them first."""
    words: Tuple[str, ...]

    def steps(self, own: Own, at) -> Optional[int]:
        """How many steps it takes; None where no such step comes."""
        for place in range(at, len(own)):
            if self.is_in(own[place][1].split(" ")):
                return place + 1 - at
        return None

    def is_in(self, words):
        """Whether an entry's words have these."""
        rest = iter(words[1:])
        return words[0] == self.words[0] and all(word in rest for word in self.words[1:])

    def missing(self, own: Own, at):
        """Why it can't be reached; and which of an event's words may be meant by one that comes nowhere."""
        made = {word for _, text in own for word in text.split(" ")}
        near = [get_close_matches(word, EVENT_WORDS, 1) for word in self.words if word not in made and word not in EVENT_WORDS]
        meant = listed(repr(words[0]) for words in near if words)
        return NO_ENTRY + ("; is %s meant?" % meant if any(near) else "")


class Stopped(NamedTuple):
    """Until the backend has stopped."""

    def steps(self, own: Own, at):
        """How many steps it takes."""
        return len(own) - at

    def missing(self, own: Own, at):
        """Never said."""
        return ""


class Item(NamedTuple):
    """A turn of a backend, with the line that it stands in and its text there."""
    line: int
    text: str
    backend: int
    until: object


def until_of(words):
    """What follows `to`."""
    if words == ["end"]:
        return Stopped()
    if len(words) == 1 and _COUNT.fullmatch(words[0]):
        return Answered(int(words[0]))
    return Made(tuple(words)) if words and words[0] in FORMS else None


def comma_wanted(words):
    """Where a comma is wanted in an item `B to ..`: before another one in it; None where there is none. What an entry has may
    read so, so it is asked only of an item that can't be one."""
    ends = [at - 1 for at in range(4, len(words)) if words[at] == "to" and _COUNT.fullmatch(words[at - 1])]
    if not ends:
        return None
    item = words[:ends[0]]
    if item[-1] == ";":
        return "a comma comes after '%s', not ';'" % " ".join(item[:-1])
    return "a comma comes after '%s'" % " ".join(item)


def named_item(line, words):
    """The item `B to ..`, or a fault."""
    text = " ".join(words)
    until = until_of(words[2:]) if _COUNT.fullmatch(words[0]) else None
    if until is None and comma_wanted(words):
        raise Fault("line %d: '%s': %s" % (line, text, comma_wanted(words)))
    if until is None:
        raise Fault("line %d: '%s' isn't 'B to C' with the number of a command, 'B to end', or 'B to' and the first word of an "
                    "entry: %s" % (line, text, ", ".join(FORMS)))
    return Item(line, text, int(words[0]), until)


def counted_items(line, words):
    """The items `B` and `B*COUNT`."""
    items = []
    for found in re.findall(r"[^ *]+(?: \* [^ *]+)?|\*", " ".join(words)):
        backend, _, count = found.partition(" * ")
        steps = int(count or "1") if _COUNT.fullmatch(backend) and (not count or _COUNT.fullmatch(count)) else 0
        if not 1 <= steps <= MOST_STEPS:
            raise Fault("line %d: '%s' isn't 'B', 'B*COUNT' with COUNT from 1 to %d, or 'B to ..'" % (
                line, found.replace(" ", ""), MOST_STEPS))
        items.append(Item(line, found.replace(" ", ""), int(backend), Count(steps)))
    return items


def read_items(line, text):
    """The items of a line of steps: `B`, `B*COUNT`, and `B to ..`, which ends with a comma or the line."""
    items: List[Item] = []
    for part in " ".join(tokens_of(text)[1:]).rstrip(" ,").split(","):
        words = part.split()
        if "to" in words:
            named = words.index("to") - 1
            if named < 0:
                raise Fault("line %d: 'to' without a backend before it" % line)
            items += counted_items(line, words[:named]) + [named_item(line, words[named:])]
        elif words:
            items += counted_items(line, words)
        else:
            raise Fault("line %d: an item is missing in the line of steps" % line)
    return items


def check_item(item, backends, commands):
    """A fault where an item names a backend that the script hasn't, or a command that the backend hasn't."""
    if not 1 <= item.backend <= backends:
        raise Fault("line %d: '%s': the script has %s" % (item.line, item.text, counted(backends, "backend")))
    if isinstance(item.until, Answered) and not 1 <= item.until.command <= commands.get(item.backend, 0):
        raise Fault("line %d: '%s': backend %d has %s" % (
            item.line, item.text, item.backend, counted(commands.get(item.backend, 0), "command")))
