"""Where the turns of a history end, in a server: at which event a backend is held there."""
import re
from typing import Callable, Dict, List, NamedTuple, Optional, Tuple

from .points import AFTER, BEFORE

Event = Tuple
Oids = Dict[int, int]           # of relations here: which they are in the server

# Scans that the server doesn't make, as it knows that they have no rows.
_NOT_MADE = re.compile("scan (?:attrdef|constraint|index|trigger) .* rows 0$")


def event_of(text, oids: Oids) -> Event:
    """The server's event of an entry, as far as it is known before. A relation that the server hasn't made yet has a number
    that none has."""
    words = text.split()

    def oid(word):
        return oids.get(int(word), -int(word))
    if words[0] == "lock":
        return ("lock", oid(words[1]), words[2]) + ((words[3],) if words[3] == "held" else ())
    if words[0] == "unlock":
        return "unlock", oid(words[1]), words[2]
    if words[0] == "scan":
        return ("scan", words[1], words[2] if words[1] == "relname" else oid(words[2])) + (
            (words[3],) if words[1] == "attname" else ())
    if words[0] == "fetch":
        return ("fetch",) + (("reset",) if words[1] == "reset" else ())
    return ("look", words[1]) if words[0] == "look" else (words[0],)


class EventPlace:
    """Where a backend is held in a command: before or after the nth event of a kind and key, or so many looks after it."""

    def __init__(self, command, key: Callable[[], Event], nth, phase, looks=0):
        self.command, self.key, self.nth, self.phase, self.looks = command, key, nth, phase, looks
        self.seen, self.looked = 0, 0

    def text(self, shown):
        """The place in words, with events as `shown` writes them."""
        nth = ", time %d" % self.nth if self.nth > 1 else ""
        looks = " and %d looks" % self.looks if self.looks > 1 else " and a look" if self.looks else ""
        return "%s '%s'%s%s" % (self.phase, shown(self.key()), nth, looks)

    def is_met(self, command, phase, event: Event):
        """Whether an event is the place; it is met once."""
        if command != self.command or self.seen == self.nth and self.looked == self.looks:
            return False
        if self.seen == self.nth:
            self.looked += phase == AFTER and event[0] in ("look", "fetch") and event[1] != "yes"
            return self.looked == self.looks
        key = self.key()
        self.seen += phase == self.phase and event[:len(key)] == key
        return self.seen == self.nth and self.looks == 0


class Turn(NamedTuple):
    """A turn of a backend, by its own entries: the first, and the one after the last. And whether what the queue has for it is
    lost before it."""
    backend: int
    first: int
    end: int
    is_lapped: bool


class Schedule:
    """The turns of a history. One that is lapped in the midst of a turn has a turn of its own from there on."""

    def __init__(self, steps, answered):
        self.own: Dict[int, List[Tuple[int, str]]] = {}
        self.is_answered = answered         # which commands are, by backend and number
        for backend, command, text in steps:
            self.own.setdefault(backend, []).append((command, text))
        self.turns: List[Turn] = []
        made = {backend: 0 for backend in self.own}
        for backend, _, text in steps:
            at = made[backend]
            made[backend] = at + 1
            is_lapped = text == "look yes" and self.own[backend][at + 1:at + 2] == [(self.own[backend][at][0], "fetch reset")]
            if self.turns and self.turns[-1].backend == backend and not is_lapped:
                self.turns[-1] = self.turns[-1]._replace(end=at + 1)
            else:
                self.turns.append(Turn(backend, at, at + 1, is_lapped))

    def last(self, turn: Turn):
        """The command and the text of a turn's last entry."""
        return self.own[turn.backend][turn.end - 1]

    def is_reset_next(self, backend, made):
        """Whether the next messages that a backend takes after so many of its entries are a reset."""
        return next((text == "fetch reset" for _, text in self.own[backend][made:] if text.startswith("fetch ")), False)

    def answered(self, turn: Turn):
        """How many commands are answered by the end of a turn that ends between two; those without an entry are answered with the
        one before them."""
        own, (command, text) = self.own[turn.backend], self.last(turn)
        return command - 1 if text == "stop" else own[turn.end][0] - 1 if turn.end < len(own) else command

    def place(self, turn: Turn, oids: Oids) -> Optional[EventPlace]:
        """Where a turn ends; None where that is between two commands."""
        own = self.own[turn.backend]
        command, text = own[turn.end - 1]
        mine = [each for number, each in own[:turn.end] if number == command]
        rest = [each for number, each in own[turn.end:] if number == command]
        if text in ("start", "stop") or not rest and (turn.end < len(own) or (turn.backend, command) in self.is_answered):
            return None
        if text.startswith("write"):
            following = next((each for each in rest if not _NOT_MADE.match(each) and each != "look no"), None)
            if following:
                return EventPlace(command, lambda: event_of(following, oids)[:1], 1, BEFORE)
        if text == "look no" and rest and not _NOT_MADE.match(rest[0]) and not rest[0].startswith(("look", "write", "clash")):
            return before(command, mine, rest[0], oids)
        return after(command, mine, rest[0] if rest else "", oids)


def times(entries, event: Event, oids: Oids):
    """How many of these entries are such an event."""
    return sum(event_of(each, oids)[:len(event)] == event for each in entries)


def key_of(text, oids: Oids):
    """What the server's event of an entry is known by. What a lock is answered isn't part of that: before it nobody knows."""
    event = event_of(text, oids)
    return event[:3] if event[0] == "lock" else event


def before(command, mine, following, oids: Oids):
    """The place before the entry that follows these of a command."""
    def key():
        return key_of(following, oids)
    return EventPlace(command, key, 1 + times(mine, key(), oids), BEFORE)


def after(command, mine, following, oids: Oids):
    """The place after these entries of a command. Scans that the server doesn't make are passed over, and the looks for them."""
    made, looks = list(mine), 0
    while made and made[-1] == "look no":
        looks += 1
        made.pop()
    if made and _NOT_MADE.match(made[-1]) or looks and _NOT_MADE.match(following):
        looks = 0
        while made and (made[-1] == "look no" or _NOT_MADE.match(made[-1])):
            made.pop()

    def key():
        return key_of(made[-1], oids) if made else ("look",)
    return EventPlace(command, key, times(mine, key(), oids) or 1, AFTER, looks)
