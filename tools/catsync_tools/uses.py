"""Which commands open a relation's descriptor, and by which entry they had found the relation: so it can be told where a
descriptor, or a name, serves a command that makes no scan for it.

An answer tells that its command opened a descriptor: one that shows fields, and an error of a column or of another part of
the relation; but not where the command scans for a list of columns, as `columns` does, or where a column is missing under the
lock that `column` asks for. What is built anew in its place, since it is in use, isn't found by a command. One that writes has
opened the descriptor of the relation that it changes, and looked up the columns. What it locks or looks up besides (a table
that a foreign key refers to, the indexes of a table that is dropped, the table of an index) it doesn't open. A command without
an answer and without a write (`lock table`, or one that the history doesn't finish) isn't said to open any.
"""
import re
from bisect import bisect_left, bisect_right
from typing import Dict, List, Optional

from .caches import Kept, Served, served_by
from .rows import key_of

SHOWN = re.compile(r"(?:table|index) ([0-9]+);")
FIELDS = ("name", "columns", "defaults", "statistics", "fillfactor", "constraints", "referenced", "indexes", "triggers",
          "of", "valid")
ERRORS_INSIDE = ("22023", "0A000", "2BP01", "42701", "42703", "42704", "42710", "54011")
ABSENT = re.compile(r"error [0-9A-Z]+ .* does not exist as of ([0-9]+)")
OF_OID = re.compile(r"regclass .* as of ([0-9]+)")
READ_AT = re.compile(r" as of ([0-9]+)")
NO_COLUMN = re.compile(r"error 42703 column (\S+) does not exist")
PASSED = ("start", "look", "fetch", "fetch reset", "unlock")
NUMBER, NAME, TYPE, LIVE = 1, 2, 3, 5       # of a row of pg_attribute
RELATION = {"class": 0, "att": 0, "def": 1, "ind": 1, "con": 1, "trg": 1}      # where a row says which relation it belongs to


def opens(answer):
    """Whether an answer tells that its command opened a descriptor."""
    words = answer.text.split(" ")
    if words[0] == "error":
        return words[1] in ERRORS_INSIDE and not ABSENT.fullmatch(answer.text)
    return words[0] in FIELDS or bool(SHOWN.match(answer.text))


def changed_by(event):
    """The relation that a write changes, by the last row in it; None where the write itself makes that."""
    changes = event.parts["changes"]
    new = {change.columns[0] for change in changes if change.catalog == "class" and change.sign == "+"}
    last = [change for change in changes if change.sign != "!"][-1]
    if last.sign == "-" and last.catalog not in ("class", "att"):
        forced = [change.columns[0] for change in changes if change.sign == "!"]
        return int(forced[0]) if forced else None
    rel = last.columns[RELATION[last.catalog]]
    return None if rel in new else int(rel)


def columns_of(change):
    """The columns that a new row names by their numbers: each with its relation."""
    columns = change.columns
    if change.sign != "+" or change.catalog not in ("def", "ind", "con"):
        return []
    if change.catalog == "con":
        return [(columns[1], columns[5]), (columns[6], columns[7])] if columns[3] == "f" else []
    return [(columns[1], number) for number in columns[2 if change.catalog == "def" else 3].split("+")]


def columns_by(rows, part):
    """The live columns among rows of pg_attribute, by their names or their numbers."""
    rows = sorted(rows, key=lambda row: int(row.columns[part]) if part == NUMBER else row.columns[part])
    return ["%s:%s" % (row.columns[NAME], row.columns[TYPE]) for row in rows if row.columns[LIVE] == "l"]


def note(kept: Kept, facts, command):
    """What is kept serves a command by what its backend had at an entry."""
    kept.serves.append(Served(facts.entry.number, command))
    facts.serves = [*facts.serves, kept]


class Course:
    """How far a command is: the relation that it has found, whether by a scan for a name, and whether it has gone on; and the
    facts of its backend's last entry before it, if there is one."""

    def __init__(self, command, before=None):
        self.command, self.before = command, before
        self.rel: Optional[int] = None
        self.locked: Optional[int] = None       # the relation that it has locked first
        self.by_scan = self.is_over = False

    def goes_further(self, model, event, changed):
        """Whether a command goes on to another relation than its own, which is the one that it will change, if it will, or else
        the first that it has locked."""
        (kind, parts), own = event, self.locked if changed is None else changed
        if own is None or kind == "unlock":
            return False
        if kind in ("lock ok", "lock held"):
            return parts["rel"] != own
        return kind == "scan" and parts["purpose"] == "relname" and own not in model.names.rels.get(parts["name"], ())


class Uses:
    """Where the running commands are, and what serves them."""

    def __init__(self, output):
        self.opening = {(answer.backend, answer.command) for answer in output.answers if opens(answer)}
        self.changed = {(entry.backend, entry.command): changed_by(entry.event) for entry in output.entries
                        if entry.event.kind == "write"}
        self.opening |= {place for place, rel in self.changed.items() if rel is not None}
        self.shown: Dict[tuple, int] = {}
        self.scanned: Dict[tuple, int] = {}
        self.missing: Dict[tuple, str] = {}
        for answer in output.answers:
            place = (answer.backend, answer.command)
            for pattern, numbers in ((SHOWN, self.shown), (ABSENT, self.scanned), (OF_OID, self.scanned)):
                found = pattern.match(answer.text)
                if found:
                    numbers[place] = int(found.group(1))
            read, no_column = READ_AT.search(answer.text), NO_COLUMN.fullmatch(answer.text)
            if read and answer.text.split(" ")[0] in FIELDS and int(read.group(1)) <= len(output.entries):
                self.shown[place] = output.entries[int(read.group(1)) - 1].event.parts.get("rel")
            if no_column:
                self.missing[place] = no_column.group(1)
        self.columns = {(answer.backend, answer.command): answer.text.split(" ") for answer in output.answers
                        if re.match("columns? ", answer.text)}
        self.answered: Dict[int, List[int]] = {}
        for backend, command in sorted({(answer.backend, answer.command) for answer in output.answers}):
            self.answered.setdefault(backend, []).append(command)
        self.courses: Dict[int, Course] = {}

    def may_build(self, entry):
        """Whether the command of an entry may build a descriptor for itself: where it opened one, or has no answer."""
        return (entry.backend, entry.command) in self.opening or entry.command not in self.answered.get(entry.backend, ())

    def take(self, model, facts, last):
        """One more entry, before it counts, with the facts of its backend's last one."""
        entry = facts.entry
        course = self.courses.get(entry.backend)
        if course is None or course.command != entry.command:
            self.finish(model, entry.backend, last, entry.command)
            course = self.courses[entry.backend] = Course(entry.command, last)
        (kind, parts), place = entry.event, (entry.backend, entry.command)
        if course.goes_further(model, entry.event, self.changed.get(place)):
            if not course.is_over and course.rel is not None:
                course.is_over = True
                self.go_on(model, course, entry, last)
        elif kind == "scan" and parts["purpose"] == "relname":
            course.rel, course.by_scan = model.rows.named(entry.backend, parts["name"]), True
            course.is_over = False
        elif kind == "unlock":
            course.locked = None
        elif kind in ("lock ok", "lock held"):
            course.locked = course.locked or parts["rel"]
            course.rel = parts["rel"]
            if parts["mode"] == "as" and place in self.missing:
                self.opening.discard(place)
            if not course.by_scan:
                self.serve(model, course, facts, names=True)
        elif kind not in PASSED and not course.is_over and not model.caches.rebuilds(entry):
            course.is_over = True
            self.go_on(model, course, entry, last)
        if kind == "write":
            self.serve_changed(model, course, place, last)
            self.serve_written(model, entry, last)

    def go_on(self, model, course, entry, last):
        """A command has found its relation, and makes this entry; what serves it by the entry before. One that asked for no
        lock found the relation before its first entry."""
        kind, parts = entry.event
        if kind == "scan":
            if parts["purpose"] == "attlist":
                self.opening.discard((entry.backend, entry.command))
            if course.rel is None and course.before and parts["purpose"] != "reloid":
                course.rel = parts["rel"]
                self.serve(model, course, course.before, names=True)
        if self.opened(model, (entry.backend, entry.command)):
            self.serve(model, course, last)

    def serve_changed(self, model, course, place, last):
        """A write changes a relation of which its command has asked for no lock."""
        if self.changed[place] not in (None, course.rel):
            course.rel, course.by_scan, course.is_over = self.changed[place], False, True
            self.serve(model, course, last)

    def serve_written(self, model, entry, last):
        """A write changes columns by names that its command looked up, in entries of earlier commands; or has rows that name
        columns."""
        scans = model.caches.cache(entry.backend).scans
        for rel, number in dict.fromkeys(pair for change in entry.event.parts["changes"] for pair in columns_of(change)):
            for row in model.rows.answer(entry.backend, ("attribute", int(rel))):
                scanned = scans.get(("attname", int(rel), row.columns[NAME])) if row.columns[NUMBER] == number else None
                if scanned and scanned.kept.command != entry.command:
                    note(scanned.kept, last, entry.command)
        for change in (change for change in entry.event.parts["changes"] if change.catalog == "att" and change.sign in "+="):
            old = model.rows.seen(model.rows.by_key.get(key_of("att", change.columns), ()), entry.backend)
            for name in dict.fromkeys([version.row.columns[NAME] for version in old] + [change.columns[NAME]]):
                scanned = scans.get(("attname", int(change.columns[0]), name))
                if scanned and scanned.kept.command != entry.command:
                    note(scanned.kept, last, entry.command)

    def finish(self, model, backend, last, command):
        """The backend's commands below one are finished, with its last entry or without any."""
        course = self.courses.get(backend)
        for number in self.finished(backend, course.command, command) if course else ():
            own = course if number == course.command else Course(number)
            place = (backend, number)
            if own.rel is None:
                own.rel = self.shown.get(place)
            if not own.is_over and self.opened(model, place):
                self.serve(model, own, last)
            self.serve_by_place(model, place, last)
            self.serve_columns(model, place, last)
            self.serve_missing(model, own, place, last)

    def finished(self, backend, first, command):
        """A command of a backend, and the later ones below another that have an answer; those between that have neither an
        entry nor an answer are nowhere."""
        answered = self.answered.get(backend, [])
        return [first] * (first < command) + answered[bisect_right(answered, first):bisect_left(answered, command)]

    def finish_all(self, model):
        """The history is over."""
        for backend, facts in model.last.items():
            self.finish(model, backend, facts, self.answered.get(backend, [0])[-1] + 1)

    def serve(self, model, course, facts, names=False):
        """What is kept serves a command by what it had at an entry: a descriptor, or a name alone."""
        if course.rel is None:
            return
        descriptor, name = served_by(model.caches.cache(facts.entry.backend), course.rel, course.command)
        for kept in (name if not course.by_scan else None, None if names else descriptor):
            if kept and all(served.command != course.command for served in kept.serves):
                note(kept, facts, course.command)

    def opened(self, model, place):
        """Whether a command opened a descriptor; one that shows a list by name, which isn't by number, didn't."""
        return place in self.opening and not self.lists(model, place)

    def lists(self, model, place):
        """What its backend keeps of lists that an answer shows, and no descriptor would, since that has columns by number."""
        words = self.columns.get(place, [""])
        if words[0] != "columns":
            return []
        return [scanned.kept for datum, scanned in model.caches.cache(place[0]).scans.items() if datum[0] == "attlist"
                and words[1:] == columns_by(scanned.rows, NAME) != columns_by(scanned.rows, NUMBER)]

    def serve_columns(self, model, place, facts):
        """An answer shows columns or a column, and the only list or entry that can have it is of an earlier command."""
        words = self.columns.get(place)
        if not words:
            return
        cache = model.caches.cache(place[0])
        if words[0] == "columns":
            found = self.lists(model, place) or [scanned.kept for datum, scanned in cache.scans.items()
                                                 if datum[0] == "attlist" and datum[1] not in cache.descriptors]
        else:
            found = [scanned.kept for datum, scanned in cache.scans.items() if datum[0] == "attname"
                     and [(row.columns[NUMBER], row.columns[TYPE]) for row in scanned.rows] == [tuple(words[1:])]]
        if len(found) == 1 and found[0].command != place[1]:
            note(found[0], facts, place[1])

    def serve_missing(self, model, course, place, facts):
        """A column is missing by an entry of an earlier command, where only one can be meant."""
        if place not in self.missing:
            return
        found = [scanned.kept for datum, scanned in model.caches.cache(place[0]).scans.items()
                 if datum[0] == "attname" and datum[2] == self.missing[place] and not scanned.rows
                 and course.rel in (None, datum[1])]
        if len(found) == 1 and found[0].command != place[1]:
            note(found[0], facts, place[1])

    def serve_by_place(self, model, place, facts):
        """A name is absent, or an oid has a name, as of a scan of an earlier command."""
        scanned = self.scanned.get(place)
        kept = next((kept for kept in model.caches.all if kept.first == scanned), None) if scanned else None
        if kept and kept.command != place[1]:
            note(kept, facts, place[1])
