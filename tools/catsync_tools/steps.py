"""The rows of a picture: one for each entry, or, in a brief picture, one for entries of a command that come right after each
other and belong together: a look and what it is for, a fetch and its looks, the scans of a descriptor."""
from typing import List, NamedTuple

from .messages import BUILD_SCANS
from .outputs import Entry


class Step(NamedTuple):
    """Entries that share a row, the one whose mark it has, and its text."""
    entries: List[Entry]
    main: Entry
    text: str

    @property
    def first(self):
        """The number of its first entry."""
        return self.entries[0].number

    @property
    def last(self):
        """The number of its last entry."""
        return self.entries[-1].number

    @property
    def is_build(self):
        """Whether it is several scans of one descriptor."""
        return builds(self.main) and sum(builds(entry) for entry in self.entries) > 1


def single(entry: Entry):
    """A row of one entry."""
    return Step([entry], entry, entry.line)


def builds(entry: Entry):
    """Whether it is a scan of a descriptor."""
    return entry.event.kind == "scan" and entry.event.parts["purpose"] in BUILD_SCANS


def is_look(entry: Entry):
    """Whether it is a look."""
    return entry.event.kind == "look"


def follow(one: Entry, other: Entry):
    """Whether an entry is of the same command as one that is right before it."""
    return (one.number + 1, one.backend, one.command) == (other.number, other.backend, other.command)


def runs_of(entries):
    """Entries of one command that come right after each other."""
    runs: List[List[Entry]] = []
    for entry in entries:
        if runs and follow(runs[-1][-1], entry):
            runs[-1].append(entry)
        else:
            runs.append([entry])
    return runs


def with_looks(run: List[Entry]):
    """The entries of a run, each with the looks that are for it: those before it, and the first one after a grant. Looks at
    the end of a run stay with the entry before them."""
    parts: List[List[Entry]] = []
    looks: List[Entry] = []
    for entry in run:
        if is_look(entry) and not looks and parts and parts[-1][-1].event.kind == "lock ok":
            parts[-1].append(entry)
        elif is_look(entry):
            looks.append(entry)
        else:
            parts.append(looks + [entry])
            looks = []
    if looks and parts:
        parts[-1] += looks
    return parts or [looks]


def main_of(part: List[Entry]):
    """The entry that a row is about: the first that isn't a look, or else the last look."""
    return next((entry for entry in part if not is_look(entry)), part[-1])


def joined(parts: List[List[Entry]]):
    """Parts, with those of one descriptor's scans together."""
    found: List[List[Entry]] = []
    for part in parts:
        main = main_of(part)
        if found and builds(main) and builds(main_of(found[-1])) and (
                main.event.parts["rel"] == main_of(found[-1]).event.parts["rel"]) and main.event.parts["purpose"] != "class":
            found[-1] = found[-1] + part
        else:
            found.append(part)
    return found


def text_of(part: List[Entry]):
    """The text of a row: its main entry's line; of several scans of a descriptor, which they are."""
    main, scans = main_of(part), [entry.event.parts["purpose"] for entry in part if builds(entry)]
    if len(scans) < 2:
        return main.line
    return "h %d %d scan %s %d" % (main.backend, main.command, ", ".join(scans), main.event.parts["rel"])


def steps_of(entries: List[Entry], brief=False):
    """The rows of entries."""
    if not brief:
        return [single(entry) for entry in entries]
    return [Step(part, main_of(part), text_of(part)) for run in runs_of(entries) for part in joined(with_looks(run))]
