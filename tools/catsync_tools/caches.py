"""What backends keep of their scans: descriptors, and entries and lists of the catalog caches.

A backend keeps a scan from when it is made until a message that covers it reaches the backend: one that it fetches, a reset
in place of those that it has lost, one of its own write, or one of a write that it takes back. A descriptor is kept with its
scans; every other scan is an entry or a list of a catalog cache, also one that gave no row. In between it gets out of date
where another's transaction becomes visible that changes what the scan would give.

A descriptor in use, by `open` or by the running command, is built anew in its place by the command that was told that it is
stale; or, where that was by a rollback, after the `release` of the `rollback to`. The entries don't say what is in use. It is
told by this: the command has made nothing but looks, fetches and builds since it was told; and it had built the descriptor
itself, or builds none for itself, or has not found the relation as its own, which is the first one that it locks or finds by
name. After its write or its `release` a command builds only what is in use.
"""
from typing import Dict, List, NamedTuple, Optional, Set, Tuple

from .events import Event
from .messages import BUILD_SCANS, Datum, Row, Target, covered_by, target_of

RUNNING, FINISHED, STARTED_OVER, CUT_OFF = "still running", "finished", "started over", "cut off"
FETCHED, RESET, OWN_WRITE, TAKEN_BACK, FAILED, READ_AGAIN, LEFT = (
    "a message", "a reset", "an own write", "an own write taken back", "want of memory", "a further scan", "the stop")
LAST_SCANS = ("trigger", "indexrow")
ACCEPTING = ("look", "fetch", "fetch reset")


class Served(NamedTuple):
    """A command that needed no scan, and the entry by which it had what it needed."""
    entry: int
    command: int


class Read(NamedTuple):
    """What a scan gave at an entry, or would have given from there on."""
    entry: int
    datum: Datum
    rows: List[Row]


class Kept:
    """What a backend keeps: a descriptor, or, with its scan, an entry or a list of a catalog cache. It is built from its
    first scan to its last, and then kept until its end."""

    def __init__(self, entry, datum: Datum, rel, name, is_absent=False):
        self.backend, self.command, self.first = entry.backend, entry.command, entry.number
        self.datum: Optional[Datum] = None if datum[0] in BUILD_SCANS else datum
        self.rel, self.name, self.is_absent = rel, name, is_absent
        self.built: Optional[int] = None
        self.outcome = RUNNING
        self.outdated: Optional[int] = None
        self.outdated_by: object = None
        self.last: Optional[int] = None
        self.cause = ""
        self.replaced: Optional["Kept"] = None      # by a descriptor in use: the whole one before it
        self.serves: List[Served] = []
        self.read: List[Read] = []                  # by its scans
        self.true: List[Read] = []                  # what these would give since others changed it, each time that it changes

    def now(self, datum: Datum) -> List[Row]:
        """What one of its scans would give now, as far as that is noted."""
        return next(read.rows for read in self.true[::-1] + self.read[::-1] if read.datum == datum)

    @property
    def is_descriptor(self):
        """Whether it is a descriptor."""
        return self.datum is None

    def finish(self, number):
        """Its last scan is made."""
        self.built, self.outcome = number, FINISHED

    def end(self, number, cause):
        """It is kept no more. One that is being built starts over for a message or a reset, and is cut off by all else."""
        if self.built is None:
            self.outcome = STARTED_OVER if cause in (FETCHED, RESET) else CUT_OFF
        self.last, self.cause = number, cause


class Scanned(NamedTuple):
    """A scan that a backend keeps, and what is made of it."""
    rows: List[Row]
    kept: Kept


def datum_of(event: Event) -> Datum:
    """The purpose and the key of a scan."""
    parts = event.parts
    return (parts["purpose"],) + tuple(parts[key] for key in ("rel", "name") if key in parts)


def told(datum: Datum, rows: List[Row]):
    """What messages tell of the rows of a scan: all, but whether another relation's foreign key is validated, which nothing
    that is made of the scan shows."""
    others = datum[0] == "constraint"
    return sorted(row.columns[:4] + row.columns[5:] if others and row.columns[1] != str(datum[1]) else row.columns
                  for row in rows)


class Cache:
    """What one backend keeps."""

    def __init__(self):
        self.scans: Dict[Datum, Scanned] = {}
        self.by_target: Dict[Target, Set[Datum]] = {}
        self.descriptors: Dict[int, Kept] = {}
        self.command, self.may_build = 0, False
        self.found: Set[int] = set()                # relations that the command may build a descriptor of for itself
        self.named: Set[int] = set()                # those that it has found by a scan for a name
        self.in_use: Dict[int, Kept] = {}           # descriptors in use that are to be built anew
        self.whole: Dict[int, Kept] = {}            # of each relation the last one that was whole, and isn't kept

    def begin(self, entry, may_build):
        """One more entry of the backend, before it counts, and whether its command may build a descriptor for itself. One
        that doesn't seem to may be an `open`, which locks its relation in AccessShare where it hasn't done so before."""
        (kind, parts), is_other = entry.event, entry.command != self.command
        if is_other:
            self.command, self.found, self.named = entry.command, set(), set()
        if is_other or kind not in ACCEPTING and parts.get("purpose") not in BUILD_SCANS:
            self.in_use = dict(self.whole) if kind == "release" else {}
        self.may_build = may_build
        if kind == "lock ok" and not self.found and (may_build or parts["mode"] == "as"):
            self.found = {parts["rel"]}
        if kind == "unlock" and parts["rel"] in self.found:
            self.found = set(self.named)

    def note_found(self, rels):
        """The command finds relations by a name."""
        self.named = set(rels)
        self.found = self.found or set(self.named)

    def note_in_use(self, kept, cause):
        """A descriptor is stale; whether it is in use, where that is by a fetch, a reset or the command's own write."""
        whole = kept if kept.built else kept.replaced
        if not kept.is_descriptor or whole is None:
            return
        self.whole[kept.rel] = whole
        is_own = kept.built is not None and kept.command != self.command and kept.rel in self.found
        if cause == OWN_WRITE or cause in (FETCHED, RESET) and not is_own:
            self.in_use[kept.rel] = whole

    def keep(self, datum, scanned):
        """A scan is kept from now on."""
        self.scans[datum] = scanned
        self.by_target.setdefault(target_of(datum), set()).add(datum)

    def forget(self, datum):
        """A scan is kept no more; what was made of it, where that still stood."""
        kept = self.scans.pop(datum).kept
        self.by_target[target_of(datum)].discard(datum)
        if kept.is_descriptor and self.descriptors.get(kept.rel) is kept:
            del self.descriptors[kept.rel]
        return kept

    def covered(self, targets):
        """The scans that messages of some targets cover."""
        return [datum for target in targets for wider in covered_by(target) for datum in sorted(self.by_target.get(wider, ()))]

    def name_of(self, rel):
        """What is kept of a relation's name, or None."""
        return next((scanned.kept for datum, scanned in self.scans.items() if datum[0] == "relname"
                     and any(int(row.columns[0]) == rel for row in scanned.rows)), None)


class Caches:
    """What all backends keep, and have kept."""

    def __init__(self):
        self.all: List[Kept] = []
        self.of: Dict[int, Cache] = {}

    def cache(self, backend) -> Cache:
        """What a backend keeps."""
        return self.of.setdefault(backend, Cache())

    def scan(self, entry, rows: List[Row], name):
        """A scan is made; what it is part of."""
        cache, datum = self.cache(entry.backend), datum_of(entry.event)
        kept = self.part_of(cache, entry, datum, rows, name)
        cache.keep(datum, Scanned(rows, kept))
        kept.read.append(Read(entry.number, datum, rows))
        if not kept.is_descriptor or datum[0] in LAST_SCANS:
            kept.finish(entry.number)
        if datum[0] == "relname" and cache.may_build:
            cache.note_found(int(row.columns[0]) for row in rows)
        return kept

    def part_of(self, cache: Cache, entry, datum, rows, name):
        """What a scan is part of: the descriptor that is being built, or something new."""
        rel = entry.event.parts.get("rel")
        kept = cache.descriptors.get(rel) if datum[0] in BUILD_SCANS else None
        if kept and kept.built is None and datum not in cache.scans:
            return kept
        if kept or datum in cache.scans:
            self.end(entry, kept or cache.scans[datum].kept, READ_AGAIN)
        kept = Kept(entry, datum, rel, name, not rows and datum[0] != "attlist")
        self.all.append(kept)
        if kept.is_descriptor:
            cache.descriptors[rel] = kept
            kept.replaced = cache.in_use.pop(rel, None)
        return kept

    def rebuilds(self, entry):
        """Whether a scan, before it counts, is one of a descriptor in use, which is built anew in its place."""
        cache, rel = self.cache(entry.backend), entry.event.parts.get("rel")
        if entry.event.parts.get("purpose") not in BUILD_SCANS:
            return False
        kept = cache.descriptors.get(rel)
        return rel in cache.in_use or bool(kept and kept.replaced and not kept.built)

    def suspended(self, entry):
        """The backend's builds that are on their way, and wait while another relation's descriptor is built."""
        rel = entry.event.parts.get("rel")
        return [kept for kept in self.cache(entry.backend).descriptors.values() if not kept.built and kept.rel != rel]

    def end(self, entry, kept: Kept, cause):
        """The backend keeps this no more."""
        cache = self.cache(kept.backend)
        for datum in [datum for datum, scanned in cache.scans.items() if scanned.kept is kept]:
            cache.forget(datum)
        kept.end(entry.number, cause)

    def drop(self, entry, data, cause):
        """The backend keeps some scans no more; what ends with them, in order."""
        cache, ended = self.cache(entry.backend), []
        for datum in data:
            kept = cache.forget(datum) if datum in cache.scans else None
            if kept and kept not in ended:
                ended.append(kept)
        for kept in ended:
            self.end(entry, kept, cause)
            cache.note_in_use(kept, cause)
        return sorted(ended, key=lambda kept: kept.first)

    def process(self, entry, messages, cause):
        """Messages reach the backend; what is stale by them."""
        targets = dict.fromkeys(message.target for message in messages)
        return self.drop(entry, self.cache(entry.backend).covered(targets), cause)

    def clear(self, entry, cause):
        """The backend keeps nothing more; what it kept."""
        return self.drop(entry, list(self.cache(entry.backend).scans), cause)

    def cut(self, entry):
        """Builds end that an earlier command of the backend left, or that it gives up with this entry."""
        is_over = entry.event.kind in ("fail", "gone", "release", "stop")
        for kept in list(self.cache(entry.backend).descriptors.values()):
            if kept.built is None and (is_over or kept.command != entry.command):
                self.end(entry, kept, CUT_OFF)

    def outdate(self, entry, data: Set[Datum], rows):
        """A transaction of this backend is visible, which changed the rows of some scans; what is out of date by it."""
        found: List[Kept] = []
        for backend, cache in self.of.items():
            for datum in sorted(data.intersection(cache.scans)) if backend != entry.backend else ():
                scanned, now = cache.scans[datum], rows.answer(backend, datum)
                if told(datum, now) != told(datum, scanned.kept.now(datum)):
                    scanned.kept.true.append(Read(entry.number, datum, now))
                is_new = scanned.kept.outdated is None and scanned.kept not in found
                if is_new and told(datum, now) != told(datum, scanned.rows):
                    found.append(scanned.kept)
        for kept in found:
            kept.outdated = entry.number
        return found


def served_by(cache: Cache, rel, command) -> Tuple[Optional[Kept], Optional[Kept]]:
    """The descriptor of a relation, and its name, as far as a backend keeps them of earlier commands."""
    descriptor = cache.descriptors.get(rel)
    name = cache.name_of(rel)
    return (descriptor if descriptor and descriptor.built and descriptor.command != command else None,
            name if name and name.command != command else None)
