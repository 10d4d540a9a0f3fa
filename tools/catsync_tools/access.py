"""What a step reads and changes of what the backends share: steps of two backends that don't meet there can be swapped.

An access is a resource and a role. Two accesses meet where they are of one resource and their roles are named together
in MEET: then the order of the two steps may matter. Everything here is decided by what the backend does and by its own
steps before, never by how the step comes out: a lock that is asked for is one access, granted or refused.

| resource          | role              | of                                          |
|-------------------|-------------------|---------------------------------------------|
| the log           | publish           | publish                                     |
|                   | follow            | start, look, fetch, stop                    |
| a relation's locks| lock              | lock (granted or refused), unlock           |
|                   | release           | release, of the relations whose locks it ends |
| the names         | write             | write and clash, which draw Xids and oids and test names |
|                   | outcome           | visible, gone                               |
| rows              | scan              | scan, of the rows that it asks for          |
|                   | commit            | visible, of the rows that its transaction wrote |

Two looks don't meet, nor two releases, nor two commits; two publishes do, and two requests for one relation's locks (of
several holders the first is named). Rows are told apart by the relation that they belong to, and pg_class for lookups
by the name. Of a change that doesn't say them (a row that was deleted, a name that was replaced) all are meant.
"""
from typing import Dict, FrozenSet, List, NamedTuple, Tuple

from .events import read_event
from .faults import Fault

MEET = {
    "publish": ("publish", "follow"), "follow": ("publish",),
    "lock": ("lock", "release"), "release": ("lock",),
    "write": ("write", "outcome"), "outcome": ("write",),
    "scan": ("commit",), "commit": ("scan",),
    "step": ("step",),
}
LOG, NAMES, ALL_STEPS = ("log",), ("names",), ("steps",)
ANY_NAME, ANY_REL = ("name",), ("rel",)

# Where a catalog's row says the relations that it belongs to.
RELATIONS = {"class": (0,), "att": (0,), "def": (1,), "ind": (0, 1), "con": (1,), "trg": (1,)}
REFERRED = 6            # in the row of a foreign key


# The roles in which a step reads its resource, and those in which it may change it.
READ = ("follow", "lock", "write", "scan")
CHANGE = ("publish", "lock", "release", "write", "outcome", "commit")


class Access(NamedTuple):
    """What a step does, and what it meets; and the resources that it reads, and that it may change."""
    does: FrozenSet[tuple]
    meets: FrozenSet[tuple]
    reads: Tuple[tuple, ...] = ()
    changes: Tuple[tuple, ...] = ()

    def meets_one_of(self, other):
        """Whether the order of two steps may matter."""
        return not self.does.isdisjoint(other.meets)


def access_of(pairs):
    """The access of resources with roles."""
    return Access(frozenset(pairs), frozenset((resource, role) for resource, own in pairs for role in MEET[own]),
                  tuple(resource for resource, own in pairs if own in READ),
                  tuple(resource for resource, own in pairs if own in CHANGE))


def created(event):
    """The relations that a write creates, and locks."""
    return [int(change.columns[0]) for change in event.parts.get("changes", ())
            if change.catalog == "class" and change.sign == "+"]


def rows_of(change):
    """The resources of the rows that a change of a write touches."""
    if change.sign == "!":
        return []
    columns, catalog = change.columns, change.catalog
    if change.sign == "-" and catalog not in ("class", "att"):
        return [ANY_REL]
    places = list(RELATIONS[catalog])
    if catalog == "con" and columns[3] == "f":
        places.append(REFERRED)
    rows = [("rel", int(columns[place])) for place in places]
    if catalog == "class":
        rows.append(("name", columns[1]) if change.sign == "+" else ANY_NAME)
    return rows


def scanned(parts):
    """The resources of the rows that a scan asks for."""
    if parts["purpose"] == "relname":
        return [("name", parts["name"]), ANY_NAME]
    return [("rel", parts["rel"]), ANY_REL]


class Own:
    """What a backend's own steps came to so far: the relations that it has locked and the rows that its transaction has
    written, each with the number of the command."""

    def __init__(self):
        self.locks: List[Tuple[int, tuple]] = []
        self.rows: List[Tuple[int, tuple]] = []

    def lock(self, command, rel):
        """A lock is granted."""
        self.locks.append((command, ("locks", rel)))

    def write(self, command, event):
        """Rows are changed, and new relations locked."""
        self.rows += [(command, row) for change in event.parts["changes"] for row in rows_of(change)]
        for rel in created(event):
            self.lock(command, rel)

    def release(self, first):
        """The relations of which locks are released."""
        released = {rel for command, rel in self.locks if command >= first}
        self.locks = [lock for lock in self.locks if lock[0] < first]
        return released

    def take_back(self, first):
        """What was written in commands of this number and above is rolled back."""
        self.rows = [row for row in self.rows if row[0] < first]

    def commit(self):
        """The rows that the transaction has written; it writes none after that."""
        rows = {row for _, row in self.rows}
        self.rows = []
        return rows


class Accesses:
    """Tells the accesses of a history's steps, one after the other. The past are the steps that were made before all of
    these; with `every_order` no two steps can be swapped."""

    def __init__(self, every_order=False, past=()):
        self.own: Dict[int, Own] = {}
        self.past = past
        self.shared = [(ALL_STEPS, "step")] if every_order else []
        self.known: Dict[tuple, Access] = {}

    def start(self):
        """A history begins, after the past."""
        self.own = {}
        for step in self.past:
            self.of(step)

    def of(self, step):
        """The access of the next step."""
        backend, command, text = step
        event = read_event(text)
        if event is None or event.kind == "fail":
            raise Fault("a step that can't be explored: %s" % text)
        own = self.own.setdefault(backend, Own())
        pairs = tuple(self.shared + pairs_of(event, command, own))
        if pairs not in self.known:
            self.known[pairs] = access_of(pairs)
        return self.known[pairs]


def pairs_of(event, command, own):
    """The resources and roles of an event of a backend with this past, which the event is added to."""
    kind, parts = event
    if kind == "publish":
        return [(LOG, "publish")]
    if kind in ("start", "look", "fetch", "fetch reset", "stop"):
        return [(LOG, "follow")]
    if kind == "scan":
        return [(row, "scan") for row in scanned(parts)]
    if kind in ("lock ok", "lock held", "unlock", "release"):
        return lock_pairs(event, command, own)
    return write_pairs(event, command, own)


def lock_pairs(event, command, own):
    """The same of events about locks."""
    kind, parts = event
    if kind == "release":
        return [(rel, "release") for rel in sorted(own.release(parts["from"]))]
    if kind == "lock ok":
        own.lock(command, parts["rel"])
    return [(("locks", parts["rel"]), "lock")]


def write_pairs(event, command, own):
    """The same of events about writes and what becomes of them."""
    kind, parts = event
    if kind == "visible":
        return [(NAMES, "outcome")] + [(row, "commit") for row in sorted(own.commit(), key=str)]
    if kind == "gone":
        own.take_back(parts["from"])
        return [(NAMES, "outcome")]
    if kind == "write":
        own.write(command, event)
    return [(NAMES, "write")]
