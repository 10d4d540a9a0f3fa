"""What holds here as a command begins: rows, locks, and what sessions have open. By this a difference from the server is held
against the condition of the row of docs/PROFILE.md that names it."""
import re
from typing import Dict, List, NamedTuple, Set, Tuple

from .events import MODES
from .outputs import entry_of
from .rows import Rows
from .transactions import Transactions
from .waits import CONFLICTING, Locks

_WORD = re.compile("[a-z_][a-z0-9_]*")
_REGCLASS = re.compile("regclass 0*([0-9]+)")


class Moved(NamedTuple):
    """A check that follows its columns in a server, and not here: a column that its text names has gone or has another name."""
    backend: int
    command: int
    rel: int
    name: str


class Facts:
    """All that the entries so far led to. `referred` has the columns that are made unique in the server, each with its table."""

    def __init__(self, referred=frozenset()):
        self.rows, self.transactions, self.locks = Rows(), Transactions(), Locks()
        self.referred = referred
        self.unique: Set[Tuple[int, str]] = set()           # relations and numbers of columns
        self.count = 0
        self.changed: Dict[int, int] = {}                   # of relations: the entry that made their latest change visible
        self.open: Dict[int, List[int]] = {}                # of sessions
        self.blocks: Set[int] = set()                       # sessions in a block
        self.moved: List[Moved] = []
        self.asked: Dict[int, Set[str]] = {}                # of blocks: oids that were asked for before a relation had them

    def take(self, backend, command, text):
        """One more entry."""
        self.count += 1
        entry = entry_of(self.count, "h %d %d %s" % (backend, command, text))
        transaction = self.transactions.take(entry)
        kind, parts = entry.event
        self.locks.take(backend, command, entry.event)
        if kind == "write":
            for change in parts["changes"]:
                if change.sign != "!":
                    self.move(entry, *self.rows.change(entry, transaction, change))
        elif kind == "visible":
            for datum in self.rows.touched(transaction):
                if isinstance(datum[1], int):
                    self.changed[datum[1]] = self.count
            self.rows.commit(transaction)
        elif kind == "gone":
            transaction.take_back(parts["from"])
            self.rows.take_back(transaction, parts["from"])
            self.moved = [each for each in self.moved if each.backend != backend or each.command < parts["from"]]

    def move(self, entry, old, new):
        """A row is changed: a column that goes, or gets another name, moves the checks that name it; and a column is made
        unique in the server where a foreign key of the script refers to it."""
        if new is not None and new.catalog == "att" and old is None:
            rel = int(new.columns[0])
            for row in self.rows.answer(entry.backend, ("class", rel)):
                self.unique |= {(rel, new.columns[1])} if (row.columns[1], new.columns[2]) in self.referred else set()
        if old is not None and new is None and old.catalog == "con":
            self.moved = [each for each in self.moved if (each.rel, each.name) != (int(old.columns[1]), old.columns[2])]
        if old is not None and new is not None and old.catalog == "att" and old.columns[2] != new.columns[2]:
            rel = int(old.columns[0])
            self.moved += [Moved(entry.backend, entry.command, rel, row.columns[2]) for row in self.constraints(entry.backend, rel)
                           if row.columns[3] == "c" and old.columns[2] in _WORD.findall(row.columns[5])]

    def end(self, backend, text, answer):
        """A command has ended with this answer."""
        opened = re.fullmatch("(open|close) (%s)" % _WORD.pattern, text)
        if text == "begin":
            self.blocks.add(backend)
        elif text in ("commit", "rollback"):
            self.blocks.discard(backend)
            self.open.pop(backend, None)
            self.asked.pop(backend, None)
        elif opened and opened.group(1) == "open" and answer == "ok":
            self.open.setdefault(backend, []).append(self.named(backend, opened.group(2)))
        asked = _REGCLASS.fullmatch(text)
        if asked and backend in self.blocks and " none" in answer:
            self.asked.setdefault(backend, set()).add(asked.group(1))

    # Questions

    def named(self, backend, name):
        """The oid of the relation that a session finds by a name, or None."""
        return self.rows.named(backend, name)

    def kind(self, backend, name):
        """`r` of a table, `i` of an index, nothing where there is none."""
        rows = self.rows.answer(backend, ("relname", name))
        return rows[0].columns[2] if rows else ""

    def constraints(self, backend, rel):
        """The constraints of a table, and those that refer to it."""
        return self.rows.answer(backend, ("constraint", rel))

    def columns(self, backend, rel):
        """The live columns of a table by their names."""
        return {row.columns[2]: row.columns for row in self.rows.answer(backend, ("attribute", rel)) if row.columns[5] == "l"}

    def table_of(self, backend, index):
        """The table of an index, or None."""
        rows = self.rows.answer(backend, ("indexrow", index))
        return int(rows[0].columns[1]) if rows else None

    def indexes(self, backend, rel):
        """The rows of a table's indexes."""
        return self.rows.answer(backend, ("index", rel))

    def refers_to(self, backend, rel):
        """The tables that a table's foreign keys refer to."""
        return {int(row.columns[6]) for row in self.constraints(backend, rel) if row.columns[3] == "f" and int(row.columns[1]) == rel}

    def is_referred(self, backend, rel):
        """Whether another table's foreign key refers to a table."""
        return any(row.columns[3] == "f" and int(row.columns[6]) == rel != int(row.columns[1])
                   for row in self.constraints(backend, rel))

    def is_open(self, backend, rel):
        """Whether a session has a relation open."""
        return rel in self.open.get(backend, ())

    def is_locked(self, backend, rel, mode):
        """Whether another's lock is in the way of a mode."""
        return any(lock.rel == rel and lock.backend != backend and lock.mode in CONFLICTING[mode] for lock in self.locks.held)

    def is_held(self, backend, rel):
        """Whether another holds any lock of a relation."""
        return self.is_locked(backend, rel, MODES[-1])

    def in_use(self, backend, name):
        """Whether another session's running transaction has taken a name from a relation or written it anew under it; who comes to
        such a name is told at once in a server that it's there."""
        return any(row.columns[1] == name for other in self.transactions.running if other != backend
                   for version in self.rows.ended.get(self.transactions.running[other], ()) for row in [version.row]
                   if row.catalog == "class")

    def is_asked_early(self, backend, text):
        """Whether a command asks for an oid that its block has asked for before a relation had it: the server was asked for one that
        none gets."""
        asked = _REGCLASS.fullmatch(text)
        return asked is not None and asked.group(1) in self.asked.get(backend, ())

    def moved_checks(self, rel):
        """The names of a table's checks that follow their columns in the server."""
        return {each.name for each in self.moved if each.rel == rel}
