"""The catalogs' rows as each backend sees them: what is committed, and what its own running transaction wrote."""
from typing import Dict, List, Optional

from .events import KEYS, Change
from .messages import Datum, Row


def row_of(change: Change) -> Optional[Row]:
    """The row that a change adds, or puts in the place of one; of another change none."""
    return Row(change.catalog, change.columns) if change.sign in "+=" else None


def key_of(catalog, columns):
    """What tells a catalog's rows apart."""
    return (catalog,) + columns[:KEYS[catalog]]


def data_of(row: Row) -> List[Datum]:
    """The scans that can give a row."""
    columns = row.columns
    if row.catalog == "class":
        oid = int(columns[0])
        return [("relname", columns[1]), ("reloid", oid), ("class", oid)]
    if row.catalog == "att":
        rel = int(columns[0])
        return [("attname", rel, columns[2]), ("attlist", rel), ("attribute", rel)]
    if row.catalog == "ind":
        return [("index", int(columns[1])), ("indexrow", int(columns[0]))]
    if row.catalog == "con" and columns[3] == "f" and columns[1] != columns[6]:
        return [("constraint", int(columns[1])), ("constraint", int(columns[6]))]
    return [({"def": "attrdef", "con": "constraint", "trg": "trigger"}[row.catalog], int(columns[1]))]


class Version:
    """A row that a transaction wrote in a command, and who has replaced or deleted it: transactions and their commands."""

    def __init__(self, row, entry, transaction):
        self.row, self.entry, self.command, self.transaction = row, entry.number, entry.command, transaction
        self.ends: List[tuple] = []


def counts_for(transaction, backend):
    """Whether a backend sees what a transaction did: it is committed, or the backend's own and still running."""
    return transaction.visible is not None or (transaction.backend == backend and transaction.last is None)


class Rows:
    """All versions that somebody may see yet."""

    def __init__(self):
        self.by_key: Dict[tuple, List[Version]] = {}
        self.by_datum: Dict[Datum, List[Version]] = {}
        self.written: Dict[object, List[Version]] = {}
        self.ended: Dict[object, List[Version]] = {}

    def seen(self, versions, backend):
        """Those of some versions that a backend sees."""
        return [version for version in versions if counts_for(version.transaction, backend)
                and not any(counts_for(transaction, backend) for transaction, _ in version.ends)]

    def answer(self, backend, datum: Datum):
        """What a scan of a backend gives."""
        return [version.row for version in self.seen(self.by_datum.get(datum, ()), backend)]

    def named(self, backend, name):
        """The oid of the relation that a backend finds by a name, or None."""
        rows = self.answer(backend, ("relname", name))
        return int(rows[0].columns[0]) if rows else None

    def unseen(self, backend, name):
        """The versions of pg_class with a name that a backend doesn't see."""
        versions = self.by_datum.get(("relname", name), ())
        return [version for version in versions if not counts_for(version.transaction, backend)]

    def change(self, entry, transaction, change):
        """A change of a write: its old row and its new one, where there are such."""
        key, new = key_of(change.catalog, change.columns), row_of(change)
        old = [] if change.sign == "+" else self.seen(self.by_key.get(key, ()), entry.backend)
        for version in old:
            version.ends.append((transaction, entry.command))
            self.ended.setdefault(transaction, []).append(version)
        if new:
            version = Version(new, entry, transaction)
            self.written.setdefault(transaction, []).append(version)
            self.by_key.setdefault(key, []).append(version)
            for datum in data_of(new):
                self.by_datum.setdefault(datum, []).append(version)
        return old[0].row if old else None, new

    def drop(self, version):
        """Nobody will see a version any more."""
        self.by_key[key_of(*version.row)].remove(version)
        for datum in data_of(version.row):
            self.by_datum[datum].remove(version)

    def take_back(self, transaction, command):
        """What a transaction did in commands of this number and above is undone."""
        for version in self.ended.get(transaction, ()):
            version.ends = [end for end in version.ends if end[0] is not transaction or end[1] < command]
        written = self.written.get(transaction, [])
        for version in [version for version in written if version.command >= command]:
            written.remove(version)
            self.drop(version)

    def touched(self, transaction):
        """The scans that give a row which a transaction wrote or ended."""
        versions = self.written.get(transaction, []) + self.ended.get(transaction, [])
        return {datum for version in versions for datum in data_of(version.row)}

    def commit(self, transaction):
        """A transaction is visible: what it ended is gone for all."""
        for version in self.ended.pop(transaction, ()):
            if any(ended is transaction for ended, _ in version.ends) and version in self.by_key[key_of(*version.row)]:
                self.drop(version)
        self.written.pop(transaction, None)
