"""What a relation's descriptor says in a server's process. Where its parts lie depends on the server's version."""
import hashlib
import re
from typing import Dict, NamedTuple

RELID = 72              # the relation's oid (13 to 18), by which rows are told apart, too
LIST_LENGTH, LIST_ITEMS, ITEM = 4, 16, 8        # of List (pg_list.h, 13 and later): its count, where its items are, and their size
PIECE = 256             # bytes of a text that are read at once
TABLE = b"r"            # of relkind


class Array(NamedTuple):
    """An array of structures: how many bytes each has, and where its parts lie."""
    size: int
    parts: Dict[str, int]


class Offsets(NamedTuple):
    """Where the parts of a descriptor (RelationData, rel.h) lie, of its row (pg_class.h), its columns (TupleDesc, tupdesc.h), and
    their constraints (TupleConstr); of each column (pg_attribute.h), default, check (tupdesc.h), trigger (reltrigger.h) and foreign key
    (ForeignKeyCacheInfo, rel.h); and in the options (StdRdOptions, rel.h) of the fillfactor."""
    relation: Dict[str, int]
    row: Dict[str, int]
    columns: Dict[str, int]
    constraints: Dict[str, int]
    column: Array
    default: Array
    check: Array
    trigger: Array
    trigger_count: int
    key: int
    fillfactor: int


# By the server's first number; each was tried.
VERSIONS = {15: Offsets(
    {"valid": 34, "has indexes": 35, "row": 56, "columns": 64, "triggers": 104, "keys": 120, "has keys": 128, "indexes": 216,
     "options": 280},
    {"relhasindex": 112, "kind": 115, "relhastriggers": 121}, {"constraints": 16, "first": 24},
    {"defaults": 0, "checks": 8, "default count": 24, "check count": 26, "not null": 28},
    Array(112, {"target": 72, "dropped": 101}), Array(16, {"number": 0, "text": 8}), Array(24, {"name": 0, "valid": 16}),
    Array(88, {"name": 8, "enabled": 22}), 8, 4, 4)}
SHOWN = ("statistics", "fillfactor", "triggers")        # fields of which an answer is what the descriptor says
OF_KEYS = re.compile("(?<![^ ])RI_ConstraintTrigger_[^ ]*(?: |$)")        # triggers that no answer has


def offsets_of(version):
    """The offsets in a server of this version, as 15.3, or None."""
    number = re.match("[0-9]+(?=[.]|$)", version)
    return VERSIONS.get(int(number.group())) if number else None


def fields_at(memory, at, rel, offsets):
    """What a descriptor at an address says of its table, by FIELDS; None where it isn't valid, or of no table. What it hasn't read
    yet isn't among them."""
    try:
        descriptor = Descriptor(memory, at, offsets)
        if memory.u32(at + RELID) != rel or not descriptor.flag("valid") or descriptor.of_row("kind") != TABLE:
            return None
        found = {field: read(descriptor) for field, read in FIELDS.items()}
        return {field: value for field, value in found.items() if value is not None}
    except OSError:
        return None


def as_shown(value):
    """A field's value as an answer has it: without the triggers of foreign keys."""
    return OF_KEYS.sub("", value).rstrip() or "-"


def words(items):
    """The items of a value, or `-` where it has none."""
    return " ".join(items) or "-"


class Descriptor:
    """A descriptor in a process's memory. An OSError where something can't be read."""

    def __init__(self, memory, at, offsets: Offsets):
        self.memory, self.at, self.offsets = memory, at, offsets

    def flag(self, name):
        """A flag of it."""
        return self.memory.read(self.at + self.offsets.relation[name], 1)[0] != 0

    def part(self, name):
        """The address of a part of it."""
        return self.memory.u64(self.at + self.offsets.relation[name])

    def of_row(self, name):
        """A byte of its row of pg_class."""
        return self.memory.read(self.part("row") + self.offsets.row[name], 1)

    def flag_of_row(self, name):
        """A flag of that row, in the words of a query."""
        return "true" if self.of_row(name)[0] else "false"

    def text(self, address):
        """The text at an address that is held there."""
        address, found = self.memory.u64(address), b""
        while b"\0" not in found:
            found += self.memory.read(address + len(found), PIECE)
        return found.split(b"\0")[0].decode("utf-8", "replace")

    def items(self, address, count, array: Array):
        """Of each structure of an array, where its parts are."""
        return [{name: address + array.size * at + offset for name, offset in array.parts.items()} for at in range(count)]

    def list(self, name):
        """What a list of it has."""
        address = self.part(name)
        items = self.memory.u64(address + LIST_ITEMS) if address else 0
        return [self.memory.u64(items + ITEM * at) for at in range(self.memory.u32(address + LIST_LENGTH))] if address else []

    def columns(self):
        """Of each column that isn't dropped its number, and where its parts are."""
        address = self.part("columns")
        columns = self.items(address + self.offsets.columns["first"], self.memory.u32(address), self.offsets.column)
        return [(number, column) for number, column in enumerate(columns, 1) if not self.memory.read(column["dropped"], 1)[0]]

    def constraints(self, kind):
        """Where the parts are of each default or check that it has."""
        address, places = self.memory.u64(self.part("columns") + self.offsets.columns["constraints"]), self.offsets.constraints
        if not address:
            return []
        count = int.from_bytes(self.memory.read(address + places[kind + " count"], 2), "little")
        return self.items(self.memory.u64(address + places[kind + "s"]), count, getattr(self.offsets, kind))

    def statistics(self):
        """The statistics targets."""
        return words("%d:%d" % (number, self.memory.i32(column["target"])) for number, column in self.columns())

    def fillfactor(self):
        """The fillfactor."""
        options = self.part("options")
        return str(self.memory.u32(options + self.offsets.fillfactor)) if options else "-"

    def indexes(self):
        """The oids of the indexes, once it has looked them up."""
        return words(str(oid & 0xffffffff) for oid in self.list("indexes")) if self.flag("has indexes") else None

    def triggers(self):
        """The names of the triggers, also of those of foreign keys, and whether each is enabled."""
        address = self.part("triggers")
        triggers = self.items(self.memory.u64(address), self.memory.u32(address + self.offsets.trigger_count),
                              self.offsets.trigger) if address else []
        return words("%s:%s" % (self.text(each["name"]), "d" if self.memory.read(each["enabled"], 1) == b"D" else "e") for each in triggers)

    def defaults(self):
        """The numbers of the columns with defaults, each with the beginning of the sum of its text."""
        return words("%d:%s" % (int.from_bytes(self.memory.read(each["number"], 2), "little"),
                                hashlib.md5(self.text(each["text"]).encode()).hexdigest()[:8]) for each in self.constraints("default"))

    def checks(self):
        """The names of the checks, and whether each is valid."""
        return words("%s:%s" % (self.text(each["name"]), "v" if self.memory.read(each["valid"], 1)[0] else "n")
                     for each in self.constraints("check"))

    def not_null(self):
        """Whether a column is."""
        address = self.memory.u64(self.part("columns") + self.offsets.columns["constraints"])
        return "true" if address and self.memory.read(address + self.offsets.constraints["not null"], 1)[0] else "false"

    def keys(self):
        """The oids of the foreign keys, once it has looked them up."""
        return words(str(oid) for oid in sorted(self.memory.u32(each + self.offsets.key) for each in self.list("keys"))) if self.flag(
            "has keys") else None


# Each field that is read, those first which `tools/server` writes so, too.
FIELDS = {"statistics": Descriptor.statistics, "fillfactor": Descriptor.fillfactor,
          "relhasindex": lambda each: each.flag_of_row("relhasindex"), "indexes": Descriptor.indexes,
          "relhastriggers": lambda each: each.flag_of_row("relhastriggers"), "triggers": Descriptor.triggers, "defaults": Descriptor.defaults,
          "checks": Descriptor.checks, "not null": Descriptor.not_null, "foreign keys": Descriptor.keys}
