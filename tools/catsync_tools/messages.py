"""Invalidation messages: which ones a change of a row leaves, and which scans a message is about.

docs/HISTORY.md has the table. A message for a catalog cache carries the hash of a key, so it is also about any other key
with that hash.
"""
from typing import List, NamedTuple, Optional, Tuple

DESCRIPTORS, NAMES, OIDS, COLUMNS = 0, 1, 2, 3      # what a message is for: descriptors, or one of the three catalog caches

Target = Tuple[int, int]        # what it is for, and the relation's oid or the hash of the key
Datum = tuple                   # a scan's purpose and key

BUILD_SCANS = ("class", "attribute", "attrdef", "constraint", "index", "trigger", "indexrow")


class Row(NamedTuple):
    """A row of a catalog, as a `write` entry has it."""
    catalog: str
    columns: Tuple[str, ...]


class Message(NamedTuple):
    """A message: what it is for; the name of a relation or of a column in its key, if there is one; and the relation whose
    row was changed, with the name that it has then."""
    target: Target
    key: str
    rel: int
    name: str = ""


def hash_of(cache, *parts):
    """The hash of a key of a catalog cache: 32 bits over the cache's number and the bytes of an oid or a name."""
    value = cache
    for part in parts:
        for byte in part.to_bytes(4, "big") if isinstance(part, int) else part.encode("ascii"):
            value = (value * 31 + byte) % 2 ** 32
    return value


def of_caches(row: Row) -> List[Message]:
    """The messages for the catalog caches that have an entry of a row."""
    if row.catalog == "class":
        oid, name = int(row.columns[0]), row.columns[1]
        return [Message((NAMES, hash_of(NAMES, name)), name, oid), Message((OIDS, hash_of(OIDS, oid)), "", oid)]
    if row.catalog == "att":
        rel, name = int(row.columns[0]), row.columns[2]
        return [Message((COLUMNS, hash_of(COLUMNS, rel, name)), name, rel)]
    return []


def of_descriptor(rel) -> Message:
    """The message for a relation's descriptor."""
    return Message((DESCRIPTORS, rel), "", rel)


def relation_told(row: Row) -> Optional[int]:
    """The relation whose descriptor a changed row has a message for, if it has one."""
    if row.catalog in ("class", "att", "ind"):
        return int(row.columns[0])
    if row.catalog == "con" and row.columns[3] == "f":
        return int(row.columns[1])
    return None


def messages_of(old: Optional[Row], new: Optional[Row]) -> Tuple[List[Message], List[Message]]:
    """What a change of a row leaves: messages for catalog caches, and those for descriptors. A row that is replaced by one
    with another hash leaves two for that cache."""
    before, after = of_caches(old) if old else [], of_caches(new) if new else []
    if old and new:
        caches = []
        for first, second in zip(before, after):
            caches += [first] if first.target == second.target else [first, second]
    else:
        caches = before or after
    rel = relation_told(new or old)
    return caches, [] if rel is None else [of_descriptor(rel)]


def target_of(datum: Datum) -> Target:
    """What the messages that cover a scan are for. A list of columns is covered by each message of its cache."""
    purpose = datum[0]
    if purpose in BUILD_SCANS:
        return DESCRIPTORS, datum[1]
    if purpose == "attlist":
        return COLUMNS, -1
    cache = {"relname": NAMES, "reloid": OIDS, "attname": COLUMNS}[purpose]
    return cache, hash_of(cache, *datum[1:])


def covered_by(target: Target) -> Tuple[Target, ...]:
    """The targets of scans that a message of this target covers."""
    return (target,) if target[0] == DESCRIPTORS else (target, (target[0], -1))
