"""The kinds of events that a server's backend makes, in one table: the functions that give each, and what else is told by kind.

What an entry of a history is among them says `event_of` (places.py); docs/REPLAY.md has the table for readers.
"""
from typing import Dict, NamedTuple, Tuple

# The catalogs of which rows are written, by their oids.
CATALOGS = {1259: "class", 1249: "att", 2604: "def", 2606: "con", 2610: "ind", 2620: "trg"}


class Purposes(NamedTuple):
    """What a scan by an index of a catalog is for: that of a catalog cache, and any other."""
    cache: str
    other: str


# By the oid of the index.
SCANS = {2662: Purposes("reloid", "class"), 2663: Purposes("relname", "relname"), 2658: Purposes("attname", ""),
         2659: Purposes("", "attribute"), 2656: Purposes("", "attrdef"), 2665: Purposes("", "constraint"),
         2678: Purposes("index", "index"), 2679: Purposes("indexrow", "indexrow"), 2701: Purposes("", "trigger")}


class Kind(NamedTuple):
    """A kind: the functions of the server at which it is seen, if it has some of its own; how many words of an event name its entry
    in a line of steps, if any do; whether it is of a relation; whether interrupts are put off once as it is made, without a
    light-weight lock; and what a server has to give of it first."""
    functions: Tuple[str, ...]
    words: int
    is_of_relation: bool
    is_in_commit: bool
    tested: Tuple[str, ...]


def _texts(kind, *words):
    """The kind with each of these words."""
    return tuple("%s %s" % (kind, word) for word in words)


KINDS: Dict[str, Kind] = {
    "look": Kind(("SIGetDataEntries",), 0, False, False, _texts("look", "no", "yes")),
    "fetch": Kind((), 1, False, False, ("fetch", "fetch reset")),          # seen at a look's function
    "told": Kind(("RelationCacheInvalidateEntry",), 0, True, False, ("told",)),
    "lock": Kind(("LockAcquireExtended",), 3, True, False, _texts("lock", "ok", "held")),
    "unlock": Kind(("UnlockRelationOid",), 3, True, False, ("unlock",)),
    "scan": Kind(("systable_beginscan",), 4, True, False,
                 _texts("scan", *sorted({purpose for purposes in SCANS.values() for purpose in purposes if purpose}))),
    "write": Kind(("CatalogTupleInsert", "CatalogTupleInsertWithInfo", "CatalogTuplesMultiInsertWithInfo", "CatalogTupleUpdate",
                   "CatalogTupleUpdateWithInfo", "CatalogTupleDelete"), 0, False, False,
                  _texts("write", *[sign + catalog for catalog in CATALOGS.values() for sign in "+-"]) + _texts("write", "=class", "=att")),
    "visible": Kind(("ProcArrayEndTransaction",), 1, False, True, ("visible",)),
    "gone": Kind((), 1, False, True, ("gone",)),                           # seen where it may be visible, too
    "publish": Kind(("SIInsertDataEntries",), 1, False, True, ("publish",)),
    "release": Kind(("ProcReleaseLocks", "LockReleaseCurrentOwner"), 1, False, True, ("release",)),
}
TESTED = tuple(text for kind in KINDS.values() for text in kind.tested)
