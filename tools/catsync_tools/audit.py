"""What backends keep that is stale for good: a descriptor in a process's memory that isn't as the catalogs are, though the
backend has accepted all messages, so that none is left that would tell it."""
import re
from typing import List, NamedTuple, Optional

from .held import ACCEPTS, OPENS
from .sql import QUERIES

# Each field of a descriptor (descriptors.py) as the catalogs have it.
CATALOGS = {field: QUERIES[field] for field in ("statistics", "fillfactor")}
CATALOGS.update({
    "relhasindex": "select relhasindex::text from pg_class where oid = T",
    "indexes": "select string_agg(indexrelid::text, ' ' order by indexrelid) from pg_index where indrelid = T and indislive",
    "relhastriggers": "select relhastriggers::text from pg_class where oid = T",
    "triggers": "select string_agg(concat_ws(':', tgname, case tgenabled when 'D' then 'd' else 'e' end), ' ' order by tgname) from "
                "pg_trigger where tgrelid = T",
    "defaults": "select string_agg(concat_ws(':', adnum, left(md5(adbin::text), 8)), ' ' order by adnum) from pg_attrdef where adrelid = T",
    "checks": "select string_agg(concat_ws(':', conname, case when convalidated then 'v' else 'n' end), ' ' order by conname) from "
              "pg_constraint where conrelid = T and contype = 'c'",
    "not null": "select (count(*) > 0)::text from pg_attribute where attrelid = T and attnum > 0 and attnotnull",
    "foreign keys": "select string_agg(oid::text, ' ' order by oid) from pg_constraint where conrelid = T and contype = 'f'",
})
# The oids in these, and the name that is said for one.
OIDS = re.compile(r"(?<![^ ])[0-9]+(?![^ ])|(?<=RI_ConstraintTrigger_[ac]_)[0-9]+")
NAMED = ("indexes", "triggers", "foreign keys")
NAME_OF = ("select coalesce((select relname from pg_class where oid = T), (select conname from pg_constraint where oid = T), (select "
           "conname from pg_constraint, pg_trigger where pg_trigger.oid = T and pg_constraint.oid = tgconstraint), 'gone')")
IS_TABLE = "select relname from pg_class where oid = %d and relkind = 'r'"
HOLDERS = "select distinct pid from pg_locks where relation = %d and granted order by pid"


class Stale(NamedTuple):
    """A field of a table as a backend's descriptor has it, and as the catalogs have it."""
    backend: int
    table: str
    field: str
    kept: str
    catalogs: str

    @property
    def text(self):
        """What is said of it."""
        return "backend %d keeps %s %s of %s; the catalogs have %s, and no message is left" % (
            self.backend, self.field, self.kept, self.table, self.catalogs)


class Unread(NamedTuple):
    """What a backend keeps of a table, or of all, that couldn't be looked at, and why."""
    backend: int
    table: Optional[str]
    why: str

    @property
    def text(self):
        """What is said of it."""
        return "what backend %d keeps%s isn't looked at: %s" % (self.backend, " of " + self.table if self.table else "", self.why)


class Audit(NamedTuple):
    """What came of looking at what backends keep."""
    stale: List[Stale]
    unread: List[Unread]


def take_back(sessions, backend):
    """Takes back the block that a backend is in, if it is in one."""
    if backend.asked.in_block:
        sessions.ask(backend, "rollback")
        backend.asked.in_block = False


def audit_of_all(sessions) -> Audit:
    """What backends keep, once none of them is in a block any more. Those that have ended aren't looked at."""
    backends = [backend for backend in sessions.backends.values() if backend.watched is not None]
    for backend in backends:
        backend.is_noted = False
        if not backend.is_busy:
            take_back(sessions, backend)
    audits = [audit_of(sessions, backend) for backend in backends]
    return Audit([each for audit in audits for each in audit.stale], [each for audit in audits for each in audit.unread])


def audit_of(sessions, backend) -> Audit:
    """What a backend that is in no block keeps of the script's tables. It accepts what waits, and opens each table that it has
    opened before."""
    found = Audit([], [])
    if backend.offsets is None:         # which is told once
        return found
    if backend.is_busy:
        found.unread.append(Unread(backend.number, None, "it is inside command %d" % backend.command))
        return found
    sessions.ask(backend, ACCEPTS)
    for rel in sorted(backend.used & set(sessions.names)):
        rows = sessions.watcher.ask(IS_TABLE % rel).rows
        if rows:
            look_at_table(sessions, backend, rel, rows[0][0], found)
    return found


def look_at_table(sessions, backend, rel, name, found: Audit):
    """Looks at what a backend keeps of a table."""
    reply = sessions.ask(backend, OPENS % name, backend.opening)
    kept = None if reply.error else backend.descriptor(rel)
    if kept is None:
        found.unread.append(Unread(backend.number, name, why_not_opened(sessions, backend, rel, reply)))
        return
    for field, value in kept.items():
        catalogs = catalogs_of(sessions.watcher, field, rel)
        if value != catalogs:
            found.stale.append(Stale(backend.number, name, field, named(sessions.watcher, field, value),
                                     named(sessions.watcher, field, catalogs)))


def asked(session, query, oid):
    """The only value of a query about what has an oid, or `-`."""
    rows = session.ask(re.sub(r"\bT\b", str(oid), query)).rows
    return (rows[0][0] if rows else None) or "-"


def catalogs_of(session, field, rel):
    """A field of a relation as the catalogs have it."""
    return asked(session, CATALOGS[field], rel)


def named(session, field, value):
    """The value of a field, by names in place of oids."""
    return OIDS.sub(lambda found: asked(session, NAME_OF, found.group()), value) if field in NAMED else value


def why_not_opened(sessions, backend, rel, reply):
    """Why a table's descriptor can't be read: another has the table locked, or what the server says."""
    if not reply.error:
        return "its descriptor isn't valid"
    pids = [int(row[0]) for row in sessions.watcher.ask(HOLDERS % rel).rows]
    others = [str(other.number) for other in sessions.backends.values() if other.pid in pids and other is not backend]
    if reply.error[0] == "55P03" and others:
        return "backend %s has it locked" % ", ".join(others)
    return "error %s %s" % reply.error
