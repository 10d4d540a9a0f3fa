"""The points of a server's backend at which a history's entries are made, and the events that they give.

An event is a tuple: its kind and its key, by the server's oids. Each is noted twice: with the phase BEFORE where the backend is
about to make it, and AFTER where it has been made; either is a place to hold it. Events of the catalogs' own relations are left
out. docs/REPLAY.md says which function each is.
"""
import functools
from typing import Dict

from .descriptors import RELID
from .kinds import CATALOGS, KINDS, SCANS
from .tracing import Binary, Traced

BEFORE, AFTER = "before", "after"
FIRST_OID = 16384       # of relations that aren't the server's own
MODES = (None, "as", "rs", "rx", "su", "sh", "sr", "ex", "ax")
CATALOG_SCHEMA = 11     # where a name is looked for first
ERROR = 21              # of errors and what is worse (14 and later)
SCAN_KEY, SCAN_ARGUMENT = 72, 64        # of ScanKeyData: its size, and where its value is
TRIGGER_TABLE = 4       # where a row of pg_trigger has its table's oid
TAKEN_BACK = ("gone", "release")        # at these an error puts interrupts off once more (PostgresMain, postgres.c), with no light-weight lock
MESSAGE, OF_DESCRIPTOR = 16, 254        # of SharedInvalidationMessage (sinval.h): its size, and what one for a descriptor begins with
CACHE_FUNCTIONS = ("CatCacheInvalidate", "CreateCacheMemoryContext", "SearchCatCache", "SearchCatCache1", "SearchCatCacheList",
                   "ReleaseCatCache", "PrepareToInvalidateCacheTuple", "InitCatCache", "ResetCatalogCaches",
                   "PrintCatCacheLeakWarning")
# Each function at which something is noted, with the method that does: that of its kind, or one that notes what kinds need.
FUNCTIONS = {function: name for name, kind in KINDS.items() for function in kind.functions}
FUNCTIONS.update({"TransactionIdCommitTree": "commit", "TransactionIdAsyncCommitTree": "commit", "RelationIdGetRelation": "open",
                  "errstart": "error"})
NEEDED = tuple(FUNCTIONS) + ("LWLockAcquire", "CritSectionCount", "InterruptHoldoffCount")


class Executable(Binary):
    """A server's program: what is needed of it and missing, and where its catalog caches' functions are: from the end of what it
    exports before them, since those that it doesn't export may come first, to the end of the last one."""

    def __init__(self, path):
        super().__init__(path)
        self.missing = [name for name in NEEDED if name not in self.symbols]
        cache = [self.symbols[name] for name in CACHE_FUNCTIONS if name in self.symbols]
        first, end = (min(at for at, _ in cache), max(at + size for at, size in cache)) if cache else (0, 0)
        self.cache = max([at + size for at, size in self.symbols.values() if at < first] + [0]), end


class Watched(Traced):
    """A backend's process whose events are noted: `note(phase, event)` says whether it stays stopped there."""

    def __init__(self, pid, executable: Executable, note):
        super().__init__(pid, executable)
        self.executable, self.note = executable, note
        self.is_committing = False
        self.is_failing = False                     # whether the running command has raised an error
        self.asked = None                           # the lock that it waits for
        self.descriptors: Dict[int, int] = {}       # of each relation that it has opened: where its descriptor is
        self.opened = None                          # the first that it has opened since this was emptied
        self.is_exact = False                       # whether it may be held between a look and the fetch after it
        for name, method in FUNCTIONS.items():
            self.watch(name, functools.partial(self.write_row, name) if method == "write" else getattr(self, method))
        self.remove(self.place("RelationIdGetRelation"))

    def place(self, name):
        """Where it has a function or a variable."""
        return self.base + self.executable.symbols[name][0]

    def watch(self, name, call):
        """Calls this at a function's entry."""
        self.points[self.place(name)] = call
        self.insert(self.place(name))

    def watch_opens(self, is_on):
        """Watches which relations are opened, or no more; that is often."""
        address = self.place("RelationIdGetRelation")
        if is_on:
            self.opened = None
            self.insert(address)
        elif address in self.old:
            self.remove(address)

    def both(self, *event):
        """An event that is made between its function's entry and its return."""
        self.on_return(lambda: self.note(AFTER, event))
        return self.note(BEFORE, event)

    def look(self):
        """It reads the flag, and then the queue: under a light-weight lock only where the flag is set."""
        said, lock = [], self.place("LWLockAcquire")

        def yes():
            if said:
                return False
            said.append("yes")
            return self.note(AFTER, ("look", "yes"))

        def read():
            if self.points.pop(lock, None):
                self.remove(lock)
            count = self.answer
            if count and not said:
                self.note(AFTER, ("look", "yes"))
            return self.note(AFTER, ("look", "no") if count == 0 else ("fetch", "reset" if count < 0 else str(count)))
        if self.is_exact:
            self.watch("LWLockAcquire", yes)
        self.on_return(read)
        return self.note(BEFORE, ("look",))

    def lock(self):
        """A lock of a relation: its tag says which; a lock of another kind isn't noted."""
        tag = self.read(self.argument(0), 16)
        rel, mode = int.from_bytes(tag[4:8], "little"), MODES[self.argument(1) & 15]
        if tag[14] != 0 or rel < FIRST_OID:
            return False

        def answered():
            self.asked = None
            result = {0: "held", 1: "ok", 2: "again"}.get(self.answer)
            return self.note(AFTER, ("lock", rel, mode, result)) if result else False
        self.on_return(answered)
        self.asked = rel, mode
        return self.note(BEFORE, ("lock", rel, mode))

    def unlock(self):
        """One lock is given back."""
        rel = self.number(0)
        return self.both("unlock", rel, MODES[self.argument(1) & 15]) if rel >= FIRST_OID else False

    def scan(self):
        """A scan of a catalog: its snapshot is taken before it returns, and its rows are read afterwards."""
        purposes = SCANS.get(self.number(1))
        low, high = self.executable.cache
        purpose = purposes and (purposes.cache if low <= self.caller - self.base < high else purposes.other)
        key = self.key_of(purpose, self.argument(5)) if purpose else None
        return self.both("scan", purpose, *key) if key else False

    def key_of(self, purpose, keys):
        """What a scan looks for, or None where it is the server's own."""
        value = self.u64(keys + SCAN_ARGUMENT)
        if purpose == "relname":
            name = self.text(value)
            is_own = name.startswith("pg_") or self.u64(keys + SCAN_KEY + SCAN_ARGUMENT) == CATALOG_SCHEMA
            return None if is_own else (name,)
        rel = value & 0xffffffff
        if rel < FIRST_OID:
            return None
        return (rel, self.text(self.u64(keys + SCAN_KEY + SCAN_ARGUMENT))) if purpose == "attname" else (rel,)

    def write_row(self, function):
        """A row of a catalog is written; or several."""
        catalog = CATALOGS.get(self.u32(self.argument(0) + RELID))
        if catalog is None:
            return False
        sign = "-" if function.endswith("Delete") else "=" if "Update" in function else "+"
        if sign == "-":
            return self.both("write", "-" + catalog)
        if "Multi" in function:
            return self.both("write", "+" + catalog, "*%d" % self.number(2))
        header = self.u64(self.argument(2 if sign == "=" else 1) + 16)
        row = self.read(header + self.read(header + 22, 1)[0], 68)
        at = TRIGGER_TABLE if catalog == "trg" else 0
        oid = int.from_bytes(row[at:at + 4], "little")
        if oid < FIRST_OID:
            return False
        name = (row[4:].split(b"\0")[0].decode("ascii", "replace"),) if catalog == "class" else ()
        return self.both("write", sign + catalog, oid, *name)

    def commit(self):
        """The transaction is committed in the log: inside a critical section, so nothing is held here."""
        self.is_committing = True
        return False

    def visible(self):
        """The transaction leaves the list of those that run: it is visible, or gone."""
        committing, self.is_committing = self.is_committing, False
        return self.both("visible" if committing else "gone") if self.number(1) else False

    def publish(self):
        """Messages go into the queue: how many, and for which relations' descriptors."""
        count = self.number(1)
        messages = self.read(self.argument(0), MESSAGE * count)
        rels = [int.from_bytes(messages[at + 8:at + 12], "little") for at in range(0, MESSAGE * count, MESSAGE)
                if messages[at] == OF_DESCRIPTOR]
        return self.both("publish", str(count), *[rel for rel in rels if rel >= FIRST_OID])

    def release(self):
        """Locks are released."""
        return self.both("release")

    def told(self):
        """A message for a relation's descriptor is processed: what is in use is rebuilt before it returns."""
        return self.both("told", self.number(0)) if self.number(0) >= FIRST_OID else False

    def open(self):
        """A relation is opened: it answers where its descriptor is."""
        rel = self.number(0)

        def opened():
            if self.register("rax"):
                self.descriptors[rel] = self.register("rax")
                self.opened = self.opened or rel
            return False
        if rel >= FIRST_OID:
            self.on_return(opened)
        return False

    def error(self):
        """An error is raised: a lock that was waited for isn't granted."""
        if self.number(0) < ERROR:
            return False
        self.is_failing = True
        asked, self.asked = self.asked, None
        return self.note(AFTER, ("lock",) + asked + ("held",) if asked else ("error",))

    def not_held(self, event):
        """Why it mustn't be held at an event, or None: others would wait for it, and nothing would end that."""
        if self.u32(self.place("CritSectionCount")):
            return "in a critical section"
        put_off = (event[0] in KINDS and KINDS[event[0]].is_in_commit) + (self.is_failing and event[0] in TAKEN_BACK)
        if self.u32(self.place("InterruptHoldoffCount")) > put_off:
            return "interrupts are held off, as by a light-weight lock"
        return None
