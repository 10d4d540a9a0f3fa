"""Locks: who holds which, since when, and from when on it is clear."""
from typing import List, Optional

FULL_FETCH = 32


class Lock:
    """A lock, from its grant to its release. It is clear once the accept after its grant has ended."""

    def __init__(self, entry, rel, mode, name, clear=None):
        self.backend, self.command, self.first = entry.backend, entry.command, entry.number
        self.rel, self.mode, self.name = rel, mode, name
        self.clear: Optional[int] = clear
        self.last: Optional[int] = None


def ends_accept(event):
    """An accept ends with a look that says no, with a fetch of fewer than 32 messages, and with a reset."""
    if event.kind == "look":
        return event.parts["answer"] == "no"
    return event.kind == "fetch reset" or (event.kind == "fetch" and event.parts["count"] < FULL_FETCH)


class Locks:
    """The locks of all backends."""

    def __init__(self):
        self.all: List[Lock] = []
        self.held: List[Lock] = []

    def grant(self, lock):
        """A lock is granted."""
        self.all.append(lock)
        self.held.append(lock)

    def end(self, entry, ends):
        """The backend's locks of which `ends` is true are released; which they are."""
        ended = [lock for lock in self.held if lock.backend == entry.backend and ends(lock)]
        for lock in ended:
            lock.last = entry.number
        self.held = [lock for lock in self.held if lock.last is None]
        return ended

    def clear(self, entry):
        """An accept of the backend has ended; which locks are clear by that."""
        cleared = [lock for lock in self.held if lock.backend == entry.backend and lock.clear is None]
        for lock in cleared:
            lock.clear = entry.number
        return cleared

    def find(self, backend, rel, mode):
        """The lock that a backend holds, or None."""
        wanted = (backend, rel, mode)
        return next((lock for lock in self.held if (lock.backend, lock.rel, lock.mode) == wanted), None)

    def of(self, backend, rel):
        """The locks that a backend holds on a relation."""
        return [lock for lock in self.held if (lock.backend, lock.rel) == (backend, rel)]

    def of_others(self, backend, rel):
        """The locks that other backends hold on a relation."""
        return [lock for lock in self.held if lock.rel == rel and lock.backend != backend]
