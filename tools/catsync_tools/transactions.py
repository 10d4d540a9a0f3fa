"""Transactions, with what they wrote and the messages that their commits send."""
from typing import Dict, List, NamedTuple, Optional

from .messages import Message
from .outputs import fault_at

COMMITTED, TAKEN_BACK, WROTE_NOTHING, RUNNING = "committed", "taken back", "wrote nothing", "still running"


class Written(NamedTuple):
    """A write that stands, with its messages."""
    entry: int
    command: int
    for_caches: List[Message]
    for_descriptors: List[Message]


class Transaction:
    """A transaction of a backend, from its first entry to the release that ends it."""

    def __init__(self, entry):
        self.backend, self.command, self.first = entry.backend, entry.command, entry.number
        self.xid: Optional[int] = None
        self.wrote: Optional[int] = None
        self.visible: Optional[int] = None
        self.last: Optional[int] = None
        self.writes: List[Written] = []
        self.published = 0

    @property
    def outcome(self):
        """What became of it."""
        if self.last is None:
            return RUNNING
        if self.visible is not None:
            return COMMITTED
        return TAKEN_BACK if self.wrote else WROTE_NOTHING

    @property
    def messages(self) -> List[Message]:
        """What its commit sends, in order: all for the catalog caches, then all for descriptors."""
        return ([message for write in self.writes for message in write.for_caches] +
                [message for write in self.writes for message in write.for_descriptors])

    def publish(self, entry, count):
        """Its next messages, so many, are sent."""
        messages = self.messages[self.published:][:count]
        if len(messages) < count:
            raise fault_at(entry, "a publish of %d messages, but backend %d has %d to send", count, entry.backend,
                           len(messages))
        self.published += count
        return messages

    def take_back(self, command) -> List[Message]:
        """Its writes in commands of this number and above stand no more; their messages."""
        undone = [write for write in self.writes if write.command >= command]
        self.writes = [write for write in self.writes if write.command < command]
        return [message for write in undone for message in write.for_caches + write.for_descriptors]


class Transactions:
    """The transactions of all backends."""

    def __init__(self):
        self.all: List[Transaction] = []
        self.running: Dict[int, Transaction] = {}

    def take(self, entry):
        """One more entry; the transaction that it is of."""
        kind, parts = entry.event
        if kind in ("start", "stop"):
            return None
        if entry.backend not in self.running:
            self.running[entry.backend] = Transaction(entry)
            self.all.append(self.running[entry.backend])
        transaction = self.running[entry.backend]
        if kind == "write":
            transaction.xid = parts["xid"]
            transaction.wrote = transaction.wrote or entry.number
        elif kind == "visible":
            if transaction.xid != parts["xid"]:
                raise fault_at(entry, "transaction %d isn't backend %d's running one", parts["xid"], entry.backend)
            transaction.visible = entry.number
        elif kind == "release" and parts["from"] == transaction.command:
            transaction.last = entry.number
            del self.running[entry.backend]
        return transaction

    def of_xid(self, xid):
        """The running transaction with this Xid, or None."""
        return next((transaction for transaction in self.running.values() if transaction.xid == xid), None)
