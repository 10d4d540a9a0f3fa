"""The queue of invalidation messages, as the log of all that were published, and how far in it each backend is."""
from typing import Dict, List, NamedTuple, Optional, Tuple

from .messages import Message
from .outputs import fault_at


class Logged(NamedTuple):
    """A message that was published, with the entry that did and its backend."""
    message: Message
    publish: int
    sender: int


class Batch(NamedTuple):
    """Messages of one publish."""
    publish: int
    sender: int
    messages: List[Message]


class Taken(NamedTuple):
    """So many messages of a publish of the sender that a fetch of a backend took."""
    publish: int
    sender: int
    fetch: int
    backend: int
    count: int


class Waiting(NamedTuple):
    """After an entry so many messages wait for a backend."""
    entry: int
    backend: int
    count: int


class Log:
    """The log. Its length, and a backend's place in it, are kept for each entry that changed them."""

    def __init__(self):
        self.all: List[Logged] = []
        self.lengths: List[Tuple[int, int]] = []
        self.places: Dict[int, List[Tuple[int, int]]] = {}
        self.taken: List[Taken] = []
        self.waiting: List[Waiting] = []

    def place(self, backend):
        """How many messages a backend is past."""
        return self.places[backend][-1][1]

    def left(self, backend):
        """How many wait for it."""
        return len(self.all) - self.place(backend)

    def start(self, entry):
        """A backend joins, past all that was published."""
        self.places[entry.backend] = [(entry.number, len(self.all))]

    def move(self, entry, place):
        """The backend is past so many messages."""
        self.places[entry.backend].append((entry.number, place))
        self.waiting.append(Waiting(entry.number, entry.backend, self.left(entry.backend)))

    def batches(self, backend, last: Optional[int] = None):
        """The messages that wait for a backend, or those of them before a place, by the publish that sent them."""
        found: List[Batch] = []
        for logged in self.all[self.place(backend):last]:
            if not found or found[-1].publish != logged.publish:
                found.append(Batch(logged.publish, logged.sender, []))
            found[-1].messages.append(logged.message)
        return found

    def publish(self, entry, messages, receivers):
        """More messages wait for all."""
        self.all += [Logged(message, entry.number, entry.backend) for message in messages]
        self.lengths.append((entry.number, len(self.all)))
        self.waiting += [Waiting(entry.number, backend, self.left(backend)) for backend in receivers]

    def fetch(self, entry, count):
        """The backend takes the next messages; which they are."""
        first = self.place(entry.backend)
        if count > self.left(entry.backend):
            raise fault_at(entry, "a fetch of %d messages, but %d wait for backend %d", count, self.left(entry.backend),
                           entry.backend)
        batches = self.batches(entry.backend, first + count)
        self.taken += [Taken(batch.publish, batch.sender, entry.number, entry.backend, len(batch.messages))
                       for batch in batches]
        self.move(entry, first + count)
        return batches

    def reset(self, entry):
        """The backend has lost messages, and is past all; which those were that waited."""
        batches = self.batches(entry.backend)
        self.move(entry, len(self.all))
        return batches
