"""What a history comes to, as one fold over its entries: who runs which transaction, which locks are held and clear, how
far each backend is in the queue of messages, what it keeps of its scans; and what each entry did.

Where an entry can't follow those before it, so that this couldn't be said, it is a Fault; the full rules of what may follow
are the definitions' and aren't tested here.
"""
import bisect
from typing import Dict, List, NamedTuple, Optional, Sequence

from .caches import FAILED, FETCHED, LEFT, OWN_WRITE, RESET, TAKEN_BACK, Caches, Kept, datum_of
from .faults import Fault
from .locks import Lock, Locks, ends_accept
from .log import Batch, Log
from .messages import Message, Row, messages_of, of_descriptor
from .outputs import Answer, Entry, fault_at
from .rows import Rows, Version
from .transactions import Transaction, Transactions, Written
from .uses import Uses


class Refusal(NamedTuple):
    """An entry was refused, since a backend holds what it asked for since an earlier entry: by a lock, by a running
    transaction, or, where neither is named, by having given a relation the name."""
    entry: int
    backend: int
    holder: int
    since: int
    bar: object


class Named(NamedTuple):
    """A write gave a relation this name."""
    entry: int
    backend: int
    command: int
    rel: int
    name: str


class Facts:
    """What an entry did, beside what its line says. Of what an event of its kind doesn't do there is nothing."""
    following: Optional[Entry] = None                   # the backend's entry after it
    transaction: Optional[Transaction] = None           # the one that runs, or that it ends
    batches: Sequence[Batch] = ()                       # messages that it takes, finds waiting, or puts into the queue
    left = 0                                            # messages that wait for the backend after it
    messages: Sequence[Message] = ()                    # those of its write, or of the writes that it takes back
    receivers: Sequence[int] = ()                       # of a publish: for whom its messages wait,
    published = 0                                       # and how many of the commit's were sent with it
    rows: Sequence[Row] = ()                            # that its scan gives
    unseen: Sequence[Version] = ()                      # versions of a name that its scan doesn't see
    kept: Optional[Kept] = None                         # what its scan is part of
    suspended: Sequence[Kept] = ()                      # builds that wait until the one that its scan begins is at its end
    stale: Sequence[Kept] = ()                          # what the backend keeps no more
    outdated: Sequence[Kept] = ()                       # what others keep that is out of date from here on
    cleared: Sequence[Lock] = ()
    granted: Sequence[Lock] = ()
    released: Sequence[Lock] = ()
    others: Sequence[Lock] = ()                         # locks of other backends on a relation that it locks
    own: Sequence[Lock] = ()                            # the backend's locks on a relation that it finds by its name
    refusal: Optional[Refusal] = None
    serves: Sequence[Kept] = ()                         # what serves its backend's command by what was had here

    def __init__(self, entry: Entry, before: Optional[Entry]):
        self.entry, self.before = entry, before         # and the backend's entry before it


class Life:
    """A backend, from its start to its stop."""

    def __init__(self, entry):
        self.backend, self.first = entry.backend, entry.number
        self.last: Optional[int] = None


class Lives:
    """Who has started and who has stopped."""

    def __init__(self):
        self.commands: Dict[int, int] = {}
        self.all: Dict[int, Life] = {}

    def take(self, entry):
        """One more entry."""
        started = entry.backend in self.commands
        if started == (entry.event.kind == "start"):
            raise fault_at(entry, "backend %d %s", entry.backend, "starts twice" if started else "hasn't started")
        life = self.all.setdefault(entry.backend, Life(entry))
        if life.last is not None:
            raise fault_at(entry, "backend %d has stopped", entry.backend)
        if entry.command < self.commands.get(entry.backend, 0):
            raise fault_at(entry, "command %d of backend %d is over", entry.command, entry.backend)
        self.commands[entry.backend] = entry.command
        if entry.event.kind == "stop":
            life.last = entry.number

    def alive(self):
        """The backends that have started and not stopped."""
        return [backend for backend, life in sorted(self.all.items()) if life.last is None]


class Names:
    """The names that writes gave to relations."""

    def __init__(self):
        self.of_rel: Dict[int, List[Named]] = {}
        self.of_backend: Dict[int, List[Named]] = {}
        self.latest: Dict[int, str] = {}
        self.rels: Dict[str, set] = {}

    def give(self, named):
        """A write gives a relation a name."""
        self.of_rel.setdefault(named.rel, []).append(named)
        self.of_backend.setdefault(named.backend, []).append(named)
        self.latest[named.rel] = named.name
        self.rels.setdefault(named.name, set()).add(named.rel)

    def take_back(self, backend, command):
        """What the backend wrote in commands of this number and above is rolled back."""
        own = self.of_backend.get(backend, [])
        while own and own[-1].command >= command:
            named = own.pop()
            self.of_rel[named.rel].remove(named)

    def name_of(self, rel):
        """The name of a relation, the latest; or nothing where none is known."""
        given = self.of_rel.get(rel)
        return given[-1].name if given else ""

    def giver(self, rel, name):
        """The write that gave a relation this name, or None."""
        return next((named for named in reversed(self.of_rel.get(rel, ())) if named.name == name), None)


class Model:
    """All that a history has come to so far."""

    def __init__(self, output):
        self.lives, self.names, self.transactions, self.locks = Lives(), Names(), Transactions(), Locks()
        self.log, self.rows, self.caches, self.uses = Log(), Rows(), Caches(), Uses(output)
        self.facts: List[Facts] = []
        self.last: Dict[int, Facts] = {}

    def take(self, entry):
        """One more entry."""
        self.lives.take(entry)
        before = self.last.get(entry.backend)
        facts = Facts(entry, before.entry if before else None)
        if before:
            before.following = entry
        facts.refusal = self.refusal_of(entry)
        self.caches.cache(entry.backend).begin(entry, self.uses.may_build(entry))
        self.uses.take(self, facts, before)
        facts.transaction = self.transactions.take(entry)
        self.caches.cut(entry)
        getattr(self, "take_" + entry.event.kind.replace(" ", "_"))(facts, entry)
        if ends_accept(entry.event):
            facts.cleared = self.locks.clear(entry)
        facts.left = self.log.left(entry.backend)
        self.facts.append(facts)
        self.last[entry.backend] = facts

    def take_start(self, facts, entry):
        """A backend joins."""
        self.log.start(entry)

    def take_stop(self, facts, entry):
        """A backend leaves, and with it what it keeps."""
        self.caches.clear(entry, LEFT)

    def take_look(self, facts, entry):
        """A look whether messages wait."""
        facts.batches = self.log.batches(entry.backend)

    def take_fetch(self, facts, entry):
        """A fetch of messages."""
        facts.batches = self.log.fetch(entry, entry.event.parts["count"])
        messages = [message for batch in facts.batches for message in batch.messages]
        facts.stale = self.caches.process(entry, messages, FETCHED)

    def take_fetch_reset(self, facts, entry):
        """A reset, in place of all messages that wait."""
        facts.batches = self.log.reset(entry)
        facts.stale = self.caches.clear(entry, RESET)

    def take_lock_ok(self, facts, entry):
        """A lock is granted."""
        rel, mode = entry.event.parts["rel"], entry.event.parts["mode"]
        facts.others = self.locks.of_others(entry.backend, rel)
        self.grant(facts, Lock(entry, rel, mode, self.names.name_of(rel)))

    def grant(self, facts, lock):
        """A lock is granted, by itself or with a new relation."""
        self.locks.grant(lock)
        facts.granted = [*facts.granted, lock]

    def take_lock_held(self, facts, entry):
        """A lock is refused."""

    def take_unlock(self, facts, entry):
        """One lock is released."""
        rel, mode = entry.event.parts["rel"], entry.event.parts["mode"]
        if not self.locks.find(entry.backend, rel, mode):
            raise fault_at(entry, "backend %d doesn't hold %s on %d", entry.backend, mode, rel)
        facts.released = self.locks.end(entry, lambda lock: (lock.rel, lock.mode) == (rel, mode))

    def take_scan(self, facts, entry):
        """A scan, and what it is part of."""
        parts = entry.event.parts
        facts.rows = self.rows.answer(entry.backend, datum_of(entry.event))
        if parts["purpose"] == "relname":
            facts.unseen = self.rows.unseen(entry.backend, parts["name"])
            facts.own = self.locks.of(entry.backend, self.rows.named(entry.backend, parts["name"]))
        name = self.names.name_of(parts["rel"]) if "rel" in parts else parts["name"]
        facts.kept = self.caches.scan(entry, facts.rows, name)
        if facts.kept.is_descriptor and facts.kept.first == entry.number:
            facts.suspended = self.caches.suspended(entry)

    def take_write(self, facts, entry):
        """The rows of a command are changed, and its messages processed by its own backend."""
        written = Written(entry.number, entry.command, [], [])
        for change in entry.event.parts["changes"]:
            if change.catalog == "class" and change.sign in "+=":
                self.give_name(facts, entry, change)
            named = [[message._replace(name=self.names.name_of(message.rel)) for message in messages]
                     for messages in self.change(entry, facts.transaction, change)]
            written.for_caches.extend(named[0])
            written.for_descriptors.extend(message for message in named[1] if message not in written.for_descriptors)
        facts.transaction.writes.append(written)
        facts.messages = written.for_caches + written.for_descriptors
        facts.stale = self.caches.process(entry, facts.messages, OWN_WRITE)

    def give_name(self, facts, entry, change):
        """A relation gets a name; a new one is locked."""
        rel, name = int(change.columns[0]), change.columns[1]
        self.names.give(Named(entry.number, entry.backend, entry.command, rel, name))
        if change.sign == "+":
            self.grant(facts, Lock(entry, rel, "ax", name, entry.number))

    def change(self, entry, transaction, change):
        """One change of a write; the messages that it leaves."""
        if change.sign == "!":
            return [], [of_descriptor(int(change.columns[0]))]
        old, new = self.rows.change(entry, transaction, change)
        if old is None and change.sign != "+":
            raise fault_at(entry, "backend %d sees no row of %s to change", entry.backend, change.catalog)
        return messages_of(old, new)

    def take_clash_row(self, facts, entry):
        """A write is refused, by a relation's name."""

    def take_clash_running(self, facts, entry):
        """A write is refused, by what a running transaction wrote."""

    def take_visible(self, facts, entry):
        """A transaction is committed."""
        touched = self.rows.touched(facts.transaction)
        self.rows.commit(facts.transaction)
        facts.outdated = self.caches.outdate(entry, touched, self.rows)
        for kept in facts.outdated:
            kept.outdated_by = facts.transaction

    def take_publish(self, facts, entry):
        """The next messages of a commit go into the queue."""
        messages = facts.transaction.publish(entry, entry.event.parts["count"])
        facts.published = facts.transaction.published
        facts.receivers = self.lives.alive()
        self.log.publish(entry, messages, facts.receivers)
        facts.batches = [Batch(entry.number, entry.backend, messages)]

    def take_release(self, facts, entry):
        """Locks are released."""
        first = entry.event.parts["from"]
        facts.released = self.locks.end(entry, lambda lock: lock.command >= first)

    def take_gone(self, facts, entry):
        """Writes are taken back, and their messages processed by their own backend."""
        first = entry.event.parts["from"]
        self.names.take_back(entry.backend, first)
        facts.messages = facts.transaction.take_back(first)
        self.rows.take_back(facts.transaction, first)
        facts.stale = self.caches.process(entry, facts.messages, TAKEN_BACK)

    def take_fail(self, facts, entry):
        """Memory is refused."""
        facts.stale = self.caches.clear(entry, FAILED)

    def refusal_of(self, entry):
        """What refuses an entry, or None where it isn't refused."""
        kind, parts = entry.event
        if kind == "lock held":
            lock = self.locks.find(parts["holder"], parts["rel"], parts["held"])
            if lock is None or lock.backend == entry.backend:
                raise fault_at(entry, "backend %d doesn't hold %s on %d", parts["holder"], parts["held"], parts["rel"])
            return Refusal(entry.number, entry.backend, lock.backend, lock.first, lock)
        if kind == "clash running":
            transaction = self.transactions.of_xid(parts["xid"])
            if transaction is None or transaction.backend == entry.backend:
                raise fault_at(entry, "transaction %d isn't one that another backend runs", parts["xid"])
            return Refusal(entry.number, entry.backend, transaction.backend, transaction.wrote, transaction)
        if kind == "clash row":
            named = self.names.giver(parts["rel"], parts["name"])
            if named is None:
                raise fault_at(entry, "no write gave relation %d the name %s", parts["rel"], parts["name"])
            return Refusal(entry.number, entry.backend, named.backend, named.entry, None)
        return None


class Story(NamedTuple):
    """A history, and what it comes to."""
    entries: List[Entry]
    facts: List[Facts]
    lives: List[Life]
    answers: Dict[int, List[Answer]]
    transactions: List[Transaction]
    locks: List[Lock]
    kept: List[Kept]
    log: Log
    refusals: List[Refusal]
    names: Names

    def called(self, rel, name):
        """A relation by its name, and where several have had that, or none is known, by its oid."""
        if not name:
            return "relation %d" % rel
        return "%s (%d)" % (name, rel) if len(self.names.rels.get(name, ())) > 1 else name


def placed_answers(output):
    """The answers by the entry at which their command ended: the backend's last one with that command's number, or, of a
    command without entries, with a number below."""
    commands: Dict[int, List[int]] = {}
    numbers: Dict[int, List[int]] = {}
    for entry in output.entries:
        commands.setdefault(entry.backend, []).append(entry.command)
        numbers.setdefault(entry.backend, []).append(entry.number)
    placed: Dict[int, List[Answer]] = {}
    for at, answer in enumerate(output.answers, len(output.entries) + 1):
        if answer.backend not in commands:
            raise Fault("line %d: an answer of backend %d, which made no entry" % (at, answer.backend))
        last = bisect.bisect_right(commands[answer.backend], answer.command) - 1
        placed.setdefault(numbers[answer.backend][last], []).append(answer)
    return placed


def story_of(output):
    """The fold of an output."""
    answers = placed_answers(output)
    model = Model(output)
    for entry in output.entries:
        model.take(entry)
    model.uses.finish_all(model)
    refusals = [facts.refusal for facts in model.facts if facts.refusal]
    return Story(output.entries, model.facts, [life for _, life in sorted(model.lives.all.items())], answers,
                 model.transactions.all, model.locks.all, model.caches.all, model.log, refusals, model.names)
