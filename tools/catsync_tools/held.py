"""A backend of a server as a schedule plays it: a session that is asked by a thread of its own, and its process, which is held
where a turn ends."""
import re
import threading
from typing import Callable, Dict, List, NamedTuple, Optional, Set, Tuple

from .descriptors import SHOWN, as_shown, fields_at
from .interrupts import waiting
from .points import AFTER, Executable, Watched
from .sql import GUARD, QUERIES, Answer, Asked

OPENS = 'select from "%s" where false'
ACCEPTS = "select from pg_attrdef where false"        # makes a session accept what waits for it


class Made(NamedTuple):
    """An event that a backend has made, or what else is said of it, by the server's oids: in which of its commands."""
    backend: int
    command: int
    event: Tuple


class Kept(NamedTuple):
    """A field as the descriptor has it by which a command is answered, and as the catalogs have it then."""
    value: str
    catalogs: str


class Seen(NamedTuple):
    """What an answer was read from: which relation's descriptor, its fields, whether a message for it waits for the backend, and how
    much of the log there was by then."""
    rel: int
    fields: Dict[str, Kept]
    is_waiting: bool
    at: int


class Sent:
    """The relations for whose descriptors messages were sent by those who are traced, in order; and what asks for a field of a
    relation as the catalogs have it, which no session of the script does."""

    def __init__(self, catalogs: Callable[[str, int], str]):
        self.rels: List[int] = []
        self.catalogs = catalogs


class Reading(Asked):
    """As `Asked`, but what shows a table opens it, as a query does, and so builds its descriptor; and what the descriptor in the
    process says counts, which no query shows. What needs queries in a block has them in a level of their own that is taken back: a
    lock of a catalog that they left would keep the block's later locks from accepting."""

    def __init__(self, session, oids: Dict[int, int], backend):
        super().__init__(session, oids)
        self.backend = backend

    def aside(self, ask):
        """What is asked for the tool itself, which is no part of the command."""
        backend, in_block = self.backend, self.in_block
        if backend.is_aside:
            return ask()
        backend.is_aside = True
        try:
            if in_block:
                self.session.ask('savepoint "%s"' % GUARD)
            return ask()
        finally:
            if in_block:
                self.session.ask('rollback to savepoint "%s"' % GUARD)
                self.session.ask('release savepoint "%s"' % GUARD)
            backend.is_aside = False

    def is_index(self, which):
        """Whether the relation of this name, or of this oid, is an index."""
        return self.aside(lambda: super(Reading, self).is_index(which))

    def value(self, query, which):
        """The only value of a query about the relation of this name, or of this oid, or `-`."""
        return self.aside(lambda: super(Reading, self).value(query, which))

    def lock(self, name, may_be_index):
        """The reply to a lock: that of a query."""
        if may_be_index and self.is_index(name):
            self.backend.forget_opened()
            return super().lock(name, may_be_index)
        return self.backend.opening(lambda: self.session.ask(OPENS % name))

    def fields(self, shown, oid=None):
        """The values of the fields. The descriptor is read before the queries for the others, which accept messages."""
        backend, rel = self.backend, oid or self.backend.opened
        said = {field: as_shown(value) for field, value in (backend.descriptor(oid) or {}).items() if field in SHOWN}
        if said and shown.field:
            said = {field: value for field, value in said.items() if field == shown.field}
        if said:
            self.note(rel, said)
        if shown.field in said:
            return "%s %s" % (shown.field, said[shown.field])
        text = self.aside(lambda: super(Reading, self).fields(shown, oid))
        for field, value in said.items() if text else ():
            text = re.sub(r"(?<!\S)%s [^;]*" % field, lambda _: "%s %s" % (field, value), text)
        return text

    def note(self, rel, said):
        """Notes what an answer is read from. What the session itself is about to change only it can see."""
        backend = self.backend
        catalogs = {field: self.value(QUERIES[field], rel) if rel in backend.changing else as_shown(backend.sent.catalogs(field, rel))
                    for field in said}
        backend.seen[backend.command] = Seen(rel, {field: Kept(value, catalogs[field]) for field, value in said.items()},
                                             backend.is_waiting(rel), len(backend.log))


class Backend:
    """A backend: what it has been asked and has answered, and what its process has made, which `log` has of all, and `sent` of all
    messages. `pair` is told each new relation."""

    def __init__(self, number, session, oids: Dict[int, int], offsets, pair, log: List[Made], sent: Optional[Sent] = None):
        self.number, self.offsets, self.pair, self.log = number, offsets, pair, log
        self.sent = sent or Sent(lambda *_: "-")
        self.fetched, self.is_lapped = len(self.sent.rels), False      # how many of these it has; whether it has lost what is left
        self.telling: List[int] = []                # the relations for which it processes messages, the innermost last
        self.changing: Set[int] = set()             # relations of which its transaction has written rows
        session.socket.settimeout(None)
        self.asked = Reading(session, oids, self)
        self.pid = int(session.ask("select pg_backend_pid()").rows[0][0])
        self.watched: Optional[Watched] = None
        self.command, self.is_busy, self.answer = 0, False, None
        self.place, self.not_held = None, None      # where it is to be held; why it wasn't
        self.made: List[Made] = []
        self.seen: Dict[int, Seen] = {}             # by command
        self.is_noted, self.is_alone = True, False  # whether what it makes is noted, and is for the server alone
        self.is_aside = False                       # whether it is asked for the tool itself
        self.say("start")

    @property
    def is_stopped(self):
        """Whether its process is stopped."""
        return self.watched is not None and not self.watched.is_running

    @property
    def is_at_rest(self):
        """Whether its process is stopped, or waits and has no signal to take; one that is in the midst of a command counts too."""
        if self.is_busy or self.watched is None or self.is_stopped:
            return True
        try:
            with open("/proc/%d/status" % self.pid) as file:
                fields = dict(line.split(":\t", 1) for line in file if ":\t" in line)
        except OSError:         # it has ended, which is told where it is waited for
            return True
        return fields["State"][0] == "S" and not any(int(fields[name], 16) for name in ("SigPnd", "ShdPnd"))

    def trace(self, executable: Executable):
        """Begins the tracing."""
        with waiting():         # else one might be traced of which nobody knows
            self.watched = Watched(self.pid, executable, self.note)
            self.watched.go()

    def note(self, phase, event):
        """Called at each event: whether the process is to stay there."""
        if event[0] == "told":
            self.follow_told(phase, event[1])
        if phase == AFTER:
            self.say(*event)
            self.follow(event)
        if self.place is None or self.is_alone or self.is_aside or not self.place.is_met(self.command, phase, event):
            return False
        self.not_held = self.watched.not_held(event)
        if self.not_held is not None:
            self.say("not held", self.not_held, phase, *event)
        return self.not_held is None

    def follow(self, event):
        """Follows what an event says of new relations, of changed ones, and of messages."""
        if event[:2] == ("write", "+class"):
            self.pair(self, event[2], event[3])
        if event[0] == "write":
            self.changing |= {part for part in event[2:3] if isinstance(part, int)}
        elif event[0] in ("visible", "gone"):
            self.changing = set()
        elif event[0] == "publish":
            self.sent.rels += event[2:]
        elif event[0] == "fetch" or event == ("look", "no"):
            self.fetched, self.is_lapped = len(self.sent.rels), False

    def follow_told(self, phase, rel):
        """Follows which messages for descriptors are processed, each inside of the one before; one for the same relation begins a rebuild
        inside of another."""
        if phase == AFTER:
            self.telling = self.telling[:-1]
            return
        if rel in self.telling:
            self.say("inside", rel)
        self.telling.append(rel)

    def is_waiting(self, rel):
        """Whether a message for a relation's descriptor is in the queue for it."""
        return self.is_lapped or rel in self.sent.rels[self.fetched:]

    def say(self, *event):
        """An event, or what else is said."""
        accepts = event[0] in ("look", "fetch")
        if self.is_noted and (accepts or not self.is_aside):
            self.made.append(Made(self.number, self.command, event))
            self.log += self.made[-1:] if accepts or not self.is_alone else []

    def leave(self):
        """It stops; what it makes from then on isn't noted."""
        self.say("stop")
        self.is_noted = False

    def begin(self, ask, wake):
        """Lets a thread ask the session, which calls `wake` once it is answered."""
        self.is_busy, self.telling = True, []
        if self.watched is not None:
            self.watched.is_failing = False

        def work():
            try:
                self.answer = ask()
            except BaseException as error:          # raised where the answer is taken
                self.answer = error
            self.is_busy = False
            wake()
        threading.Thread(target=work, daemon=True).start()

    def take_answer(self):
        """What it was answered."""
        answer, self.answer = self.answer, None
        if isinstance(answer, BaseException):
            raise answer
        return answer

    def opening(self, ask):
        """Asks something, and watches which relation is opened first for it."""
        if self.watched is None:
            return ask()
        self.watched.watch_opens(True)
        try:
            return ask()
        finally:
            if self.watched is not None:
                self.watched.watch_opens(False)

    @property
    def opened(self):
        """The relation that was opened first when that was watched last."""
        return self.watched and self.watched.opened

    def forget_opened(self):
        """None is opened from here on."""
        if self.watched is not None:
            self.watched.opened = None

    @property
    def used(self):
        """The relations of which it has made events."""
        return {part for made in self.made for part in made.event if isinstance(part, int)}

    def descriptor(self, oid=None):
        """What its descriptor says of a relation, of that which it has just opened where none is named; None where that can't be
        read."""
        watched = self.watched
        rel = watched and (oid or self.opened)
        at = watched and watched.descriptors.get(rel)
        return fields_at(watched, at, rel, self.offsets) if at and self.offsets else None

    def let_go(self):
        """Ends the tracing."""
        watched, self.watched = self.watched, None
        if watched is not None:
            watched.let_go()

    def cut(self):
        """Ends the session, whatever it does."""
        try:
            self.asked.session.socket.shutdown(2)
        except OSError:
            pass
        self.asked.session.socket.close()


def answer_of_server(reply) -> Answer:
    """What a command that is asked in the server alone is answered."""
    rows = "; ".join(", ".join(str(value) for value in row) for row in reply.rows)
    return Answer("error %s %s" % reply.error if reply.error else rows or reply.tag, ["%s %s" % each for each in reply.warnings])
