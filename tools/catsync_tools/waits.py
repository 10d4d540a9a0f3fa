"""Commands whose locks are waited for, made of commands that are refused at once: a backend that would wait makes no step until
its lock is free, which is the same. Who comes first is told as in the server (lock.c, proc.c): a request is granted behind those
that wait already, but for who holds what these wait for.
"""
from typing import Dict, List, NamedTuple, Optional, Set, Tuple

from .access import created
from .deadlocks import Search
from .events import MODES, read_event
from .faults import Fault
from .program import Run, Step
from .scripts import steps_line

MOST = 100000           # steps of one command

# Which modes conflict with each.
CONFLICTS = {"as": "ax", "rs": "ex ax", "rx": "sh sr ex ax", "su": "su sh sr ex ax", "sh": "rx su sr ex ax", "sr": "rx su sh sr ex ax",
             "ex": "rs rx su sh sr ex ax", "ax": " ".join(MODES)}
CONFLICTING: Dict[str, Set[str]] = {mode: set(modes.split()) for mode, modes in CONFLICTS.items()}


class Wait(NamedTuple):
    """What a backend waits for: a mode of a relation's lock, or the end of a transaction."""
    backend: int
    rel: int
    mode: str
    xid: int = 0


class Held(NamedTuple):
    """A lock that a command of a backend was granted."""
    backend: int
    command: int
    rel: int
    mode: str


def conflict(wait: Wait, queue):
    """Whether one of those who wait is in the way of a request."""
    return any(other.mode in CONFLICTING[wait.mode] for other in queue)


class Named(NamedTuple):
    """A name that a command of a backend gave a relation, in a transaction; whether the relation had another one before."""
    backend: int
    command: int
    xid: int
    rel: int
    name: str
    is_new: bool


class Locks:
    """The locks that are held, and the queue of each relation."""

    def __init__(self):
        self.held: List[Held] = []
        self.queues: Dict[int, List[Wait]] = {}

    def take(self, backend, command, event):
        """One more step."""
        kind, parts = event
        if kind == "lock ok":
            self.held.append(Held(backend, command, parts["rel"], parts["mode"]))
        elif kind == "unlock":
            last = [lock for lock in self.held if (lock.backend, lock.rel, lock.mode) == (backend, parts["rel"], parts["mode"])][-1]
            self.held.remove(last)
        elif kind == "release":
            self.held = [lock for lock in self.held if lock.backend != backend or lock.command < parts["from"]]
        elif kind == "write":
            self.held += [Held(backend, command, rel, "ax") for rel in created(event)]

    def own(self, backend, rel):
        """The modes in which a backend holds a relation."""
        return {lock.mode for lock in self.held if (lock.backend, lock.rel) == (backend, rel)}

    def holders(self, wait: Wait):
        """The others whose locks are in the way."""
        return {lock.backend for lock in self.held
                if lock.rel == wait.rel and lock.backend != wait.backend and lock.mode in CONFLICTING[wait.mode]}

    def waits_behind(self, wait: Wait):
        """Whether those who wait already are before a request that no lock is in the way of."""
        queue, place = self.queues.get(wait.rel, []), self.place(wait)
        if wait.mode in self.own(wait.backend, wait.rel) or not conflict(wait, queue):
            return False
        return place in (None, len(queue)) or conflict(wait, queue[:place])

    def place(self, wait: Wait):
        """The place in the queue for a request; None where two wait for each other there."""
        own, queue = self.own(wait.backend, wait.rel), self.queues.get(wait.rel, [])
        for place, other in enumerate(queue):
            if own & CONFLICTING[other.mode]:
                return None if self.own(other.backend, wait.rel) & CONFLICTING[wait.mode] else place
        return len(queue)

    def join(self, wait: Wait):
        """A backend begins to wait; whether that can ever end."""
        place = self.place(wait)
        if place is None:
            return False
        self.queues.setdefault(wait.rel, []).insert(place, wait)
        return True

    def leave(self, wait: Wait):
        """A backend waits no more."""
        self.queues[wait.rel].remove(wait)

    def ahead(self, wait: Wait, queue=None):
        """Those who wait before a backend for what is in its way, in a queue or in one that would be put in its place."""
        queue = self.queues.get(wait.rel, []) if queue is None else queue
        place = queue.index(wait) if wait in queue else 0
        return [other.backend for other in queue[:place] if other.mode in CONFLICTING[wait.mode]]

    def free(self):
        """The first of those whose turn has come, or None."""
        for queue in self.queues.values():
            ahead: Set[str] = set()
            for wait in queue:
                if not ahead & CONFLICTING[wait.mode] and not self.holders(wait):
                    return wait
                ahead.add(wait.mode)
        return None


class Walker:
    """Runs scripts, each once."""

    def __init__(self, program, backends):
        self.program, self.backends = program, backends
        self.known: Dict[bytes, Run] = {}

    def run(self, commands, turns):
        """The run of these commands of backends by these turns."""
        lines = ["backends %d" % self.backends] + ["%d: %s" % (backend, command) for backend in sorted(commands)
                                                    for command in commands[backend]]
        script = "\n".join(lines + ([steps_line(turns)] if turns else []) + ["end", ""]).encode()
        if script not in self.known:
            self.known[script] = self.program.run(script)
        return self.known[script]


class Play:
    """What backends have done so far, each command to its end or to where it waits."""

    def __init__(self, walker: Walker):
        self.walker, self.locks = walker, Locks()
        self.commands: Dict[int, List[str]] = {}
        self.turns: List[Tuple[int, int]] = []
        self.steps: List[Step] = []             # that were made
        self.waits: Dict[int, Wait] = {}        # in the order in which they began
        self.nowait: Set[int] = set()           # backends that wait for no lock
        self.running: Dict[int, int] = {}       # of transactions that have written: the backend
        self.names: List[Named] = []            # that relations were given, the latest last
        self.answers: Dict[Tuple[int, int], str] = {}
        self.victims: Set[int] = set()          # backends whose command a deadlock ended
        self.clashed: Set[Tuple[int, int]] = set()      # commands that have waited for a name

    def command(self, backend, text, nowait=False):
        """Begins a backend's next command; whether it came to its end. It is refused at once what would wait, where that is
        wanted."""
        self.commands.setdefault(backend, []).append(text)
        (self.nowait.add if nowait else self.nowait.discard)(backend)
        return self.go_on(backend)

    def answer(self, backend):
        """What a backend's last command was answered."""
        return self.answers[backend, len(self.commands[backend])]

    def go_on(self, backend, granted=False, refused=False):
        """A backend makes its steps up to its command's end, or up to a lock that isn't free; whether it came to the end. The first
        of them may be granted, though others wait, or be refused, to end a deadlock."""
        run = self.walker.run(self.commands, self.turns + [(backend, MOST)])
        first, wait = len(self.steps), None
        for _, command, text in run.steps[first:]:
            if command > len(self.commands[backend]):
                break
            event = read_event(text)
            wait = None if refused else self.wait(backend, event, granted)
            if wait is not None:
                break
            granted = refused = False
            self.take(backend, command, event)
            self.steps.append((backend, command, text))
        if len(self.steps) > first:
            self.turns.append((backend, len(self.steps) - first))
        if wait is None:
            self.waits.pop(backend, None)
            words = [line.split(" ", 3) for line in run.answers]
            self.answers[backend, len(self.commands[backend])] = next(
                text for _, whose, number, text in words if (int(whose), int(number)) == (backend, len(self.commands[backend])))
            return True
        return self.begin_to_wait(backend, wait)

    def begin_to_wait(self, backend, wait: Wait):
        """A backend waits. Where it and another wait for each other's locks on one relation, it is refused that at once."""
        if self.waits.get(backend) == wait:
            return False
        if not wait.mode:
            self.clashed.add((backend, len(self.commands[backend])))
        if wait.mode and not self.locks.join(wait):
            self.victims.add(backend)
            return self.go_on(backend, refused=True)
        self.waits.pop(backend, None)
        self.waits[backend] = wait
        return False

    def wait(self, backend, event, granted) -> Optional[Wait]:
        """What the next step would wait for."""
        kind, parts = event
        if backend in self.nowait:
            return None
        if kind == "lock held":
            return Wait(backend, parts["rel"], parts["mode"])
        if kind == "lock ok" and not granted:
            wait = Wait(backend, parts["rel"], parts["mode"])
            return wait if self.locks.waits_behind(wait) else None
        if kind == "clash running" and self.is_given(parts["xid"], parts["name"]):
            return Wait(backend, 0, "", parts["xid"])
        return None

    def is_given(self, xid, name):
        """Whether a running transaction has given a relation this name; one that it took from it or wrote anew isn't waited for."""
        return any((each.xid, each.name) == (xid, name) and each.is_new for each in self.names)

    def take(self, backend, command, event):
        """One more step is made."""
        self.locks.take(backend, command, event)
        if event.kind == "write":
            self.running[event.parts["xid"]] = backend
            self.name(backend, command, event.parts)
        if event.kind == "gone":
            self.names = [each for each in self.names if each.backend != backend or each.command < event.parts["from"]]

    def name(self, backend, command, parts):
        """Takes down which names a write gives."""
        for change in parts["changes"]:
            if change.catalog == "class" and change.sign in "+=":
                rel, name = int(change.columns[0]), change.columns[1]
                before = next((each.name for each in reversed(self.names) if each.rel == rel), None)
                self.names.append(Named(backend, command, parts["xid"], rel, name, before != name))

    def settle(self):
        """All whose turn has come go on; those that came to their command's end."""
        ended = []
        while True:
            wait = self.locks.free()
            made = len(self.steps)
            if wait is not None:
                self.locks.leave(wait)
                del self.waits[wait.backend]
                ended += [wait.backend] if self.go_on(wait.backend, granted=True) else []
                continue
            for backend in [wait.backend for wait in self.waits.values() if not wait.mode]:
                ended += [backend] if self.go_on(backend) else []
            if len(self.steps) == made:
                return ended

    # Deadlocks

    def blockers(self, backend):
        """Those whom a backend waits for, and whom these wait for."""
        reached: Set[int] = set()
        left = [backend]
        while left:
            other = left.pop()
            ahead = self.locks.ahead(self.waits[other]) if other in self.waits else []
            new = self.directly(other).union(ahead) - reached
            reached |= new
            left += new
        return reached

    def directly(self, backend):
        """Those whose locks, or whose transaction, a backend waits for."""
        wait = self.waits.get(backend)
        if wait is None:
            return set()
        return self.locks.holders(wait) if wait.mode else {self.running[wait.xid]}

    def deadlock(self) -> List[int]:
        """Backends that wait for each other, or none; in the order in which they began to."""
        for first in self.waits:
            if first in self.blockers(first):
                return [backend for backend in self.waits if backend in self.blockers(first) and first in self.blockers(backend)]
        return []

    def let_by(self, backend):
        """A backend that looks finds queues in which it doesn't wait for those who wait for it; whether there are such."""
        queues = Search(self.locks, self.waits, self.directly).queues(backend)
        self.locks.queues.update(queues or {})
        return queues is not None

    def refuse(self, backend):
        """A backend's wait ends with an error; its command comes to its end."""
        wait = self.waits.pop(backend)
        if wait.mode:
            self.locks.leave(wait)
        if not self.go_on(backend, refused=True):
            raise Fault("backend %d goes on after a deadlock" % backend)
