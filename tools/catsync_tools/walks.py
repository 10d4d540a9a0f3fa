"""Walks: the steps that backends make under a schedule, some of which are known without a run.

How a step comes out is decided by what its backend has read so far and by what it reads now: by the steps that have changed
that before it (access.py). So steps are put down in trees. A `State` is where a backend's own steps have led to, and has how
its next step comes out for all that it was seen to read. What backends share is a `Content` for each resource, where the
steps that change it have led to. A walk goes on by steps that are known, and the program is run for the first that isn't.

That this holds is tested all the time: whatever is run has to agree with what is known, and of the orders of which all
steps are known some are run too.
"""
from typing import Dict, Iterator, List, NamedTuple, Optional, Tuple

from .access import LOG, Access, Accesses, created
from .events import read_event
from .faults import Fault
from .findings import without_places
from .history import History, Placed

MOST_KNOWN = 200000     # places in trees, before all are forgotten
RUN_ANYWAY = 100        # of so many orders of which all steps are known one is run
FEW = 31                # messages, with which no queue is half full: then it doesn't matter who has read them


class Walks:
    """Walks of which each is run."""

    def __init__(self, run, accesses):
        self.run = run          # a function of whose the first steps are, and of who then goes on to the stop
        self.accesses = accesses
        self.last: Tuple[str, ...] = ()

    def go(self, history: History, place, made, rest) -> Iterator[Tuple[int, Placed]]:
        """Makes the steps of a schedule, of which as many as `place` says were made; yields each new one with its place."""
        run, known = self.run(made, rest), history.steps[:place]
        history.keep(0)
        self.accesses.start()
        for at, (backend, command, text) in enumerate(run.steps):
            history.place(backend, self.accesses.of((backend, command, text)), command, text)
            check_same(known, history.steps)
            if at >= len(known):
                yield at, history.steps[at]
        self.last = run.answers

    def answers(self, _history, _made, _rest):
        """The answers of the walk that was made last."""
        return self.last


def check_same(known, steps):
    """The program makes the same steps in the same order."""
    place = len(steps) - 1
    if place < len(known) and (known[place].backend, known[place].text) != (steps[-1].backend, steps[-1].text):
        raise Fault("the program made another step %d in the same order: %s" % (place + 1, steps[-1].text))


class Content:
    """Where the steps that change a resource have led to; and where each next one leads to from there."""
    __slots__ = ("after",)

    def __init__(self):
        self.after: Dict[tuple, Content] = {}


class State:
    """Where a backend's steps have led to: its own steps that others can see the work of, the access of its next step, how
    that comes out for what it reads, and the states after it; once it has stopped, its answers."""
    __slots__ = ("visible", "access", "outcomes", "after", "answers")

    def __init__(self, visible: Content):
        self.visible = visible
        self.access: Optional[Access] = None
        self.outcomes: Dict[Tuple[Content, ...], Outcome] = {}
        self.after: Dict[tuple, State] = {}
        self.answers: Optional[Tuple[str, ...]] = None


class Outcome(NamedTuple):
    """How a step comes out: its command and text, its backend's state after it, what it changes, and how many messages it
    publishes."""
    command: int
    text: str
    state: State
    changes: Tuple[tuple, ...]
    messages: int


class Past:
    """What a history has led to: the state of each backend, and the content of each resource."""

    def __init__(self, trees):
        self.trees = trees
        self.states: Dict[int, State] = {}
        self.contents: Dict[tuple, Content] = {}
        self.messages = trees.messages
        self.replaced: List[tuple] = []

    def state(self, backend):
        """The state of a backend."""
        return self.states.get(backend) or self.trees.start(backend)

    def read(self, access: Access):
        """The contents that a step reads."""
        return tuple([self.contents.get(resource, self.trees.empty) for resource in access.reads])

    def add(self, backend, outcome: Outcome):
        """One more step."""
        earlier = self.state(backend)
        change = (backend, outcome.command, outcome.text, outcome.state.visible)
        self.replaced.append((backend, earlier, [(resource, self.contents.get(resource, self.trees.empty))
                                                 for resource in outcome.changes], outcome.messages))
        for resource in outcome.changes:
            self.contents[resource] = self.trees.next(self.contents.get(resource, self.trees.empty).after, change, Content)
        self.states[backend] = outcome.state
        self.messages += outcome.messages

    def keep(self, count):
        """Takes off all steps after so many."""
        while len(self.replaced) > count:
            backend, self.states[backend], contents, messages = self.replaced.pop()
            self.contents.update(contents)
            self.messages -= messages


class Trees:
    """All that is known."""

    def __init__(self, messages, is_reading_seen):
        self.messages = messages                # before all walks
        self.is_reading_seen = is_reading_seen  # whether it matters who has read messages
        self.empty = Content()
        self.starts: Dict[int, State] = {}
        self.size = 0

    def start(self, backend):
        """The state of a backend before its first step."""
        return self.starts.setdefault(backend, State(self.empty))

    def next(self, after, key, make):
        """The next place in a tree."""
        found = after.get(key)
        if found is None:
            self.size += 1
            found = after[key] = make()
        return found

    def put_down(self, past: Past, access: Access, step):
        """How the next step of a run comes out, which may be known."""
        backend, command, text = step
        state, read = past.state(backend), past.read(access)
        if state.access is None:
            state.access = access
        if read not in state.outcomes:
            state.outcomes[read] = self.outcome(past, access, step)
        outcome = state.outcomes[read]
        if state.access != access or (outcome.command, outcome.text) != (command, text):
            raise Fault("two schedules of one order have other steps, so it isn't one: %s" % text)
        return outcome

    def outcome(self, past: Past, access: Access, step):
        """How a step comes out."""
        backend, command, text = step
        state, event = past.state(backend), read_event(text)
        follows = access.reads == (LOG,)
        learned = (command, text, self.learned(past, access, event))
        visible = state.visible if follows else self.next(state.visible.after, learned, Content)
        changes = access.changes + tuple(("locks", rel) for rel in created(event))
        if event.kind == "lock held":
            changes = ()
        elif follows and self.is_reading_seen:
            changes = access.reads
        return Outcome(command, text, self.next(state.after, learned, lambda: State(visible)), changes,
                       event.parts["count"] if event.kind == "publish" else 0)

    def learned(self, past: Past, access: Access, event):
        """What a backend knows of what it has read, beyond the text of its step."""
        if event.kind == "start" and not self.is_reading_seen:
            return past.messages
        return past.read(access) if event.kind in ("start", "fetch", "fetch reset", "scan") else ()


class KnownWalks:
    """Walks of which only those are run that have a step which isn't known."""

    def __init__(self, run, accesses: Accesses):
        self.run, self.accesses = run, accesses
        self.orders = 0
        self.others: Dict[int, Tuple[str, ...]] = {}    # answers of backends that make no steps
        self.forget(False)

    def forget(self, is_reading_seen):
        """Forgets all steps."""
        published = [read_event(text).parts["count"] for _, _, text in self.accesses.past if text.startswith("publish ")]
        self.trees = Trees(sum(published), is_reading_seen)

    def go(self, history: History, place, made, rest) -> Iterator[Tuple[int, Placed]]:
        """Makes the steps of a schedule, of which as many as `place` says were made; yields each new one with its place."""
        history.keep(place)
        past = self.past(history, made, rest)
        past.keep(place)
        for backend in turns(history, made, rest):
            found = self.known(past, backend)
            while found is None:
                past = self.learn(history, made, rest)
                found = self.known(past, backend)
            access, outcome = found
            history.place(backend, access, outcome.command, outcome.text)
            past.add(backend, outcome)
            yield len(history.steps) - 1, history.steps[-1]

    def past(self, history: History, made, rest) -> Past:
        """What a history has led to."""
        if self.trees.size > MOST_KNOWN:
            self.forget(self.trees.is_reading_seen)
        if not history.steps:
            history.past = Past(self.trees)
        elif history.past.trees is not self.trees:
            self.learn(history, made, rest)
        return history.past

    def known(self, past: Past, backend):
        """The access and the outcome of a backend's next step, if they are known."""
        if past.messages > FEW and not self.trees.is_reading_seen:
            self.forget(True)
            return None
        state = past.state(backend)
        outcome = None if state.access is None else state.outcomes.get(past.read(state.access))
        return None if outcome is None else (state.access, outcome)

    def learn(self, history: History, made, rest) -> Past:
        """Runs the program, and puts down all steps; they begin as a history does. What that has led to."""
        run, seen, past = self.run(made, rest), [], Past(self.trees)
        self.accesses.start()
        for step in run.steps:
            outcome = self.trees.put_down(past, self.accesses.of(step), step)
            past.add(step[0], outcome)
            seen.append(Made(step[0], outcome.text))
            check_same(history.steps, seen)
        self.put_down_answers(past, without_places(run.answers))
        past.keep(len(history.steps))
        history.past = past
        return past

    def put_down_answers(self, past: Past, answers):
        """Puts down the answers of all backends that have stopped."""
        found: Dict[int, List[str]] = {backend: [] for backend in past.states}
        for line in answers:
            found.setdefault(int(line.split(" ", 2)[1]), []).append(line)
        for backend, lines in found.items():
            if backend not in past.states:
                self.others[backend] = tuple(lines)
                continue
            state = past.states[backend]
            if state.answers not in (None, tuple(lines)):
                raise Fault("two schedules of one order have other answers, so it isn't one: %s" % "; ".join(lines))
            state.answers = tuple(lines)

    def answers(self, history: History, made, rest):
        """The answers, without places, of a walk in which all have stopped."""
        self.orders += 1
        if self.orders % RUN_ANYWAY == 0:
            self.learn(history, made, rest)
        own = {backend: state.answers for backend, state in history.past.states.items()}
        own.update(self.others)
        return tuple([line for backend in sorted(own) for line in own[backend]])


class Made(NamedTuple):
    """A step of a run."""
    backend: int
    text: str


def turns(history: History, made, rest):
    """Whose step is next in a schedule, after those that a history has."""
    yield from made[len(history.steps):]
    for backend in rest:
        while not history.is_stopped(backend):
            yield backend
