"""One permutation of a spec, as isolationtester runs and reports it (isolationtester.c, run_permutation)."""
import re
from typing import Dict, List, NamedTuple, Optional, Set

from .isolation import ONCE, Placed, Spec
from .outputs import PLACE
from .refused import refusals
from .statements import Rows, Sayer, Statement, is_silent
from .waits import Play
from .wording import message_of, warning_of

LINE, ROWS, UNKNOWN = "line", "rows", "unknown"
COLUMN_GOES = "there the indexes and keys of a column go with it, as docs/PROFILE.md says"
SET_UP, TEARDOWN = "the set-up", "the teardown"
STANDARD, SOON = 1.0, 0.1       # seconds: of deadlock_timeout, and of one that is over before the next step


class Item(NamedTuple):
    """A part of the report: its kind, its text, and of which step, or of which set-up or teardown."""
    kind: str
    text: str
    step: Optional[str] = None
    alone: Optional[str] = None


class Played(NamedTuple):
    """The parts of a permutation's report; why it can't go on, where it can't; and how the server differs, each with the places."""
    items: List[Item]
    stuck: Optional[str]
    differs: Dict[str, List[str]]


class Stuck(Exception):
    """A step waits for ever."""


def alone(what, session=None):
    """The name of a set-up or a teardown, which may be a session's."""
    return what if session is None else "%s of %s" % (what, session)


class Active:
    """A step that was begun, or what is run alone: what of it is left, and what it has been answered."""

    def __init__(self, placed: Placed, statements: List[Statement], backend, order, name=None):
        self.placed, self.backend, self.order, self.alone = placed, backend, order, name
        self.left = list(statements)
        self.statement: Optional[Statement] = None
        self.commands: List[str] = []           # of the statement, that are left
        self.items: List[Item] = []
        self.refusals: List[str] = []           # of what was done here, by a server
        self.is_implicit = False                # whether it is a transaction block without a word
        self.is_done = False

    @property
    def step(self):
        """The step."""
        return self.placed.step

    @property
    def place(self):
        """What it is called in a note."""
        return "step " + self.step.name if self.step else self.alone


class Permutation:
    """A permutation. Session number N is backend N; one backend more makes the set-up."""

    def __init__(self, spec: Spec, sayer: Sayer, walker):
        self.spec, self.sayer, self.play = spec, sayer, Play(walker)
        self.control = len(spec.sessions) + 1
        self.items: List[Item] = []
        self.in_block: Dict[int, bool] = {}
        self.timeouts: Dict[int, float] = {}
        self.active: Dict[int, Active] = {}     # of backends
        self.waiting: List[Active] = []
        self.notices: Dict[str, int] = {}
        self.wanted: Dict[tuple, int] = {}
        self.begun = 0
        self.differs: Dict[str, List[str]] = {}
        self.filled: Set[str] = set()           # tables that may have rows
        self.names: Dict[int, str] = {number: session.name for number, session in enumerate(spec.sessions, 1)}

    def run(self, placed: List[Placed]):
        """Runs the permutation: the parts of its report."""
        self.line("starting permutation: " + " ".join(each.step.name for each in placed))
        try:
            self.run_all(placed)
        except Stuck as stuck:
            return Played(self.items, str(stuck), self.differs)
        return Played(self.items, None, self.differs)

    def run_all(self, placed: List[Placed]):
        """Set-up, steps and teardown. Of the teardown that alone is run which may show something."""
        sessions = list(enumerate(self.spec.sessions, 1))
        for backend, sql in [(self.control, sql) for sql in self.spec.setup] + [
                (number, sql) for number, session in sessions for sql in session.setup]:
            self.run_alone(backend, sql, SET_UP)
        for each in placed:
            self.launch(each)
        left = self.complete_all(self.waiting, False)
        if left:
            raise Stuck("step %s waits for others that wait" % left[0].step.name)
        for backend, sql in [(number, sql) for number, session in sessions for sql in session.teardown] + [
                (self.control, sql) for sql in self.spec.teardown]:
            if re.search(r"\bselect\b", sql, re.IGNORECASE):
                self.run_alone(backend, sql, TEARDOWN)

    def line(self, text, step=None):
        """One more line of the report."""
        self.items.append(Item(LINE, text, step))

    # Steps

    def run_alone(self, backend, sql, what):
        """Runs a set-up or a teardown."""
        statements = [statement for statement in self.sayer.step(sql) if statement.reason is None]
        active = Active(Placed(None), statements, backend, 0, alone(what, self.names.get(backend)))
        if not self.advance(active):
            raise Stuck("a set-up or a teardown waits")
        errors = [item.text for item in active.items if item.kind == LINE]
        if errors:
            raise Stuck("a set-up or a teardown fails: %s" % errors[0])
        if active.refusals:
            raise Stuck("a set-up or a teardown fails in a server: %s" % active.refusals[0])
        self.items += active.items

    def launch(self, placed: Placed):
        """Begins a step, once its session is free."""
        statements = self.sayer.step(placed.step.sql)
        if is_silent(statements):
            return
        backend = placed.step.session
        while backend in self.active:
            old = self.active[backend]
            if not self.try_complete(old, True, False):
                self.waiting = [each for each in self.waiting if each is not old]
            before = len(self.waiting)
            self.waiting = self.complete_all(self.waiting, True)
            if backend in self.active and old.is_done and len(self.waiting) == before:
                raise Stuck("step %s waits for ever" % old.step.name)
        self.end_deadlock(SOON)
        self.begun += 1
        active = self.active[backend] = Active(placed, [each for each in statements if each.reason is None], backend, self.begun)
        for blocker in placed.blockers:
            if blocker.notices is not None:
                self.wanted[id(active), blocker.name] = blocker.notices + self.said(blocker.name)
        self.advance(active)
        self.settle()
        must_wait = self.try_complete(active, False, True)
        self.waiting = self.complete_all(self.waiting, True)
        if must_wait:
            self.waiting.append(active)

    def said(self, name):
        """How many notices the session of a step has said."""
        return self.notices.get(self.names[self.spec.steps[name].session], 0)

    def settle(self):
        """All whose turn has come go on, step by step."""
        ended = self.play.settle()
        while ended:
            for backend in ended:
                self.go_on(self.active[backend])
            ended = self.play.settle()

    def go_on(self, active: Active):
        """A step whose command came to its end goes on."""
        self.take_answer(active)
        self.advance(active)

    def advance(self, active: Active):
        """A step makes its commands, up to where it waits; whether it is done."""
        while True:
            if not active.commands and not self.next_statement(active):
                active.is_done = True
                return True
            command = active.commands.pop(0)
            nowait = active.statement is not None and active.statement.nowait
            if not self.play.command(active.backend, command, nowait):
                return False
            self.take_answer(active)

    def next_statement(self, active: Active):
        """The next statement of a step begins; whether there is something left to do."""
        if active.statement is not None:
            self.end_statement(active)
        if not active.left:
            active.statement = None
            if active.is_implicit:
                active.is_implicit = False
                active.commands = ["commit"]
                return True
            return False
        several = len(active.left) > 1 or len(active.left[0].commands) > 1 or any(
            command.split(" ")[0] in ("lock", "open") for command in active.left[0].commands)
        needs = active.left[0].commands and active.left[0].commands[0] not in ("begin", "commit", "rollback")
        is_lock = active.left[0].text.startswith("lock ") and len(active.left) == 1
        if several and needs and not is_lock and not self.in_block.get(active.backend) and not active.is_implicit:
            active.is_implicit = True
            active.commands = ["begin"]
            return True
        active.statement = active.left.pop(0)
        active.commands = list(active.statement.commands)
        return bool(active.commands) or self.next_statement(active)

    def end_statement(self, active: Active):
        """A statement has come to its end: its result is shown, and its block begins or ends."""
        statement, active.statement = active.statement, None
        name = active.step.name if active.step else None
        if statement.timeout is not None:
            self.timeouts[active.backend] = statement.timeout
        if statement.commands[:1] == ("begin",):
            self.in_block[active.backend] = True
            active.is_implicit = False
        if statement.commands[:1] in (("commit",), ("rollback",)):
            self.in_block[active.backend] = active.is_implicit = False
        self.filled |= {statement.fills} if statement.fills else set()
        for how in ([statement.differs] if statement.differs else []) + refusals(
                self.play.steps, active.backend, statement.claims):
            active.refusals.append(how)
            self.differs.setdefault(how, []).append(active.place)
        if statement.shows:
            rows = self.rows(active, statement.rows) if statement.rows else None
            active.items.append(Item(ROWS if rows else UNKNOWN, rows or statement.text, name, active.alone))

    def rows(self, active: Active, rows: Rows):
        """The result of a query of a table without rows, as isolationtester prints it, or None where it can't be said."""
        text = PLACE.sub("", self.play.answer(active.backend))
        if rows.table in self.filled or self.filled and self.sayer.renames:
            return None
        fields = dict(field.split(" ", 1) for field in text.split("; ")) if text.startswith("table ") else {}
        columns = [column.split(":")[0] for column in fields.get("columns", "-").split(" ")]
        if columns == ["-"]:
            return None
        if rows.columns == ("count(*)",):
            return "count\n-----\n    0\n(1 row)\n"
        names = columns if rows.columns == ("*",) else rows.columns
        if not set(names) <= set(columns):
            return None
        return "%s\n%s\n(0 rows)\n" % ("|".join(names), "+".join("-" * len(name) for name in names))

    def take_answer(self, active: Active):
        """A command of a step was answered: an error ends the step."""
        play, statement = self.play, active.statement
        number = len(play.commands[active.backend])
        command, answer = play.commands[active.backend][-1], play.answer(active.backend)
        name = active.step.name if active.step else None
        if statement is None:
            return
        self.warn(active, warning_of(command, self.in_block.get(active.backend) or active.is_implicit))
        if not answer.startswith("error "):
            return
        if answer.startswith("error 0A000 ") and re.fullmatch("alter table .* drop column .*", command):
            self.differs.setdefault(COLUMN_GOES, []).append(active.place)
        waited = (active.backend, number) in play.clashed
        active.items.append(Item(LINE, "ERROR:  " + message_of(PLACE.sub("", answer), command, waited,
                                                               active.backend in play.victims), name))
        play.victims.discard(active.backend)
        active.left, active.commands, active.statement = [], [], None
        if active.is_implicit:
            active.is_implicit = False
            active.commands = ["rollback"]

    def warn(self, active: Active, warning):
        """A session says a warning, as soon as it is said."""
        if warning and active.backend in self.names:
            session = self.names[active.backend]
            self.notices[session] = self.notices.get(session, 0) + 1
            self.line("%s: WARNING:  %s" % (session, warning), active.step.name if active.step else None)

    # Reports

    def try_complete(self, active: Active, is_retry, is_polled):
        """Reports a step, if it is done; whether it isn't. A step that isn't polled is waited for."""
        step, blockers = active.step, active.placed.blockers
        waits = "step %s: %s <waiting ...>" % (step.name, step.sql)
        if not is_retry and any(blocker.name == ONCE for blocker in blockers):
            self.line(waits, step.name)
            return True
        while not active.is_done and not is_polled:
            if not self.end_deadlock(None):
                raise Stuck("step %s waits for ever" % step.name)
        if not active.is_done or self.has_blocker(active):
            if not is_retry:
                self.line(waits, step.name)
            return True
        self.line("step %s: %s" % (step.name, "<... completed>" if is_retry else step.sql), step.name)
        self.items += active.items
        del self.active[active.backend]
        return False

    def has_blocker(self, active: Active):
        """Whether a step isn't said to be done yet."""
        for blocker in active.placed.blockers:
            if blocker.name == ONCE:
                continue
            other = self.active.get(self.spec.steps[blocker.name].session)
            if blocker.notices is None and other is not None and other.step.name == blocker.name:
                return True
            if blocker.notices is not None and self.said(blocker.name) < self.wanted[id(active), blocker.name]:
                return True
        return False

    def complete_all(self, waiting, is_polled):
        """Reports those of these steps that are done, again where one may wait for another; those that are left."""
        while True:
            left = [active for active in waiting if self.try_complete(active, True, is_polled)]
            if len(left) == len(waiting) or not any(active.placed.blockers for active in left):
                return left
            waiting = left

    # Deadlocks

    def end_deadlock(self, within):
        """Of those who wait for each other one is let by, or else one is refused, if that comes within so many seconds; whether one
        was. Who has waited for its deadlock_timeout looks once: the first to do so after all wait."""
        circle = self.play.deadlock()
        last = circle[-1:]
        times = {backend: self.timeouts.get(backend, STANDARD) for backend in circle}
        could = [backend for backend in circle if backend in last or times[backend] > SOON]
        if not could:
            return False
        first = min(could, key=lambda backend: (times[backend], self.active[backend].order))
        if within is not None and times[first] > within:
            return False
        if not self.play.let_by(first):
            self.play.victims.add(first)
            self.play.refuse(first)
            self.go_on(self.active[first])
        self.settle()
        return True
