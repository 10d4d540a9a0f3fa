"""A script's schedule, played in a server: each turn of the history is made by the backend's process there, which is held where
the turn ends."""
import contextlib
import re
import time
from typing import Dict, List, NamedTuple, Tuple

from .audit import Stale, Unread, audit_of, audit_of_all, catalogs_of, take_back
from .faults import Fault
from .held import Backend, Made, Sent, answer_of_server
from .outputs import PLACE
from .places import Schedule, Turn
from .sources import Source
from .sql import Answer, referred_in, statement_of
from .stage import Stage, followed
from .tracing import Unplayable

MOST_TOLD = 6           # events that are told where a place isn't met

Command = Tuple[int, int]


class Served(NamedTuple):
    """What was asked in the server alone, after a command: the SQL, and its answer."""
    command: Command
    sql: str
    answer: Answer


class PlayedTurn(NamedTuple):
    """A turn: its entries here, and what its backend has made in the server since its turn before."""
    turn: Turn
    entries: List[Tuple[int, str]]
    made: List[Made]


class Sessions:
    """Backends in a database of their own, asked for a script's commands. `run` is a run of it here."""

    def __init__(self, stage: Stage, source: Source, run):
        commands = source.script.commands()
        self.stage, self.source, self.commands, self.run = stage, source, commands, run
        self.made_here = {(backend, command, name): int(oid) for backend, command, text in run.steps
                          for oid, name in re.findall(r"\+class\(([0-9]+),([^,]+),", text)}
        self.served: List[Served] = []
        self.oids: Dict[int, int] = {}              # of relations here: which they are in the server
        self.names: Dict[int, str] = {}             # of relations that the script's commands have made in the server
        self.backends: Dict[int, Backend] = {}
        self.log: List[Made] = []                   # what all have made, in order
        self.statements = {command: statement_of(text, referred_in(commands.values())) for command, text in commands.items()}
        for (backend, number), statement in sorted(self.statements.items()):
            if statement is None:
                raise Unplayable("command %d of backend %d isn't played: %s" % (number, backend, commands[backend, number]))
        self.answers: Dict[Command, Answer] = {}
        self.database = stage.server.new_database()
        self.watcher = stage.server.session(self.database)
        self.first_oid = self.last_oid = self.drawn_oid()
        self.sent = Sent(lambda field, rel: catalogs_of(self.watcher, field, rel))

    def drawn_oid(self):
        """An oid that the server has just drawn."""
        return int(self.watcher.ask("select lo_create(0)").rows[0][0])

    def pair(self, backend: Backend, oid, name):
        """A relation that a command has made in the server is that which the same command makes here."""
        self.names[oid] = name
        here = self.made_here.get((backend.number, backend.command, name))
        if here is not None:
            self.oids[here] = oid

    def backend(self, number) -> Backend:
        """A backend, which is there from now on."""
        if number not in self.backends:
            backend = Backend(number, self.stage.server.session(self.database), self.oids, self.stage.offsets, self.pair, self.log,
                              self.sent)
            with followed(backend):
                backend.trace(self.stage.executable)
            self.backends[number] = backend
        return self.backends[number]

    def wait(self, backend: Backend, is_ready, what):
        """Waits until this is so."""
        if not self.stage.wait(self.backends.values(), is_ready):
            raise Fault("backend %d doesn't come to %s within %d s: %s" % (
                backend.number, what, self.stage.patience, self.waits(backend)))

    def waits(self, backend: Backend):
        """What a backend waits for, as the server says."""
        rows = self.watcher.ask("select wait_event_type || ' ' || wait_event, pg_blocking_pids(pid)::text from pg_stat_activity where "
                                "pid = %d" % backend.pid).rows
        if not rows:
            return "its process has ended"
        pids = {str(other.pid): other.number for other in self.backends.values()}
        blocking = [pids[pid] for pid in re.findall("[0-9]+", rows[0][1] or "") if pid in pids]
        if blocking:
            return "it waits for a lock of backend %s" % ", ".join(map(str, blocking))
        return "it waits for %s" % rows[0][0] if rows[0][0] else "it runs"

    def send(self, backend: Backend):
        """Begins a backend's next command."""
        backend.command += 1
        statement = self.statements[backend.number, backend.command]
        backend.begin(lambda: backend.asked.ask(statement), self.stage.clock.wake)

    def advance(self, backend: Backend):
        """Lets a backend go on until it is held or has answered its command: whether it has."""
        backend.watched.is_exact = backend.place is not None
        if backend.is_stopped:
            with followed(backend):
                backend.watched.go()
        self.wait(backend, lambda: not backend.is_busy or backend.is_stopped,
                  "'%s'" % self.shown(backend.place.key()) if backend.place else "the end of command %d" % backend.command)
        if not backend.is_busy:
            self.answers[backend.number, backend.command] = backend.take_answer()
        return not backend.is_busy

    def ask(self, backend: Backend, sql, by=lambda ask: ask()):
        """Asks something in the server alone, and waits for the reply; `by` asks."""
        place, backend.place = backend.place, None
        backend.begin(lambda: by(lambda: backend.asked.session.ask(sql)), self.stage.clock.wake)
        self.wait(backend, lambda: not backend.is_busy, "the end of '%s'" % sql)
        backend.place = place
        return backend.take_answer()

    def serve(self, backend: Backend):
        """Asks what is for the server alone, after a command."""
        for sql in self.source.served.get((backend.number, backend.command), ()):
            backend.say("alone", sql)
            backend.is_alone = True
            answer = answer_of_server(self.ask(backend, sql))
            backend.is_alone = False
            self.served.append(Served((backend.number, backend.command), sql, answer))

    def shown(self, event):
        """An event in words, with the oids that relations have here; of one that there isn't here, with a ~. Which relations messages
        are for isn't said."""
        here = {there: ours for ours, there in self.oids.items()}
        event = event[:2] if event[0] == "publish" else event
        return " ".join(part if isinstance(part, str) else str(here.get(part, abs(part) if part < 0 else "~%d" % part)) for part in event)

    def end(self):
        """Lets all go, and drops the database. What can't be done, as the server or a process has ended, is passed over."""
        backends = list(self.backends.values())
        for step in [each.let_go for each in backends] + [each.cut for each in backends] + [
                self.watcher.close, lambda: self.stage.server.drop_database(self.database)]:
            with contextlib.suppress(OSError, Fault):
                step()


class Play(Sessions):
    """One play of a script. `run` is its run here."""

    def __init__(self, stage: Stage, source: Source, run):
        super().__init__(stage, source, run)
        self.placed_here = {(int(words[1]), int(words[2])): words[3] for words in (line.split(" ", 3) for line in run.answers)}
        self.answers_here = {command: PLACE.sub("", text) for command, text in self.placed_here.items()}
        self.schedule = Schedule(run.steps, self.answers_here)
        self.turns: List[PlayedTurn] = []
        self.stale: List[Stale] = []
        self.unread: List[Unread] = []              # what couldn't be looked at
        self.shown_to: Dict[int, int] = {}          # of each backend: how much of what it has made was shown
        self.made_to: Dict[int, int] = {}           # of each backend: how many of its entries here are made
        self.held, self.stops, self.seconds = 0, 0, 0.0

    def play(self):
        """Makes all turns, and what is left is looked at."""
        began = time.monotonic()
        try:
            for turn in self.schedule.turns:
                self.make(turn)
                self.made_to[turn.backend] = turn.end
                self.show(turn)
            self.look_at_rest()
        finally:
            self.end()
            self.seconds = time.monotonic() - began
        return self

    def make(self, turn: Turn):
        """Makes a turn: commands up to the one that it ends in, or after."""
        is_new = turn.backend not in self.backends
        backend = self.backend(turn.backend)
        if is_new:
            self.serve(backend)
        if turn.is_lapped:
            self.lap(backend)
        place, command = self.schedule.place(turn, self.oids), self.schedule.last(turn)[0]
        answered = command - 1 if place else self.schedule.answered(turn)
        while backend.is_busy or backend.command < answered or (place and backend.command < command):
            if not backend.is_busy:
                self.send(backend)
            backend.place = place if backend.command == command else None
            if not self.advance(backend):
                self.held += 1
                backend.say("held", backend.place.text(self.shown))
                break
            if backend.place is not None:
                raise self.missed(backend)
            self.serve(backend)
        if self.schedule.last(turn)[1] == "stop":
            self.stop(backend)

    def missed(self, backend: Backend):
        """Says that a command is answered before its backend has come to its place, or that nobody may be held there."""
        place, command = backend.place, "%d.%d" % (backend.number, backend.command)
        if backend.not_held:
            return Unplayable("%s: not held %s: %s" % (command, place.text(self.shown), backend.not_held))
        own = [self.shown(made.event) for made in backend.made if made.command == backend.command and made.event[0] != "look"]
        return Unplayable("%s is answered before it comes to '%s': the server made: %s; and answered: %s" % (
            command, self.shown(place.key()), ", ".join([".."] * (len(own) > MOST_TOLD) + own[-MOST_TOLD:]) or "nothing",
            self.answers[backend.number, backend.command].text))

    def lap(self, backend: Backend):
        """The queue's messages for a backend are lost. It is stopped meanwhile: one that waits for a command would take them. Another
        one that is held would lose what it has, too."""
        for other in self.backends.values():
            if other is not backend and other.is_stopped and not self.schedule.is_reset_next(other.number, self.made_to[other.number]):
                raise Unplayable("the queue can't be overrun for backend %d alone: backend %d is held, and would be reset too" % (
                    backend.number, other.number))
        is_stopped, backend.is_lapped = backend.is_stopped, True
        with followed(backend):
            backend.watched.stop()
        self.stage.lap([other for other in self.backends.values() if other is not backend])
        backend.say("lapped")
        if not is_stopped:
            with followed(backend):
                backend.watched.go()

    def stop(self, backend: Backend):
        """A backend stops; a block that it is in is taken back first, by what counts as one more command. What it keeps is looked at
        in the end where another one is in the midst of a command, which may have something to tell yet, and where another one has
        a table of it locked."""
        backend.command += 1
        take_back(self, backend)
        backend.leave()
        if any(other.is_busy for other in self.backends.values()):
            return
        audit = audit_of(self, backend)
        self.stale += audit.stale
        if not audit.unread:
            self.end_session(backend)

    def end_session(self, backend: Backend):
        """Ends a backend's session."""
        self.stops += backend.watched.stops
        backend.let_go()
        backend.asked.end()

    def look_at_rest(self):
        """Looks at what those keep that haven't been looked at, in the end."""
        audit = audit_of_all(self)
        self.last_oid = self.drawn_oid()
        self.stale += [each for each in audit.stale if each not in self.stale]
        self.unread = audit.unread
        for backend in self.backends.values():
            if not backend.is_busy and backend.watched is not None:
                self.end_session(backend)

    def show(self, turn: Turn):
        """Notes what a turn's backend has made since its turn before."""
        backend, at = self.backends[turn.backend], self.shown_to.get(turn.backend, 0)
        self.shown_to[turn.backend] = len(backend.made)
        self.turns.append(PlayedTurn(turn, self.schedule.own[turn.backend][turn.first:turn.end], backend.made[at:]))
