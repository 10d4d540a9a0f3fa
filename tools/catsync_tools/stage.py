"""A server of one's own in which schedules are played: what it needs, and what is tested of it first."""
import contextlib
import os
import select
import signal
import socket
import time

from .descriptors import offsets_of
from .faults import Fault
from .held import Backend
from .interrupts import Interrupts
from .kinds import TESTED
from .points import Executable
from .postgres import FOLDERS, Server, account, become, folder_of_programs
from .sentences import listed
from .tracing import Gone, Unplayable, check_tracing

PATIENCE = 20           # seconds for a backend to come to its place
PAUSE = 0.25            # seconds, at most, between two looks at the processes
# What gives each kind of event: a table with rows in each catalog, an alteration that is rolled back, and what a lock refuses; and
# after a reset an alteration, what gives a lock back, and the end of the table.
TEST = ("create table t (a int4 default 5 check (a > 0) primary key references t)", "begin", "alter table t add column b int4",
        "rollback", "select from u")
TEST_AFTER_RESET = ("alter table t alter column a set statistics 7", "analyze t", "drop table t")
LAP_COLUMNS, LAPS = 100, 12         # of the table that overruns the queue, and how often that is made: some 440 messages each time


class Clock:
    """Wakes who waits for a process to stop or a session to be answered: signals of the first, and calls of the second, are bytes
    in a socket."""

    def __init__(self):
        self.inner, self.outer = socket.socketpair()
        for end in (self.inner, self.outer):
            end.setblocking(False)
        self.before = signal.signal(signal.SIGCHLD, lambda *_: None)
        self.waked = signal.set_wakeup_fd(self.inner.fileno(), warn_on_full_buffer=False)

    def wake(self):
        """Wakes it."""
        try:
            self.inner.send(b"x")
        except OSError:
            pass

    def wait(self, seconds):
        """Waits for that, at most so long."""
        if select.select([self.outer], [], [], seconds)[0]:
            try:
                self.outer.recv(4096)
            except BlockingIOError:
                pass

    def end(self):
        """Ends it."""
        signal.set_wakeup_fd(self.waked, warn_on_full_buffer=False)
        signal.signal(signal.SIGCHLD, self.before)
        self.inner.close()
        self.outer.close()


@contextlib.contextmanager
def followed(backend: Backend):
    """A Fault in place of what is raised where a backend's process has ended meanwhile, or can't be followed; it is let go."""
    try:
        yield
    except (Gone, OSError) as error:
        backend.let_go()
        has_ended = isinstance(error, (Gone, ProcessLookupError))
        raise Fault("the process of backend %d %s" % (
            backend.number, "has ended" if has_ended else "can't be followed: %s" % error.strerror))


@contextlib.contextmanager
def ended():
    """A Fault in place of what is raised where a session, a process or the server has ended."""
    try:
        yield
    except (Gone, OSError) as error:
        raise Fault("the server: %s" % (getattr(error, "strerror", None) or error))


class Stage:
    """A server with its program, tested; `with Stage() as stage` stops it at the end. An Unplayable says what is missing."""

    def __init__(self, programs=None, interrupts=None):
        self.executable, self.patience = check_stage(programs), PATIENCE
        self.interrupts = interrupts or Interrupts()
        self.server, self.clock = Server(os.path.dirname(self.executable.path)), None
        try:
            self.clock, self.version = Clock(), self.server.version()
            self.offsets = offsets_of(self.version)
            self.test()
        except BaseException as error:
            self.end(error)
            raise

    @property
    def name(self):
        """The server's name, and whether descriptors can be read in it."""
        return "PostgreSQL %s" % self.version + ("" if self.offsets else ", whose descriptors can't be read")

    def __enter__(self):
        return self

    def __exit__(self, *raised):
        self.end(*raised[1:2])

    def end(self, error=None):
        """Ends all. Where this is for an error that says that a process or a session has ended, that is a Fault."""
        if self.clock is not None:
            self.clock.end()
        self.server.stop()
        if isinstance(error, (Gone, OSError)):
            with ended():
                raise error

    def handle(self, backends):
        """Handles what these backends' processes were stopped by: whether any has made something. A signal alone, as a timer's of an idle
        one, is nothing."""
        found = False
        for backend in backends:
            while backend.watched is not None and backend.watched.is_running:
                watched, stops = backend.watched, backend.watched.stops
                with followed(backend):
                    if watched.poll() is None:
                        break
                found = found or watched.stops > stops
        return found

    def wait(self, backends, is_ready):
        """Handles what these do until this is so; whether it comes to be. They come to something within the patience."""
        until = time.monotonic() + self.patience
        while True:
            self.interrupts.check()
            if self.handle(backends):
                until = time.monotonic() + self.patience
            if is_ready():
                return True
            left = until - time.monotonic()
            if left <= 0:
                return False
            self.clock.wait(min(left, PAUSE))

    def test(self):
        """Tests that each kind of event is seen here; an Unplayable names those that aren't."""
        holder = self.server.session("postgres")
        for statement in ("create table u (a int4)", "begin", "lock table u in access exclusive mode"):
            holder.ask(statement)
        backend = Backend(0, self.server.session("postgres"), {}, self.offsets, lambda *_: None, [])
        backend.trace(self.executable)
        try:
            self.ask_each(backend, TEST)
            backend.watched.stop()
            self.lap([])
            backend.watched.go()
            self.ask_each(backend, TEST_AFTER_RESET)
            lines = [said(made.event) for made in backend.made]
        finally:
            backend.let_go()
            backend.cut()
            holder.close()
        missing = [kind for kind in TESTED if not any(is_of(kind, line) for line in lines)]
        if missing:
            raise Unplayable("in PostgreSQL %s these events aren't seen: %s" % (self.version, ", ".join(missing)))

    def ask_each(self, backend, statements):
        """Asks a backend one statement after the other."""
        for statement in statements:
            backend.begin(lambda: backend.asked.session.ask(statement), self.clock.wake)
            if not self.wait([backend], lambda: not backend.is_busy):
                raise Unplayable("no answer within %d s to: %s" % (self.patience, statement))
            backend.take_answer()

    def lap(self, backends):
        """Overruns the queue of 4,096 messages: who is stopped loses what it has for them. That is done in small steps, so that those
        who wait for a command, and are signaled to catch up, can."""
        session = self.server.session("postgres")
        columns = ", ".join("c%d int4" % number for number in range(LAP_COLUMNS))
        lapper = Backend(0, session, {}, None, lambda *_: None, [])
        try:
            for statement in ("create table lap (%s)" % columns, "drop table lap") * LAPS:
                lapper.begin(lambda: session.ask(statement), self.clock.wake)
                if not self.wait(backends, lambda: not lapper.is_busy and all(backend.is_at_rest for backend in backends)):
                    raise Fault("the queue isn't overrun within %d s" % self.patience)
                reply = lapper.take_answer()
                if reply.error:
                    raise Fault("the server: %s: %s" % (reply.error[1], statement[:40]))
        finally:
            session.close()


def check_stage(programs=None) -> Executable:
    """The server's program; an Unplayable says why nothing can be played."""
    user = account()
    check_tracing(lambda: become(user))
    programs = programs or folder_of_programs()
    if programs is None or not os.access(os.path.join(programs, "postgres"), os.X_OK):
        raise Unplayable("no PostgreSQL server in %s: 'apt-get install postgresql' brings one, --programs DIR names another" % (
            programs or FOLDERS))
    executable = Executable(os.path.join(programs, "postgres"))
    if executable.missing:
        raise Unplayable("%s doesn't export %s" % (executable.path, listed(executable.missing)))
    return executable


def said(event):
    """An event in one line."""
    return " ".join(map(str, event))


def is_of(kind, line):
    """Whether an event is of a kind: its first word, and the others somewhere after it."""
    words, parts = line.split(), kind.split()
    return words[0] == parts[0] and all(part in words[1:] for part in parts[1:])
