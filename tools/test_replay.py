#!/usr/bin/env python3
"""Tests of tools/replay: python3 tools/test_replay.py

Without PostgreSQL's server, or where no process can be traced, they are skipped, but for those that need neither; testing.py
says which program is run. tests/replayed.py plays all examples.
"""
import contextlib
import ctypes
import glob
import os
import random
import re
import shutil
import signal
import subprocess
import sys
import tempfile
import threading
import time
import unittest
import unittest.mock

from test_server import homes
from testing import HAS_PROGRAM, NO_PROGRAM, PROGRAM, TOOLS, TOP, call, content_of, hear_signals

from catsync_tools import stage as stages
from catsync_tools.audit import CATALOGS, Audit, audit_of_all, catalogs_of, named
from catsync_tools.beside_events import turns_text
from catsync_tools.counting import counted_script
from catsync_tools.explored import played_text
from catsync_tools.faults import Fault
from catsync_tools.kinds import KINDS
from catsync_tools.matching import check_script
from catsync_tools.outcome import answers_text, outcome_of
from catsync_tools.outputs import read_output
from catsync_tools.picture import picture_of, span_of
from catsync_tools.places import EventPlace, Schedule
from catsync_tools.play import Play, Sessions
from catsync_tools.points import AFTER, BEFORE, FUNCTIONS, Watched
from catsync_tools.program import Program
from catsync_tools.replay import TRACE_LACKS, once_text
from catsync_tools.server_trace import Trace
from catsync_tools.sources import read_source
from catsync_tools.stage import Stage, check_stage
from catsync_tools.sweep import Sweep, sweep_text
from catsync_tools.tracing import Binary, Gone, Traced, Unplayable, check_tracing


def why_not(check):
    """Why a check fails, or nothing."""
    try:
        check()
    except Unplayable as fault:
        return str(fault)
    return ""


NOT_TRACED, NOT_PLAYED = why_not(check_tracing), why_not(check_stage)
CHILD = ("import ctypes, signal, sys\n"
         "counts = []\n"
         "signal.signal(signal.SIGUSR1, lambda *_: counts.append(1))\n"
         "labs = ctypes.CDLL(None).labs\n"
         "sys.stdin.readline()\n"
         "found = [labs(-number) for number in range(int(sys.argv[1]))]\n"
         "print(found, len(counts), flush=True)\n")
DROPPED = ("setup 1: create table t (a int4)", "1: drop table t", "1: create table t (b text)", "2: show t columns",
           "2: show t columns", "steps 2 to 1, 2 to look, 1 to end, 2 to end")
ROLLED_BACK = ("setup 1: create table t (a int4)", "1: begin", "1: alter table t add column b int4", "1: rollback",
               "1: alter table t rename to u", "2: show t columns", "3: show t columns", "3: show t columns",
               "steps 3 to 1, 1 to gone, 2 to 1, 3 to look, 1 to end, 3 to unlock, 2 to end, 3 to end")
# A rebuild is overtaken, and a later message mends it; without a default the message isn't taken within the rebuild.
OVERTAKEN = ("setup 1: create table t (a int4)", "setup 1: alter table t alter column a set default 5", "setup 2: begin",
             "setup 2: open t", "setup 1: alter table t alter column a set statistics 100",
             "1: alter table t alter column a set statistics 200", "1: alter table t set (fillfactor = 50)",
             "2: lock table t in row share mode", "2: show t statistics", "2: lock table t in row exclusive mode",
             "2: show t statistics", "2: commit", "steps 2 to scan attribute, 1 to 4, 2 to 4, 1 to end, 2 to end")
NOT_TAKEN = tuple(line.replace("1 to 4", "1 to 3").replace("show t", "peek t") for line in OVERTAKEN if "default" not in line)
# A trigger is disabled before a peek, which accepts nothing; and one is made within a rebuild.
DISABLED = ("setup 1: create table t (a int4)", "setup 1: create trigger r on t", "setup 1: create table p (a int4)",
            "setup 1: alter table t add constraint f foreign key (a) references p (a)", "setup 2: begin", "setup 2: open t",
            "1: alter table t disable trigger r", "2: peek t triggers", "2: lock table t in row exclusive mode", "2: peek t triggers",
            "2: commit", "steps 1 to end, 2 to end")
TRIGGER_MADE = ("setup 1: create table t (a int4)", "setup 2: begin", "setup 2: open t",
                "setup 1: alter table t alter column a set statistics 100", "1: create trigger r on t", "2: lock table t in row share mode",
                "2: peek t triggers", "2: commit", "steps 2 to scan class, 1 to 3, 2 to end, 1 to end")
TABLE_FIRST = ("setup 1: create table t (a int4)", "setup 1: create index i on t (a)", "setup 1: create index j on t (a)",
               "1: drop index i", "2: drop index j", "steps 1 to lock, 2 to end, 1 to end")
LOCKED_ALONE = ("setup 1: create table t (a int4)", "2: begin", "server 2.1: lock table t in access share mode", "1: drop table t",
                "2: commit", "steps 2 to 1, 1 to end, 2 to end")
VIEWED_ALONE = ("1: create table t (a int4)", "server 1.1: create view v as select * from t", "1: drop table t")
# The server refuses a foreign key that there is here, by its types; and drops what goes on with it.
DONE_HERE_ALONE = ("1: create table p (a text)", "1: create table t (a int4)",
                   "1: alter table t add constraint f foreign key (a) references p (a)", "1: drop table t", "1: create table u (a int4)",
                   "2: show u")
# Of a bare table nothing is read after pg_attribute; a check is, as a default.
CHECKED = tuple(line.replace("alter column a set default 5", "add constraint c check (a > 0)") for line in OVERTAKEN
                if "fillfactor" not in line)
CHECKED = CHECKED[:-1] + ("steps 2 to scan attribute, 1 to 4, 2 to end, 1 to end",)
# The change comes by the server alone, and another's commit of another table between two scans.
UNRELATED = ("setup 1: create table t (a int4)", "setup 1: create table u (a int4)", "1: alter table u set (fillfactor = 20)",
             "3: alter table u set (fillfactor = 50)", "2: show t statistics", "server 1.3: alter table t alter column a set statistics 77",
             "steps 1 to 3, 2 to scan class, 3 to 1, 2 to end, 1 to end, 3 to end")
# As OVERTAKEN, but all messages are sent as the answer comes, and the lock isn't released.
ALL_SENT = OVERTAKEN[:-1] + ("steps 2 to scan attribute, 1 to publish, 1 to publish, 2 to 4, 1 to end, 2 to end",)
# One block sets a target and validates a check, and is visible after a first build's scan of pg_attribute.
VALIDATED = ("setup 1: create table t (a int4)", "setup 1: alter table t CHANGE",
             "setup 1: alter table t add constraint k check (a > 0) not valid", "1: begin", "1: alter table t alter column a set statistics 7",
             "1: alter table t validate constraint k", "1: commit", "2: show t", "2: show t",
             "steps 1 to 6, 2 to scan attribute, 1 to visible, 2 to 1, 1 to end, 2 to end")
# What is shown in a block before its lock; the queries for it must not keep the rebuild from accepting.
SHOWN_BEFORE = ("setup 1: create table t (a int4)", "setup 1: alter table t alter column a set default 5",
                "1: alter table t alter column a set statistics 100", "1: alter table t alter column a set statistics 200", "2: begin",
                "2: open t", "2: peek t statistics", "2: peek t defaults", "2: lock table t in row share mode", "2: commit",
                "steps 2 to 4, 1 to 3, 2 to fetch, 2 to scan attribute, 1 to 4, 2 to end, 1 to end")
# What there is of each field of a descriptor.
ALL_FIELDS = ("1: create table p (a int4)", "1: create table t (a int4)", "1: alter table t set (fillfactor = 50)",
              "1: alter table t alter column a set statistics 7", "1: alter table t alter column a set default 5",
              "1: alter table t add constraint c check (a > 0) not valid", "1: create index i on t (a)", "1: create trigger r on t",
              "1: alter table t add constraint f foreign key (a) references p (a)", "1: alter table t disable trigger r",
              "server 1.9: alter table t alter column a set not null", "2: show t", "server 2.1: select from t x, t y where false")
# Backend 3 loses messages of a queue of 64 while backend 2 is held in its rebuild, and loses none.
HELD_BESIDE_A_RESET = (
    "setup 1: create table t (a int4)", "setup 1: alter table t alter column a set default 5", "3: begin", "3: commit",
    "3: show t statistics",
    "1: create table w (%s)" % ", ".join("c%d int4" % number for number in range(40)), "1: alter table t alter column a set statistics 100",
    "1: create table v (%s)" % ", ".join("c%d int4" % number for number in range(30)), "1: alter table t alter column a set statistics 200",
    "2: begin", "2: open t", "2: lock table t in row share mode", "2: commit",
    "steps 3 to 2, 1 to 3, 2 to 2, 1 to 4, 2 to fetch, 2 to scan attribute, 1 to 6, 3 to end, 2 to end, 1 to end")
# What is held in the end has the table locked that another one has a descriptor of.
ENDS_LOCKED = ("setup 1: create table t (a int4)", "1: alter table t add column b int4", "2: show t", "steps 2 to 1, 1 to scan attribute, 2 to end")
# Held as a command fails: before its release, and in a block between that it is gone and its release.
ABSENT = ("1: create table t (a int4)", "2: show u", "steps 2 to scan relname, 2 to look, 1 to end, 2 to end")
FAILED = ("setup 1: create table t (a int4)", "2: begin", "2: alter table t add column b int4", "2: create table t (a int4)", "2: rollback",
          "1: show t columns", "1: show t columns", "steps 2 to gone, 1 to 2, 2 to end, 1 to end")
REFUSED = ("setup 1: create table t (a int4)", "1: alter table t add column b int4", "2: show t columns", "2: show t columns",
           "steps 2*20 1*22 2*3 1*4")


def script_of(*lines):
    """A script of three backends, read."""
    return read_source("\n".join(("backends 3",) + lines + ("end", "")).encode("ascii"))


def example(name):
    """An example, read."""
    return read_source(content_of(os.path.join(TOP, "examples", name + ".script")))


def run_of(source, program):
    """The run of a script under its schedule."""
    return program.run(counted_script(source, lambda: program))


class Files(unittest.TestCase):
    """What is known of programs, and of a command line, for which neither a server nor a traced process is needed."""

    @unittest.skipIf(NOT_TRACED, NOT_TRACED)
    def test_symbols(self):
        """A function of the Python that runs is where the table of its file says."""
        address = ctypes.cast(ctypes.pythonapi.PyLong_FromLong, ctypes.c_void_p).value
        with open("/proc/self/maps") as maps:
            spans = [(line.split()[0].split("-"), line.split()[-1]) for line in maps]
        path = next(path for (first, last), path in spans if int(first, 16) <= address < int(last, 16))
        executable = Binary(path)
        self.assertEqual(executable.base(os.getpid()) + executable.symbols["PyLong_FromLong"][0], address)

    def test_other_files(self):
        """What is no program for this machine is said to be none."""
        with tempfile.NamedTemporaryFile() as file, self.assertRaisesRegex(Unplayable, "is no program for x86_64"):
            Binary(file.name)

    def test_reasons(self):
        """Why nothing can be played is said in one line."""
        with unittest.mock.patch("platform.machine", lambda: "aarch64"):
            self.assertEqual(why_not(check_tracing), "no process can be traced: this is Linux on aarch64, and not Linux on x86_64")
        with unittest.mock.patch("catsync_tools.tracing.ptrace", side_effect=PermissionError(1, "Operation not permitted")), \
                unittest.mock.patch("catsync_tools.tracing.scope", lambda: "; kernel.yama.ptrace_scope is 3"):
            self.assertEqual(why_not(check_tracing),
                             "no process can be traced: Operation not permitted; kernel.yama.ptrace_scope is 3")

    @unittest.skipUnless(HAS_PROGRAM, NO_PROGRAM)
    @unittest.skipUnless(os.geteuid() == 0 and shutil.which("setpriv") and not NOT_TRACED, "needs root, setpriv, and tracing")
    def test_root_that_may_not_trace(self):
        """Root may be without the capability to trace what runs as another user, as the server does then."""
        words = [os.path.join(TOOLS, "replay"), "--program", PROGRAM, os.path.join(TOP, "examples", "two_backends.script")]
        done = subprocess.run(["setpriv", "--bounding-set=-sys_ptrace", "--inh-caps=-sys_ptrace"] + words, stdout=subprocess.PIPE,
                              stderr=subprocess.PIPE)
        self.assertEqual((done.returncode, done.stdout, done.stderr.count(b"\n")), (3, b"", 1), done.stderr)
        self.assertIn(b"replay: no process can be traced: Operation not permitted", done.stderr)

    @unittest.skipUnless(HAS_PROGRAM, NO_PROGRAM)
    def test_command_line(self):
        """A fault is one line and status 2; where there is no server it is status 3. Nothing is printed."""
        path = os.path.join(TOP, "examples", "two_backends.script")
        for words, status, expected in (
                (["/no/such"], 2, "/no/such: reading failed: "), ([], 2, "the following arguments are required: SCRIPT; "),
                ([path, "--sweep", "2.1", "beside", "1.1"], 2, "--sweep reads B.C with D.E"),
                ([path, "--sweep", "2.x", "with", "1.1"], 2, "not a command, as 2.3: 2.x"),
                ([path, "--sweep", "2.9", "with", "1.1"], 2, "there is no command 9 of backend 2"),
                ([path, "--sweep", "1.1", "with", "1.1"], 2, "a command is held for one of another backend"),
                ([path, "--sweep", "2.1", "with", "1.1", "--times", "2"], 2, "--times doesn't go with --sweep"),
                ([path, "--trace", "/no/such/file"], 2, "/no/such/file: writing failed"),
                ([path, "--programs", "/no/such"], 3, NOT_TRACED or "no PostgreSQL server in /no/such: ")):
            with self.subTest(words):
                done, shown, said = call("replay", "--program", PROGRAM, *words)
                self.assertEqual((done, shown, said.count("\n")), (status, b"", 1), said)
                self.assertIn(expected, said)

    def test_kinds(self):
        """Each kind of event has its functions' methods, a place in a trace, and a row of docs/REPLAY.md."""
        page = content_of(os.path.join(TOP, "docs", "REPLAY.md")).decode()
        for name, kind in KINDS.items():
            with self.subTest(name):
                self.assertTrue(name == "told" or hasattr(Trace, "take_" + name))
                self.assertRegex(page, "(?m)^[|] .*`%s`.* [|] .*" % name + "|".join(kind.functions[:1]))
        for function, method in FUNCTIONS.items():
            self.assertTrue(hasattr(Watched, "write_row" if method == "write" else method), function)

    def test_lines_for_the_server(self):
        """What the server alone is asked is a comment for all else, and has a form and a place."""
        source = script_of("1: begin", "server 1.0: select 1 -- why", "SERVER 1 . 1 : analyze t")
        self.assertEqual(source.served, {(1, 0): ["select 1"], (1, 1): ["analyze t"]})
        self.assertEqual([line.text for line in source.lines[2:]], [b"-- server 1.0: select 1", b"-- SERVER 1 . 1 : analyze t"])
        for line, said in (("server 1: analyze t", "line 3: a line for the server must read 'server B.C: SQL'"),
                           ("server 1.2: analyze t", "there is no command 2 of backend 1, after which the server is asked"),
                           ("server 4.0: analyze t", "there is no command 0 of backend 4, after which the server is asked")):
            with self.subTest(line), self.assertRaises(Fault) as raised:
                script_of("1: begin", line)
            self.assertEqual(str(raised.exception), said)


@unittest.skipIf(NOT_TRACED, NOT_TRACED)
class Tracing(unittest.TestCase):
    """Breakpoints in a small child."""

    def child(self, count):
        """A child that calls `labs` so often once it is told to, traced; and where it has that function."""
        child = subprocess.Popen([sys.executable, "-c", CHILD, str(count)], stdin=subprocess.PIPE, stdout=subprocess.PIPE)
        self.addCleanup(child.stdout.close)
        self.addCleanup(child.stdin.close)
        self.addCleanup(child.kill)
        while True:
            with open("/proc/%d/maps" % child.pid) as maps:
                path = next((line.split()[-1] for line in maps if os.path.basename(line.split()[-1]).startswith("libc")), None)
            if path and os.path.exists(path) and "labs" in Binary(path).symbols:
                break
            time.sleep(0.01)
        executable = Binary(path)
        traced = Traced(child.pid, executable)
        traced.other = traced.base + executable.symbols["ldiv"][0]         # a function that isn't called
        return child, traced, traced.base + executable.symbols["labs"][0]

    def follow(self, traced, count):
        """Handles its stops until it has stayed stopped so often, or is gone; it is let on each time but the last."""
        for at in range(count):
            while not traced.poll():
                time.sleep(0.0005)
            if at < count - 1:
                traced.go()

    def test_entries_and_returns(self):
        """A breakpoint is met each time, with its argument and what is returned; calls of frames that are gone are dropped; and a
        process that is let go goes on."""
        child, traced, labs = self.child(5)
        met, dropped, other = [], [], traced.other

        def entry():
            traced.on_return(lambda: met.append(("back", traced.answer)) or False)
            traced.returns.setdefault(other, []).append((1, lambda: dropped.append(1)))
            traced.insert(other)
            met.append(("called", traced.argument(0) - (1 << 64)))
            return len(met) == 9
        traced.points[labs] = entry
        traced.insert(labs)
        traced.go()
        child.stdin.write(b"\n")
        child.stdin.flush()
        self.follow(traced, 1)
        self.assertEqual(met[2:], [each for number in range(1, 4) for each in (("called", -number), ("back", number))] + [("called", -4)])
        self.assertEqual((dropped, len(traced.returns.get(other, []))), ([], 1))
        traced.let_go()
        self.assertEqual(child.stdout.read(), b"[0, 1, 2, 3, 4] 0\n")

    def test_signals(self):
        """A signal that comes while it is stopped, and so within the step after it, isn't lost."""
        child, traced, labs = self.child(4)
        traced.points[labs] = lambda: True
        traced.insert(labs)
        traced.go()
        child.stdin.write(b"\n")
        child.stdin.flush()
        for _ in range(4):
            self.follow(traced, 1)
            os.kill(child.pid, signal.SIGUSR1)
            traced.go()
        with self.assertRaises(Gone):
            while True:
                traced.poll()
                time.sleep(0.001)
        self.assertEqual(child.stdout.read(), b"[0, 1, 2, 3] 4\n")

    def test_killed_with_the_tool(self):
        """A traced process is killed with the process that traces it."""
        code = ("import sys, time\nsys.path.insert(0, %r)\nfrom catsync_tools.tracing import *\nfrom test_replay import Tracing\n"
                "child, traced, _ = Tracing().child(1)\nprint(child.pid, flush=True)\ntime.sleep(60)\n" % TOOLS)
        tool = subprocess.Popen([sys.executable, "-c", code], stdout=subprocess.PIPE)
        pid = int(tool.stdout.readline())
        tool.kill()
        tool.wait()
        tool.stdout.close()
        until = time.monotonic() + 10
        while is_alive(pid) and time.monotonic() < until:
            time.sleep(0.01)
        self.assertFalse(is_alive(pid))


def is_alive(pid):
    """Whether a process runs."""
    try:
        with open("/proc/%d/stat" % pid) as file:
            return file.read().rsplit(")", 1)[1].split()[0] not in "ZX"
    except OSError:
        return False


@unittest.skipUnless(HAS_PROGRAM, NO_PROGRAM)
class Places(unittest.TestCase):
    """Where turns end in a server."""

    def test_places(self):
        """Of each turn of these: where its backend is held, or after how many commands the turn ends."""
        program = Program(PROGRAM)
        oids = {oid: oid for oid in range(16384, 16400)}
        for name, expected in (
                ("negative_entry", ["1", "before 'visible'", "2", "after 'visible'", "3", "1", "4"]),
                ("granted_not_clear", ["1", "after 'scan relname t'", "after 'publish', time 2", "after 'look yes'", "2", "4"]),
                ("races/torn_commit", ["4", "after 'scan class 16384'", "after 'visible'", "1", "5", "2"]),
                ("early_end", ["1", "after 'scan attribute 16384'"]),
                ("three_at_once", ["after 'visible'"] + ["after 'lock 16384 as'"] * 3 + ["1"] * 4 + ["after 'lock 16384 as'"] * 3
                 + ["2", "2", "2", "1"]),
                ("reset_inside_build", ["1", "after 'scan attribute 16384'", "2", "lapped 1", "2"])):
            with self.subTest(name):
                source = example(name)
                run = run_of(source, program)
                answered = {tuple(map(int, line.split(" ")[1:3])) for line in run.answers}
                schedule, found = Schedule(run.steps, answered), []
                for turn in schedule.turns:
                    place = schedule.place(turn, oids)
                    text = place.text(lambda event: " ".join(map(str, event))) if place else "%d" % schedule.answered(turn)
                    found.append("lapped " * turn.is_lapped + text)
                self.assertEqual(found, expected)
        program.close()


class Keeping(Play):
    """A play of a script with one table that takes down what backend 2's descriptor of it says after each of its commands."""

    def __init__(self, *parts):
        super().__init__(*parts)
        self.kept = []

    def serve(self, backend):
        """After a command."""
        if backend.number == 2 and backend.command:
            self.kept.append(backend.descriptor(*self.names))
        super().serve(backend)


@unittest.skipUnless(HAS_PROGRAM, NO_PROGRAM)
@unittest.skipIf(NOT_PLAYED, NOT_PLAYED)
class Played(unittest.TestCase):
    """Plays in a server."""

    @classmethod
    def setUpClass(cls):
        cls.stage, cls.program = Stage(), Program(PROGRAM)

    @classmethod
    def tearDownClass(cls):
        cls.stage.__exit__()
        cls.program.close()

    def play(self, source):
        """The play of a script."""
        return Play(self.stage, source, run_of(source, self.program)).play()

    def test_known_hole(self):
        """An older rebuild is put over a newer one, each time; a fillfactor needs no default for that."""
        fillfactor = script_of("setup 1: create table t (a int4)", "setup 2: begin", "setup 2: open t",
                               "setup 1: alter table t alter column a set statistics 100", "1: alter table t set (fillfactor = 10)",
                               "2: lock table t in row share mode", "steps 2 to scan class, 1 to 3, 2 to end, 1 to end")
        for source, field, kept, now in ((example("stale_in_the_server"), "statistics", "1:100", "1:200"),
                                         (example("races/rebuild_overtaken_by_a_message"), "statistics", "1:100", "1:200"),
                                         (script_of(*CHECKED), "statistics", "1:100", "1:200"),
                                         (script_of(*SHOWN_BEFORE), "statistics", "1:100", "1:200"),
                                         (fillfactor, "fillfactor", "-", "10")):
            for _ in range(3):
                play = self.play(source)
                self.assertEqual([tuple(each) for each in play.stale], [(2, "t", field, kept, now)])
                self.assertEqual(play.held, 1)
                self.assertTrue(outcome_of(play).differs)

    def test_rows_past_what_is_declared(self):
        """By the same hole rows pass a foreign key and an index: what is kept, and what is stored of it for this version of the server.
        One after the other the commands leave no such row."""
        for name, stale in (("foreign_key_unchecked", [("relhastriggers", "false", "true"), ("triggers", "-", " ".join(
                ["RI_ConstraintTrigger_c_f:e"] * 2))]), ("insert_past_an_index", [("relhasindex", "false", "true")])):
            with self.subTest(name):
                outcome = outcome_of(self.play(example("races/" + name)))
                self.assertEqual([(each.backend, each.table) + (each.field, each.kept, each.catalogs) for each in outcome.stale],
                                 [(2, "t") + each for each in stale])
                stored = content_of(os.path.join(TOP, "examples", "races", name + ".played")).decode()
                shown = "\n".join(once_text("beside " + self.stage.name, None, outcome, unittest.mock.Mock(brief=True, trace=None))) + "\n"
                if shown.split(":")[0] == stored.split(":")[0]:
                    self.assertEqual(*(re.sub(r"\b1[6-9][0-9]{3}\b", "OID", text) for text in (shown, stored)))
        lines = content_of(os.path.join(TOP, "examples", "races", "foreign_key_unchecked.script")).decode()
        serial = outcome_of(self.play(read_source(lines.replace("1 to 3, 2 to fetch, 2 to scan class, 1 to 4", "1 to 4").encode())))
        self.assertEqual([each.answer.text[:11] for each in serial.served], ["error 23503", "f, t, 0, 0", "error 23503"])
        self.assertEqual(serial.stale, [])

    def test_fields_of_a_descriptor(self):
        """What a descriptor says of each field is as the catalogs have it, where these have something of each."""
        source = script_of(*ALL_FIELDS)
        sessions = Sessions(self.stage, source, run_of(source, self.program))
        try:
            for backend, _ in source.commands:
                sessions.send(sessions.backend(backend))
                sessions.advance(sessions.backend(backend))
                sessions.serve(sessions.backend(backend))
            rel = max(sessions.oids[oid] for (_, _, name), oid in sessions.made_here.items() if name == "t")
            kept = sessions.backend(2).descriptor(rel)
            self.assertEqual(list(kept), list(CATALOGS))
            self.assertEqual(kept, {field: catalogs_of(sessions.watcher, field, rel) for field in kept})
            self.assertEqual([named(sessions.watcher, field, kept[field]) for field in ("statistics", "fillfactor", "indexes", "checks",
                                                                                      "not null", "foreign keys")],
                             ["1:7", "50", "i", "c:n", "true", "f"])
            self.assertEqual(named(sessions.watcher, "triggers", kept["triggers"]),
                             "RI_ConstraintTrigger_c_f:e RI_ConstraintTrigger_c_f:e r:d")
            self.assertRegex(kept["defaults"], "^1:[0-9a-f]{8}$")
            self.assertEqual(audit_of_all(sessions), Audit([], []))
        finally:
            sessions.end()

    def test_statistics_of_analyze(self):
        """The session that keeps an old statistics target goes by it in ANALYZE."""
        lines = content_of(os.path.join(TOP, "examples", "stale_in_the_server.script")).decode().split("\n")
        lines[-3:-3] = ["server 1.2: insert into t select generate_series(1, 5000)", "server 2.6: analyze t",
                        "server 2.6: select array_length(histogram_bounds, 1) from pg_stats where tablename = 't'"]
        self.assertEqual([each.answer.text for each in self.play(read_source("\n".join(lines).encode())).served],
                         ["INSERT 0 5000", "ANALYZE", "101"])

    def test_as_here(self):
        """What is played as here, with so many holds."""
        for source, held in ((example("negative_entry"), 2), (example("granted_not_clear"), 3), (example("rename_seen_too_late"), 1),
                             (example("two_creators"), 0), (script_of(*DROPPED), 1), (script_of(*ROLLED_BACK), 3),
                             (script_of(*REFUSED), 2), (script_of(*ABSENT), 1), (script_of(*FAILED), 1)):
            outcome = outcome_of(self.play(source))
            self.assertEqual((outcome.held, outcome.found, outcome.stale), (held, [[]] * len(outcome.compared), []), outcome)

    def test_half_a_commit(self):
        """The server's descriptor has no half of a commit, as docs/PROFILE.md says."""
        outcome = outcome_of(self.play(example("races/torn_commit")))
        differ = [(each.command, found) for each, found in zip(outcome.compared, outcome.found) if found]
        self.assertEqual([(command, [(each.part, each.words) for each in found]) for command, found in differ],
                         [((2, 1), [("statistics", "half of one commit")])])
        self.assertFalse(outcome.differs)

    def test_half_a_commit_by_a_scan_between(self):
        """A scan of pg_attrdef takes a new snapshot, with which the scans after it go on: so a descriptor has half of a commit by two
        scans of catalogs with caches, and none without a default."""
        for change, checks in (("alter column a set default 5", "k:v"), ("set (fillfactor = 50)", "k:n")):
            source = script_of(*[line.replace("CHANGE", change) for line in VALIDATED])
            play = Keeping(self.stage, source, run_of(source, self.program))
            play.play()
            self.assertEqual([(kept["statistics"], kept["checks"]) for kept in play.kept], [("1:-1", checks), ("1:7", "k:v")])

    def test_what_is_not_half_a_commit(self):
        """A value that comes by no commit here isn't called half of one, nor is an old one of which all messages are sent."""
        unrelated, all_sent = (outcome_of(self.play(script_of(*lines))) for lines in (UNRELATED, ALL_SENT))
        self.assertEqual([(each.part, each.words, each.catalogs) for outcome in (unrelated, all_sent) for found in outcome.found for each in found],
                         [("statistics", None, None), ("statistics", "an older rebuild may be put over a newer one", "1:200")])
        self.assertTrue(unrelated.differs and all_sent.differs)

    def test_old_answers(self):
        """An old answer that no message tells of differs, though a later one mends it; one that the next accept mends doesn't."""
        overtaken, not_taken = (outcome_of(self.play(script_of(*lines))) for lines in (OVERTAKEN, NOT_TAKEN))
        found = [[(each.part, each.words, each.catalogs, each.is_mended) for found in outcome.found for each in found]
                 for outcome in (overtaken, not_taken)]
        self.assertEqual(found, [[("statistics", "an older rebuild may be put over a newer one", "1:200", False)],
                                 [("statistics", "they aren't looked for", None, True)]])
        self.assertEqual([(each.stale, each.differs) for each in (overtaken, not_taken)], [([], True), ([], False)])
        self.assertRegex(overtaken.text, "; 1 answer is stale until a later message$")

    def test_triggers(self):
        """A table's own triggers are shown as its descriptor has them, also where that is old."""
        disabled, made = (outcome_of(self.play(script_of(*lines))) for lines in (DISABLED, TRIGGER_MADE))
        self.assertEqual([each.server.text for each in disabled.compared if each.text.startswith("peek")], ["triggers r:e", "triggers r:d"])
        self.assertEqual([(each.part, each.words, each.catalogs) for outcome in (disabled, made) for found in outcome.found for each in found],
                         [("triggers", "an older rebuild may be put over a newer one", "r:e")])
        self.assertEqual([[tuple(each[2:]) for each in outcome.stale] for outcome in (disabled, made)],
                         [[], [("relhastriggers", "false", "true"), ("triggers", "-", "r:e")]])

    def test_table_first(self):
        """A drop is refused in the server alone where a `drop index` has the table locked; what else refuses it isn't named."""
        for source, words in ((script_of(*TABLE_FIRST), "the table first"), (example("races/drops_that_cross"), "the table first"),
                              (script_of(*LOCKED_ALONE), None), (script_of(*VIEWED_ALONE), None)):
            outcome = outcome_of(self.play(source))
            differ = [each for found in outcome.found for each in found]
            self.assertEqual([(each.part, each.words) for each in differ if not each.after], [("answer", words)])
            self.assertEqual(outcome.differs, words is None)

    def test_what_is_not_looked_at(self):
        """A backend inside a command, and a table that another one has locked, are said not to be looked at, and why."""
        outcome = outcome_of(self.play(script_of(*ENDS_LOCKED)))
        self.assertEqual([each.text for each in outcome.unread], [
            "what backend 1 keeps isn't looked at: it is inside command 2",
            "what backend 2 keeps of t isn't looked at: backend 1 has it locked"])
        self.assertEqual(answers_text(outcome)[-3:], [""] + [each.text for each in outcome.unread])

    def test_stop(self):
        """A stop has the number that it has here; a block that is open before it is taken back by a command of that number."""
        play = self.play(script_of("1: create table t (a int4)", "2: begin", "2: lock table t in share mode"))
        self.assertEqual([[(made.command,) + made.event for made in turn.made][-1] for turn in play.turns],
                         [(2, "stop"), (3, "stop"), (1, "stop")])
        self.assertIn((3, ("release",)), [(made.command, made.event) for made in play.backends[2].made])

    def test_resets(self):
        """The queue is overrun where it is here: the backend resets in its turn."""
        for name, turn in (("lapped_reader", 2), ("reset_inside_build", 3)):
            play = self.play(example(name))
            events = [made.event for made in play.turns[turn].made]
            self.assertEqual([event for event in events if event[0] in ("lapped", "fetch")][:2], [("lapped",), ("fetch", "reset")])
            others = [made for made in play.log if made.event == ("fetch", "reset") and made.backend != play.turns[turn].turn.backend]
            self.assertEqual((others, any(outcome_of(play).found)), ([], False))

    def test_reset_of_another_that_is_held(self):
        """The queue can't be overrun for one backend while another one is held that isn't reset here."""
        source = read_source(("ring 64\nbackends 3\n" + "\n".join(HELD_BESIDE_A_RESET) + "\nend\n").encode())
        with self.assertRaisesRegex(Unplayable, "^the queue can't be overrun for backend 3 alone: backend 2 is held, and would be reset too$"):
            self.play(source)

    def test_place_that_is_not_met(self):
        """A place to which the server doesn't come is named, with what it made."""
        with self.assertRaisesRegex(Unplayable, r"^1\.3 is answered before it comes to 'lock 16384 ax': the server made: .*visible.*: ok$"):
            self.play(example("drops_that_cross"))

    def test_guard(self):
        """Nobody is held in a critical section: a row of pg_class that is updated in place publishes in one."""
        source = read_source(content_of(os.path.join(TOP, "examples", "sweeps", "create_index.script")))
        sessions = Sessions(self.stage, source, run_of(source, self.program))
        try:
            for backend, number in source.commands:
                own = sessions.backend(backend)
                own.place = EventPlace(2, lambda: ("publish",), 1, BEFORE) if (backend, number) == (2, 2) else None
                sessions.send(own)
                self.assertTrue(sessions.advance(own))
            self.assertEqual(sessions.backend(2).not_held, "in a critical section")
        finally:
            sessions.end()

    def test_update_in_place(self):
        """A row that is updated in place is told of before its transaction is visible, and once more afterwards."""
        log = self.play(script_of("1: create table t (a int4)", "1: create index i on t (a)")).log
        made = [each.event for each in log if each.command == 2]
        at = made.index(("visible",))
        for events in (made[:at], made[at:]):
            self.assertTrue([event for event in events if event[0] == "publish" and event[2:]], events)

    def test_patience(self):
        """A backend that doesn't come ends the play, with what it waits for; and all goes on after it."""
        source = script_of("1: create table t (a int4)", "server 1.1: select pg_sleep(60)")
        with unittest.mock.patch.object(self.stage, "patience", 1), self.assertRaises(Fault) as raised:
            self.play(source)
        self.assertEqual(str(raised.exception), "backend 1 doesn't come to the end of 'select pg_sleep(60)' within 1 s: it waits for "
                         "Timeout PgSleep")
        with contextlib.closing(self.stage.server.session("postgres")) as session:
            self.assertEqual(session.ask("select count(*) from pg_database where datname like 'catsync%'").rows, [("0",)])

    def test_patience_with_signals(self):
        """A process that is only signaled makes nothing."""
        source = script_of("1: create table t (a int4)", "server 1.1: select pg_sleep(60)")
        play, until = Play(self.stage, source, run_of(source, self.program)), time.monotonic() + 30

        def disturb():
            while time.monotonic() < until and play.seconds == 0:
                for backend in play.backends.values():
                    with contextlib.suppress(OSError):
                        os.kill(backend.pid, signal.SIGUSR1)
                time.sleep(0.1)
        thread = threading.Thread(target=disturb)
        thread.start()
        try:
            with unittest.mock.patch.object(self.stage, "patience", 2), self.assertRaisesRegex(Fault, "within 2 s"):
                play.play()
            self.assertLess(time.monotonic(), until)
        finally:
            thread.join()

    def test_same_each_time(self):
        """Two plays of a script make the same events by as many stops."""
        one, other = (self.play(example("rebuilds_nested")) for _ in range(2))
        self.assertEqual(one.stops, other.stops)
        self.assertEqual(turns_text(one, False), turns_text(other, False))
        self.assertEqual(answers_text(outcome_of(one)), answers_text(outcome_of(other)))

    def test_version_that_is_not_known(self):
        """Where the places in a descriptor aren't known all but the audit is played."""
        with unittest.mock.patch.object(self.stage, "offsets", None):
            play = self.play(example("stale_in_the_server"))
        self.assertEqual((play.held, play.stale), (1, []))

    def test_self_test(self):
        """An event that the server doesn't give is named, and so is a function that its program lacks."""
        heard = signal.getsignal(signal.SIGCHLD)
        with unittest.mock.patch.object(stages, "TESTED", stages.TESTED + ("scan nothing",)), \
                self.assertRaisesRegex(Unplayable, "^in PostgreSQL [0-9.]+ these events aren't seen: scan nothing$"):
            Stage()
        self.assertEqual(signal.getsignal(signal.SIGCHLD), heard)
        with unittest.mock.patch("catsync_tools.points.NEEDED", ("SIGetDataEntries", "NoSuchFunction")), \
                self.assertRaisesRegex(Unplayable, "/postgres doesn't export NoSuchFunction$"):
            check_stage()

    def test_audit_of_what_is_current(self):
        """A descriptor that is as the catalogs are isn't stale, nor is one that a message waits for."""
        source = script_of("1: create table t (a int4)", "2: begin", "2: open t", "1: alter table t alter column a set statistics 7")
        sessions = Sessions(self.stage, source, run_of(source, self.program))
        try:
            for backend, _ in source.commands:
                sessions.send(sessions.backend(backend))
                sessions.advance(sessions.backend(backend))
            reader = sessions.backend(2)
            self.assertEqual(reader.descriptor(min(sessions.names))["statistics"], "1:-1")
            self.assertEqual(audit_of_all(sessions), Audit([], []))
            self.assertEqual(reader.descriptor(min(sessions.names))["statistics"], "1:7")
        finally:
            sessions.end()

    def test_trace(self):
        """What the server made is a history that is drawn, with the script's commands."""
        for name in ("stale_in_the_server", "held_modes", "failed_block", "reset_inside_build", "level_gives_back_its_lock"):
            with self.subTest(name):
                output = read_output(Trace(self.play(example(name))).text().encode("ascii"))
                check_script(name, example(name), output)
                self.assertIn(b"<svg", picture_of(output, False, span_of(len(output.entries)), {}).encode("ascii"))
        self.assertIn("l 2 4 constraints f:fk:v:1:16384:1\n", Trace(self.play(example("races/foreign_key_unchecked"))).text())
        trace = Trace(self.play(script_of(*DONE_HERE_ALONE)))
        output = read_output(trace.text().encode("ascii"))
        self.assertRegex(trace.fault, "^line %d: backend 1 sees no row of con to change$" % (len(output.entries) + 1))
        self.assertEqual([answer.text[:11] for answer in output.answers], ["ok", "ok", "error 42804"])
        self.assertIn(b"<svg", picture_of(output, False, span_of(len(output.entries)), {}).encode("ascii"))


@unittest.skipUnless(HAS_PROGRAM, NO_PROGRAM)
@unittest.skipIf(NOT_PLAYED, NOT_PLAYED)
class Commands(unittest.TestCase):
    """The commands, and that nothing is left of them."""

    @contextlib.contextmanager
    def own_folder(self):
        """A folder in which temporary files are made meanwhile, which the server's user can read too."""
        with tempfile.TemporaryDirectory() as folder, unittest.mock.patch.dict(os.environ, TMPDIR=folder):
            os.chmod(folder, 0o755)
            yield folder

    def test_output(self):
        """What is printed, and the exit status; nothing is left behind; and the trace is drawn with its script."""
        path = os.path.join(TOP, "examples", "stale_in_the_server.script")
        with tempfile.TemporaryDirectory() as other, self.own_folder() as folder:
            trace = os.path.join(other, "trace")
            status, shown, said = call("replay", "--program", PROGRAM, "--trace", trace, path)
            self.assertEqual((status, said, os.listdir(folder)), (1, "", []))
            self.assertEqual(call("picture", "--script", path, given=content_of(trace))[0], 0)
        lines = shown.decode().split("\n")
        self.assertRegex(lines[0], "^beside PostgreSQL [0-9.]+: held 1 time; 2 of 11 answers differ; 1 field is stale for good$")
        self.assertIn("    3 scan attribute 16384 rows 1 | 3 scan attribute 16384", lines)
        self.assertIn("                                  |   held after 'scan attribute 16384'", lines)
        self.assertIn("    3 scan class 16384 rows 1      |   inside of that 16384 is rebuilt once more", lines)
        at = lines.index("2.4 peek t statistics")
        self.assertEqual(lines[at + 1:at + 4], [
            "    here    statistics 1:200", "    server  statistics 1:100",
            "    differs in statistics, as docs/PROFILE.md says: an older rebuild may be put over a newer one; the catalogs have 1:200, "
            "and no message is left"])
        self.assertEqual(lines[-4:], ["backend 2 keeps statistics 1:100 of t; the catalogs have 1:200, and no message is left", "",
                                      TRACE_LACKS, ""])

    def test_process_that_ends(self):
        """A backend that ends is told in one line; nothing is left behind."""
        for sql in ("select pg_terminate_backend(pg_backend_pid())", "copy (select 1) to program 'kill -9 $PPID'"):
            with self.subTest(sql), self.own_folder() as folder:
                path = os.path.join(folder, "script")
                with open(path, "w") as file:
                    file.write("backends 2\n1: create table t (a int4)\n2: show t\nserver 2.1: %s\n2: show t\nend\n" % sql)
                status, shown, said = call("replay", "--program", PROGRAM, path)
                self.assertEqual((status, shown, os.listdir(folder)), (2, b"", ["script"]))
                self.assertRegex(said, "^replay: the (process of backend 2 has ended|server: .*)\n$")

    def test_held_process_that_is_killed(self):
        """A backend that is killed while it is held is said to have ended, and the server ends as ever."""
        program, source = Program(PROGRAM), example("stale_in_the_server")
        run, began = run_of(source, program), time.monotonic()
        program.close()
        with self.own_folder() as folder:
            with self.assertRaisesRegex(Fault, "^the process of backend 2 has ended$"), Stage() as stage:
                play = Play(stage, source, run)
                with unittest.mock.patch.object(play, "show", lambda _: [os.kill(each.pid, signal.SIGKILL) for each in (
                        play.backends.values()) if each.is_stopped]):
                    play.play()
            self.assertEqual(os.listdir(folder), [])
        self.assertLess(time.monotonic() - began, 60)

    def test_times(self):
        """How many of several plays had which outcome."""
        path = os.path.join(TOP, "examples", "races", "rebuild_overtaken_by_a_message.script")
        status, shown, said = call("replay", "--program", PROGRAM, "--times", "3", path)
        self.assertEqual((status, said), (1, ""))
        self.assertRegex(shown.decode(), r"^beside PostgreSQL [0-9.]+, 3 times\n\n3 of 3: held 1 time; 1 of 9 answers differs; 1 field is ")
        with tempfile.TemporaryDirectory() as folder:
            path = os.path.join(folder, "script")
            with open(path, "w") as file:
                file.write("backends 1\n1: create table t (a int4)\n1: show t\nserver 1.2: select 't'::regclass::oid\nend\n")
            status, shown, said = call("replay", "--program", PROGRAM, "--times", "3", path)
        self.assertEqual((status, said, shown.decode().count(" of 3: "), "\n3 of 3: " in shown.decode()), (0, "", 1, True))

    def test_sweep(self):
        """A sweep finds where the descriptor gets stale, and the shortest script that shows it, as examples/sweeps has it for this
        version of the server."""
        folder = os.path.join(TOP, "examples", "sweeps")
        status, shown, said = call("replay", "--program", PROGRAM, "--sweep", "2.3", "with", "1.3", os.path.join(folder, "fillfactor.script"))
        self.assertEqual((status, said), (1, ""))
        stored = content_of(os.path.join(folder, "fillfactor.swept"))
        if shown.split(b":")[0] == stored.split(b":")[0]:
            self.assertEqual(shown, stored)

    def test_explored(self):
        """What the explorer finds is played, set by set."""
        with tempfile.TemporaryDirectory() as folder:
            path = os.path.join(folder, "script")
            with open(path, "w") as file:
                file.write("backends 2\n1: create table t (a int4)\n2: show t name\nend\n")
            status, shown, said = call("explore", "--program", PROGRAM, "--jobs", "1", "--replay", given=content_of(path))
            self.assertEqual((status, said), (0, ""))
            sets, played = shown.decode().split("\nin PostgreSQL ")
            verdicts = [line.split(": ", 1)[1] for line in played.rstrip("\n").split("\n")[1:]]
            self.assertEqual((len(verdicts), set(verdicts)), (sets.count("\nset "), {"came"}))
        for words in (["--replay", "--find", "ok"], ["--replay", "--part", "1/2"]):
            self.assertEqual(call("explore", *words)[0], 2)

    def test_one_set_that_fails(self):
        """What keeps one set of the explorer's from being played is told, and the others are played; so where offsets aren't known."""
        sets = [unittest.mock.Mock(found=unittest.mock.Mock(turns=turns)) for turns in ((), (7,), ())]
        program = Program(PROGRAM)
        run = run_of(script_of("1: begin"), program)
        program.close()
        exploration = unittest.mock.Mock(source=script_of("1: begin"))
        exploration.runner.setup = ()

        def with_turns(turns):
            if turns:
                raise ConnectionError(104, "Connection reset by peer")
            return run
        exploration.runner.runs.with_turns = with_turns
        with unittest.mock.patch("catsync_tools.stage.offsets_of", lambda _: None):
            text, status = played_text(exploration, sets)
        self.assertRegex(text, r"^\nin PostgreSQL [0-9.]+, whose descriptors can't be read:\nset 1: came\n"
                         r"set 2: can't be played: the server: Connection reset by peer\nset 3: came\n$")
        self.assertEqual(status, 3)

    def test_one_point_that_fails(self):
        """What keeps one point of a sweep from being played is told, and the others are swept; what comes before a point ends it."""
        program, sweep = Program(PROGRAM), Sweep(script_of("1: create table t (a int4)", "2: show t", "1: commit"), (2, 1), (1, 2))
        played = sweep.played

        def fails(sessions, point):
            number = point.left
            if number == 4:
                sessions.end()
                raise Fault("before it")
            found = played(sessions, point)
            if number == 2:
                raise ConnectionError(104, "Connection reset by peer")
            return found
        with Stage() as stage, unittest.mock.patch.object(sweep, "played", fails):
            found = sweep.run(stage, program)
            text = sweep_text(stage, sweep, found)
        program.close()
        self.assertEqual([(point.fault, point.is_met) for point in found.points], [
            ("", True), ("the server: Connection reset by peer", True), ("", True), ("before it", False)])
        self.assertRegex(text.split("\n")[0], "^PostgreSQL [0-9.]+: 2.1 held at 4 points, and 1.2 made there; stale for good at none; "
                         "2 can't be played$")
        self.assertRegex(text, "\n   2  .*  can't be played: the server: Connection reset by peer\n(.*\n)*   4  a point .*: before it\n$")

    def test_signals(self):
        """A signal at any time, and a second one after it, leaves no server and no folder."""
        draw = random.Random(5)
        path = os.path.join(TOP, "examples", "three_at_once.script")
        for number in (signal.SIGTERM, signal.SIGINT, signal.SIGHUP):
            with self.subTest(number), self.own_folder() as folder:
                with subprocess.Popen([os.path.join(TOOLS, "replay"), "--program", PROGRAM, "--times", "9", path], stdout=subprocess.PIPE,
                                      stderr=subprocess.PIPE, preexec_fn=hear_signals) as tool:
                    while not glob.glob(os.path.join(folder, "*", "data", "postmaster.pid")) and tool.poll() is None:
                        time.sleep(0.01)
                    time.sleep(draw.uniform(0, 3))
                    tool.send_signal(number)
                    time.sleep(draw.uniform(0, 0.1))
                    tool.send_signal(number)
                    said = tool.stderr.read()
                self.assertEqual((tool.returncode, said), (130, b"replay: interrupted\n"))
                self.assertEqual(os.listdir(folder), [])
                self.assertEqual([home for home in homes() if home.startswith(folder)], [])

    def test_killed(self):
        """After kill -9 at any point the next run leaves no process and no folder."""
        words = [os.path.join(TOOLS, "replay"), "--program", PROGRAM]
        path = os.path.join(TOP, "examples", "races", "rebuild_overtaken_by_a_message.script")
        with self.own_folder() as folder:
            for at in range(10):
                with subprocess.Popen(words + ["--times", "9", path], stdout=subprocess.DEVNULL, stderr=subprocess.DEVNULL) as tool:
                    while not glob.glob(os.path.join(folder, "*", "data", "postmaster.pid")) and tool.poll() is None:
                        time.sleep(0.01)
                    time.sleep(at * 0.3)
                    tool.kill()
                self.assertNotEqual(os.listdir(folder), [])
                self.assertEqual(call("replay", *words[1:], path)[::2], (1, ""))
                self.assertEqual(os.listdir(folder), [])
                self.assertEqual([home for home in homes() if home.startswith(folder)], [])


if __name__ == "__main__":
    unittest.main()
