#!/usr/bin/env python3
"""Tests of tools/schedule: python3 tools/test_schedule.py"""
import glob
import os
import random
import re
import subprocess
import sys
import unittest

sys.dont_write_bytecode = sys.pycache_prefix is None

from testing import HAS_PROGRAM, NO_PROGRAM, PROGRAM, TOOLS, TOP, call, content_of

from catsync_tools.counting import counted_script
from catsync_tools.faults import Fault
from catsync_tools.items import Answered, Count, Made, Stopped
from catsync_tools.program import Program, Run
from catsync_tools.runner import Runner
from catsync_tools.sources import read_source
from catsync_tools.spellings import respelled, without_comment

EXAMPLES = sorted(glob.glob(os.path.join(TOP, "examples", "*.script")))
RACES = sorted(glob.glob(os.path.join(TOP, "examples", "races", "*.script")))

# What people write, and the grammar's form of it.
SPELLINGS = (
    ("begin work", "begin"), ("BEGIN TRANSACTION;", "begin"), ("start transaction", "begin"),
    ("commit work", "commit"), ("end", "commit"), ("end transaction ;", "commit"),
    ("abort", "rollback"), ("Abort Work", "rollback"), ("rollback transaction", "rollback"),
    ("rollback work to savepoint s", "rollback to s"), ("abort to s", "rollback to s"),
    ("lock t", "lock table t in access exclusive mode"), ("lock table t", "lock table t in access exclusive mode"),
    ("lock only t", "lock table t in access exclusive mode"),
    ("lock t in share row exclusive mode", "lock table t in share row exclusive mode"),
    ("alter table t add b text", "alter table t add column b text"),
    ("alter table only t add column b text", "alter table t add column b text"),
    ("alter table public.t drop b", "alter table t drop column b"),
    ("alter table t rename a to b", "alter table t rename column a to b"),
    ("alter table t alter a set statistics -1", "alter table t alter column a set statistics -1"),
    ("alter table t alter a set default --", "alter table t alter column a set default --"),
    ("show public.t columns", "show t columns"), ('show "t"', "show t"), ('show "public"."t"', "show t"),
    ("create table public.t (a int, b timestamp with time zone)", "create table t (a int, b timestamptz)"),
    ("alter table t add constraint k foreign key (a) references public.u (b)",
     "alter table t add constraint k foreign key (a) references u (b)"),
)

COMMENTS = (
    ("1: show t -- why", "1: show t"), ("1: show t;-- why", "1: show t;"), ("1: show t --", "1: show t"),
    ("1: show t -- caf\u00e9 /* */", "1: show t"), ("1: show t/* a */columns", "1: show t columns"),
    ("1: create table t (a int4) --b", "1: create table t (a int4)"), ("backends 2 -- two", "backends 2"),
    ("1: alter table t alter column a set default --1", None), ("1: alter table t add constraint k check (a<--1)", None),
    ("1: alter table t add constraint k check (a --1)", None), ("1: show t--", None),
)

# What has to stay as it is: forms of the grammar, and what no rule knows.
KEPT = (
    "begin", "commit;", "rollback", "rollback to s", "rollback to savepoint s", "release savepoint s", "savepoint s",
    "lock table t in access share mode", "lock table table in share mode", "alter table t add column b text",
    "alter table t add constraint k check (a > 0)", "alter table t add constraint k check (a<--1)",
    "alter table t drop constraint k", "alter table t drop column b", "alter table t rename to u",
    "alter table t rename column a to b", "alter table t rename column column to b",
    "alter table t alter column a set default --1", "alter table t alter column a set default -- ;",
    "alter table only add column a int4", "drop table t", "alter index i rename to j", 'show "T"', "show other.t",
    "begin isolation level serializable", "alter table t add b", "lock", "lock table", "", ";;", "show t columns",
)


class Spellings(unittest.TestCase):
    """PostgreSQL's usual spellings, and comments."""

    def test_spellings(self):
        """They become the grammar's forms."""
        for written, form in SPELLINGS:
            with self.subTest(written):
                self.assertEqual(respelled(" " + written).split(), form.split())
                self.assertEqual(respelled(" " + form), " " + form)

    def test_comments(self):
        """They are taken off, but not where `--` is the command's own."""
        for written, bare in COMMENTS:
            with self.subTest(written):
                self.assertEqual(without_comment(written), written if bare is None else bare)
        given = (b"backends 1 -- one\n1: begin /* caf\xe9 */\nsteps 1 -- a step\nsteps 1*2\n/* all */\nexpect 1.1 ok -- sure\n"
                 b"end -- here\n")
        self.assertEqual(counted_script(read_source(given), None),
                         b"backends 1\n1: begin\nsteps 1\nsteps 1*2\n\n-- expect 1.1 ok\nend\n")

    def test_what_is_kept(self):
        """All else stays."""
        for written in KEPT:
            with self.subTest(written):
                self.assertEqual(respelled(" " + written), " " + written)

    def test_scripts_by_the_grammar(self):
        """They stay byte for byte; and where the program refuses one, its fault is told."""
        for path in EXAMPLES:
            with self.subTest(path):
                self.assertEqual(counted_script(read_source(content_of(path)), None), content_of(path))
        for path in EXAMPLES if HAS_PROGRAM else []:
            with self.subTest(path):
                refused = path.replace(".script", ".error")
                self.assertEqual(call("schedule", "--program", PROGRAM, given=content_of(path)),
                                 (2, b"", "schedule: " + content_of(refused).decode()) if os.path.exists(refused)
                                 else (0, content_of(path), ""))
        for given in (b"backends 1\r\n1: show t;\r\nsteps 1*2 1\r\nEND\r\n\r\n-- caf\xe9", b"backends 1\nend",
                      b"\n--\xff\n backends  2 \n\n1 : show t\nsteps 1 * 3 2\nend\n\n"):
            with self.subTest(given):
                self.assertEqual(counted_script(read_source(given), None), given)

    def test_lines_keep_their_numbers(self):
        """Up to the schedule each line is where it was, so that the program names the right one."""
        given = b"-- c\nbackends 1\nsetup 1: begin work\nexpect 1.2 ok\n1: end -- x\nend\n"
        script = read_source(given).script
        self.assertEqual(script.lines, [b"-- c", b"backends 1", b"1: begin", b"-- expect 1.2 ok", b"1: commit"])

    def test_commands(self):
        """The texts of commands, as they are written but for a comment."""
        source = read_source(b"backends 2\nsetup 2: show t;\n1: LOCK t -- x\n2: show u\nend\n")
        self.assertEqual(source.commands, {(2, 1): "show t;", (1, 1): "LOCK t", (2, 2): "show u"})


class Items(unittest.TestCase):
    """The lines of steps."""

    def read(self, line):
        """The items of a line of steps in a script with two backends of nine commands."""
        commands = b"".join(b"%d: begin\n" % backend for backend in (1, 2) for _ in range(9))
        return [(item.backend, item.until) for item in read_source(b"backends 2\n%s%s\nend\n" % (commands, line)).items]

    def test_items(self):
        """Counts and names, with and without commas."""
        self.assertEqual(self.read(b"steps 1 2*3 1 * 4"), [(1, Count(1)), (2, Count(3)), (1, Count(4))])
        self.assertEqual(self.read(b"STEPS 1 TO 2, 2 to lock,1 2*2 1 to end"),
                         [(1, Answered(2)), (2, Made(("lock",))), (1, Count(1)), (2, Count(2)), (1, Stopped())])
        self.assertEqual(self.read(b"steps 1 to scan class,\r"), [(1, Made(("scan", "class")))])
        self.assertEqual(self.read(b"steps 2 to fetch 32"), [(2, Made(("fetch", "32")))])

    def test_entries(self):
        """An entry is meant by some of its words, in their order, the first of them first."""
        own = [(1, "look no"), (1, "lock 16384 as held 2 ax"), (2, "lock 16384 as ok"), (3, "stop")]
        for words, steps in (("look", 1), ("look yes", None), ("lock", 2), ("lock ok", 3), ("lock as held", 2),
                             ("lock held as", None), ("lock 16384 ax", 2), ("stop", 4)):
            with self.subTest(words):
                self.assertEqual(Made(tuple(words.split())).steps(own, 0), steps)
        self.assertEqual(Made(("lock",)).steps(own, 2), 1)
        self.assertIsNone(Made(("lock",)).steps(own, 3))

    def test_answers(self):
        """A command is answered with its last step, and one that makes none with the step before it."""
        own = [(0, "start"), (1, "look no"), (1, "release 1"), (3, "look no"), (4, "stop")]
        self.assertEqual([Answered(command).steps(own, 0) for command in (1, 2, 3)], [3, 3, 4])
        self.assertEqual([Answered(command).steps(own, 3) for command in (1, 2, 3)], [0, 0, 1])
        self.assertIsNone(Answered(2).steps(own, 4))


FAULTY = (
    (b"", "line 1: NoBackends: the first line, but for a ring line, must read 'backends N'"),
    (b"expect 1.1 ok\nsetup 1: show t\nbackends 1\nend\n", "line 2: NoBackends: the first line, but for a ring line, "),
    (b"backends 1\n", "line 2: NoEnd: the input ends without an 'end' line"),
    (b"backends 1\n1: show caf\xe9\nsteps 1*4\nend\n", "line 2: BadByte: the byte 0xE9 in column 12 is neither printable ASCII nor a tab"),
    (b"backends 1\n1: show caf\xc3\xa9\nend\n", "line 2: BadByte: the byte 0xC3 in column 12 (of the character U+00E9) is neither printable ASCII nor a tab"),
    (b"\xef\xbb\xbfbackends 1\nend\n", "line 1: BadByte: the byte 0xEF in column 1 (a byte order mark) is neither printable ASCII nor a tab"),
    (b"backends 1\r\r\nend\n", "line 1: BadByte: the byte 0x0D in column 11 (a carriage return that no line feed follows) is neither printable ASCII nor a tab"),
    (b"backends 1\n1: begin\nend;\n", "line 3: UnknownBackend: the line 'end' has that word alone, without a semicolon"),
    (b"backends \xb2\n1: show t\nsteps 1 to 1\nend\n", "line 1: BadByte: the byte 0xB2 in column 10 is neither printable ASCII nor a tab"),
    (b"\x7fELF\x01\n\0", "line 1: BadByte: the byte 0x7F in column 1 is neither printable ASCII nor a tab"),
    (b"backends 1\nend\n1: begin\n", "line 3: AfterEnd: only blank lines and comments may follow the 'end' line"),
    (b"backends 1\n1: begin\nsetup 1: begin\nend\n", "line 3: a set-up line must come before all other commands"),
    (b"backends 1\nsetup begin\nend\n", "line 2: a set-up line must read 'setup B: COMMAND'"),
    (b"backends 1\nsetup\nend\n", "line 2: a set-up line must read 'setup B: COMMAND'"),
    (b"backends 1\nsteps 1\n1: begin\nend\n", "line 3: LateCommand: no command may follow a steps line"),
    (b"backends 1\nsteps 1*0\nend\n", "line 2: '1*0' isn't 'B', 'B*COUNT' with COUNT from 1 to 1000000, or 'B to ..'"),
    (b"backends 1\nsteps 1 x\nend\n", "line 2: 'x' isn't 'B', 'B*COUNT' with COUNT from 1 to 1000000, or 'B to ..'"),
    (b"backends 1\nsteps\nend\n", "line 2: an item is missing in the line of steps"),
    (b"backends 1\nsteps 1, , 1\nend\n", "line 2: an item is missing in the line of steps"),
    (b"backends 1\nsteps to end\nend\n", "line 2: 'to' without a backend before it"),
    (b"backends 1\nsteps 1 to\nend\n", "line 2: '1 to' isn't 'B to C' with the number of a command, 'B to end', or 'B to' and "
     "the first word of an entry: start, look, "),
    (b"backends 1\nsteps 1 to lok\nend\n", "line 2: '1 to lok' isn't 'B to C' with"),
    (b"backends 1\nsteps 1 to end 1\nend\n", "line 2: '1 to end 1' isn't 'B to C' with"),
    (b"backends 2\nsteps 1 to end 2 to end\nend\n", "line 2: '1 to end 2 to end': a comma comes after '1 to end'\n"),
    (b"backends 2\nsteps 1 to end; 2 to end\nend\n", "line 2: '1 to end ; 2 to end': a comma comes after '1 to end', not ';'\n"),
    (b"backends 1\nsteps 2 to end\nend\n", "line 2: '2 to end': the script has 1 backend"),
    (b"backends 1\n1: begin\nsteps 1 to 2\nend\n", "line 3: '1 to 2': backend 1 has 1 command"),
    (b"backends 1\n1: begin\nsteps 1 to 0\nend\n", "line 3: '1 to 0': backend 1 has 1 command"),
    (b"backends 1\n1: begin\n1: LOCK t IN SHARE MODE NOWAIT;\nend\n", "line 3: 'nowait' isn't the model's: here no lock waits, "),
    (b"backends 1\n1: lock t nowait -- at once\nend\n", "line 2: 'nowait' isn't the model's"),
    (b"backends 1\n1: alter table t add b text, add c text\nend\n", "line 2: an 'alter table' makes one change here; make a "),
    (b"backends 1\n1: alter table t add b\nend\n", "line 2: the column 'b' has no type"),
    (b"backends 1\n1: alter table t add check (a > 0)\nend\n", "line 2: a constraint has a name here: 'add constraint NAME check (..)'"),
    (b"backends 1\n1: alter table t add column b;\nend\n", "line 2: the column 'b' has no type"),
    (b"backends 1\n1: drop table IF EXISTS t\nend\n", "line 2: 'if exists' isn't the model's; leave it out"),
    (b"backends 1\n1: create table if not exists t (a int4, b text)\nend\n", "line 2: 'if not exists' isn't the model's; "),
    (b"backends 1\n1: begin\nexpect 1.2 ok\nend\n", "line 3: there is no command 2 of backend 1"),
    (b"backends 1\n1: begin\nexpects 1.1 ok\nend\n", "line 3: UnknownBackend: no line begins with 'expects'; is 'expect' meant?\n"),
    (b"backends 1\n1: begin\nstep 1\nend\n", "line 3: UnknownBackend: no line begins with 'step'; is 'steps' meant?\n"),
    (b"backends 1\n1: begin\nexpect 1 ok\nend\n", "line 3: an expectation must read 'expect B.C TEXT', "),
)
UNREACHABLE = (
    (b"backends 1\n1: begin\nsteps 1 to lock\nend\n", "line 3: '1 to lock' can't be reached: no such entry comes before its stop"),
    (b"backends 1\n1: begin\n1: commit\nsteps 1 to 2, 1 to 1\nend\n", "line 4: '1 to 1' can't be reached: command 1 is answered "
     "already"),
    (b"backends 2\n1: create table t (a int4)\n2: show t\nsteps 2 to 1, 1 to end, 2 to lock\nend\n",
     "line 4: '2 to lock' can't be reached: no such entry comes before its stop"),
    (b"backends 1\n1: show t\nsteps 1 to scan clas\nend\n",
     "line 3: '1 to scan clas' can't be reached: no such entry comes before its stop; is 'class' meant?"),
    (b"backends 1\n1: show t\nsteps 1 to scan relname t rows 1\nend\n",
     "line 3: '1 to scan relname t rows 1' can't be reached: no such entry comes before its stop; 1.1 is answered "
     "'error 42P01 relation t does not exist'\n"),
    (b"backends 2\n1: show t\n2: show t\nsteps 1 to scan 2 to end, 1 to end\nend\n",
     "line 4: '1 to scan 2 to end' can't be reached: a comma comes after '1 to scan'\n"),
    (b"backends 1\n1: show t\nsteps 1 to scan relname to\nend\n", "line 3: '1 to scan relname to' can't be reached: no such entry "),
    (b"backends 1\n-- a\n1: creat table t ()\nsteps 1 to 1\nend\n", "catsync: line 3"),
    (b"backends 1\nsetup 2: begin\nend\n", "catsync: line 2"),
    (b"backends 1\n-- a\n1: creat table t ()\nend\n", "catsync: line 3: BadCommand: "),
    (b"end\n", "catsync: line 1: NoBackends: "),
    (b"backends %s\n1: show t\nsteps 1 to 1\nend\n" % (b"1" * 5000), "catsync: line 1: BadCount: "),
    (b"backends 1\n%s: show t\nsteps 1\nend\n" % (b"1" * 5000), "catsync: line 2: "),
)


class FaultyScripts(unittest.TestCase):
    """A fault is one line on standard error with its place, exit status 2, and nothing is printed."""

    def check(self, given, said, *words):
        """The tool's answer to faulty input."""
        with self.subTest(said):
            status, printed, error = call("schedule", *words, given=given)
            self.assertEqual((status, printed), (2, b""))
            self.assertTrue(error.startswith("schedule: " + said), error)
            self.assertEqual(error.count("\n"), 1)

    def test_lines(self):
        """Faults of single lines; the program isn't run."""
        for given, said in FAULTY:
            self.check(given, said, "--program", "/no/such/program")

    @unittest.skipUnless(HAS_PROGRAM, NO_PROGRAM)
    def test_words_of_the_program(self):
        """Where the program refuses a script too, it is in the same words."""
        for given in (b"", b"\n-- none\n", b"ring 64\n", b"1: show t\n", b"end\n", b"backends: 1\nend\n", b"backends 1",
                      b"backends 1\n1: show t\n", b"backends 1\nend\n1: begin\n", b"backends 1\nsteps 1\n1: begin\nend\n",
                      b"\x7fELF", b"backends 1\n\x80 1", b" " * 1048577):
            with self.subTest(given):
                done = subprocess.run([PROGRAM, "walk"], input=given, stdout=subprocess.PIPE, stderr=subprocess.PIPE)
                said = call("schedule", "--program", PROGRAM, given=given)[2].split("schedule: ")[1]
                self.assertEqual("catsync: " + said.split("catsync: ")[-1], done.stderr.decode())

    @unittest.skipUnless(HAS_PROGRAM, NO_PROGRAM)
    def test_what_cannot_be_reached(self):
        """What only a run tells."""
        for given, said in UNREACHABLE:
            self.check(given, said, "--program", PROGRAM)

    def test_surroundings(self):
        """No program, one that fails, wrong options."""
        named = b"backends 1\n1: begin\nsteps 1 to 1\nend\n"
        self.check(named, "/no/such/program: No such file or directory", "--program", "/no/such/program")
        self.check(named, "/bin/false: exit status 1", "--program", "/bin/false")
        self.check(named, "/bin/echo: what it prints isn't an output of catsync", "--program", "/bin/echo")
        self.check(named, "unrecognized arguments: --sideways; schedule --help says more", "--sideways")

    def test_closed_streams(self):
        """Closed standard streams are faults too, and none ends in a traceback."""
        tool = "%s %s/schedule" % (sys.executable, TOOLS)
        for line, status, said in ((tool + " <&-", 2, "schedule: reading failed: standard input is closed\n"),
                                   ("printf 'backends 1\\nend\\n' | %s >&-" % tool, 2, "schedule: writing failed: standard output is closed\n"),
                                   ("printf 'backends 1\\nend\\n' | %s >/dev/full" % tool, 2, "schedule: writing failed: No space left on device\n"),
                                   ("echo x | %s 2>&-" % tool, 2, "")):
            with self.subTest(line):
                done = subprocess.run(["bash", "-c", line], stdout=subprocess.PIPE, stderr=subprocess.PIPE)
                self.assertEqual((done.returncode, done.stderr.decode()), (status, said))


def reached(source, output, lines):
    """Checks a schedule in counts, line by line, against what its items say; the first item that isn't so."""
    own, places = {}, {}
    for line in output.decode().split("\n"):
        if line.startswith("h "):
            _, backend, command, text = line.split(" ", 3)
            own.setdefault(int(backend), []).append((int(command), text))
    for item, count in zip(source.setup + source.items, lines):
        steps, at = own.get(item.backend, []), places.get(item.backend, 0)
        made = steps[at:at + count]
        places[item.backend] = at + count
        if not is_reached(item.until, steps, at, made):
            return item
    return None


def is_reached(until, steps, at, made):
    """Whether a turn goes just as far as it should: to the end of a command, to an entry, or to the stop."""
    if isinstance(until, Answered):
        after = steps[at + len(made):]
        return all(command <= until.command for command, _ in made) and (not after or after[0][0] > until.command)
    if isinstance(until, Made):
        return [until.is_in(text.split(" ")) for _, text in made] == [False] * (len(made) - 1) + [True]
    if isinstance(until, Stopped):
        return (at + len(made)) == len(steps) and steps[-1][1] == "stop"
    return True


def drawn_script(draw, backends, commands):
    """A script of backends that alter and show one table, each with so many commands, and a schedule by names."""
    lines = ["backends %d" % backends, "setup 1: create table t (a int4)"]
    kinds = ("show t", "show t statistics", "alter table t alter a set statistics 5", "alter table t add c%d_%d text",
             "create table u%d_%d (a int4)")
    for backend in range(1, backends + 1):
        for number in range(commands):
            kind = draw.choice(kinds)
            lines.append("%d: %s" % (backend, kind % (backend, number) if "%d" in kind else kind))
    done = {backend: int(backend == 1) for backend in range(1, backends + 1)}
    most = {backend: commands + int(backend == 1) for backend in done}
    while any(done[backend] < most[backend] for backend in done):
        backend = draw.choice([backend for backend in done if done[backend] < most[backend]])
        done[backend] += 1
        looks = draw.choice(("", "", "%d to look, " % backend, "%d " % backend))
        lines.append("steps %s%d to %d" % (looks, backend, done[backend]))
    return "\n".join(lines + ["end", ""]).encode()


@unittest.skipUnless(HAS_PROGRAM, NO_PROGRAM)
class Counts(unittest.TestCase):
    """Names turned into counts, with the program."""

    @classmethod
    def setUpClass(cls):
        cls.program = Program(PROGRAM)

    @classmethod
    def tearDownClass(cls):
        cls.program.close()

    def counted(self, given):
        """A script in counts, and the number of runs that it took."""
        before = self.program.runs
        script = counted_script(read_source(given), lambda: self.program)
        return script, self.program.runs - before

    def one_by_one(self, given):
        """The counts of a script's items, each from a run of its own: as it is said, and slowly."""
        source, counts = read_source(given), []
        items = source.setup + source.items
        for item in items:
            turns = [(other.backend, count) for other, count in zip(items, counts) if count] + [(item.backend, 300)]
            line = "steps " + " ".join("%d*%d" % turn for turn in turns)
            own = [(command, text) for backend, command, text in self.program.run(source.script.with_steps(line)).steps
                   if backend == item.backend]
            at = sum(count for other, count in zip(items, counts) if other.backend == item.backend)
            counts.append(item.until.steps(own, at))
        return source, counts

    def lines_of_steps(self, script):
        """The turns of a script in counts, step by step."""
        text = " ".join(line[5:] for line in script.decode().split("\n") if line.startswith("steps"))
        found = re.findall(r"([0-9]+)(?:\*([0-9]+))?", text)
        return [int(backend) for backend, count in found for _ in range(int(count or 1))]

    def test_against_one_run_for_each_item(self):
        """Random schedules have the counts that come out where each item has a run of its own."""
        draw = random.Random(11)
        for _ in range(4):
            given = drawn_script(draw, draw.choice((2, 3)), draw.choice((3, 5)))
            with self.subTest(given):
                source, counts = self.one_by_one(given)
                script, runs = self.counted(given)
                steps = [item.backend for item, count in zip(source.setup + source.items, counts) for _ in range(count)]
                self.assertEqual(self.lines_of_steps(script), steps)
                self.assertIsNone(reached(source, self.program.run(script).output, counts))
                self.assertLessEqual(runs, 2 * len(counts) + 2)

    def test_by_hand(self):
        """A table that is visible and locked: counts that were worked out by hand."""
        given = (b"backends 2\n1: create table t (a int4)\n2: show t\n2: show t\n"
                 b"steps 1 to visible, 2 to lock, 2 to 1, 1 to 1, 2 to end, 1 to end\nend\n")
        script, runs = self.counted(given)
        self.assertEqual(script, b"backends 2\n1: create table t (a int4)\n2: show t\n2: show t\n"
                         b"-- steps 1 to visible, 2 to lock, 2 to 1, 1 to 1, 2 to end, 1 to end\n"
                         b"steps 1*4 2*6 1*3 2*20 1\nend\n")
        self.assertEqual(self.program.run(script).output, content_of(os.path.join(TOP, "examples", "two_backends.output")))
        self.assertLessEqual(runs, 5)

    def test_setup(self):
        """A set-up runs to its end first. Backends with no other command stop in it, and without a schedule all go on to
        their stop after it."""
        given = b"backends 2\nsetup 1: create table t (a int4)\nsetup 2: begin\n2: commit\nend\n"
        script, _ = self.counted(given)
        self.assertEqual(script, b"backends 2\n1: create table t (a int4)\n2: begin\n2: commit\n-- setup\nsteps 1*7 2*2 1\n"
                         b"-- all to end\nsteps 2*2\nend\n")
        runner = Runner(read_source(given), self.program)
        self.assertEqual((runner.setup, runner.backends), ([(1, 7), (2, 2), (1, 1)], [2]))
        self.assertEqual([text for _, _, text in runner.past], [
            "start", "look no", "write 1 +class(16384,t,r,-) +att(16384,1,a,int4,-1,l)", "visible 1", "publish 3", "publish 1",
            "release 1", "start", "look no", "stop"])
        self.assertEqual(runner.with_turns([(2, 1)]).steps, [(2, 2, "release 1")])
        self.assertEqual(runner.run([], [2]).steps, [(2, 2, "release 1"), (2, 3, "stop")])

    def test_few_runs(self):
        """Each race takes few runs."""
        for path in RACES:
            with self.subTest(path):
                self.assertLessEqual(self.counted(content_of(path))[1], 8)

    def test_a_second_time(self):
        """What was printed stays as it is."""
        for path in RACES:
            script, _ = self.counted(content_of(path))
            self.assertEqual(counted_script(read_source(script), None), script)


if __name__ == "__main__":
    unittest.main()
