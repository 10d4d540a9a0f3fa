#!/usr/bin/env python3
"""Tests of tools/server: python3 tools/test_server.py

Without PostgreSQL's server they are skipped, but for those that need none; testing.py says which program is run.
CATSYNC_SERVER_SCRIPTS says how many random scripts are run beside the server: 20 if it isn't set.
"""
import contextlib
import glob
import os
import random
import signal
import subprocess
import tempfile
import time
import unittest
import unittest.mock

from testing import HAS_PROGRAM, NO_PROGRAM, PROGRAM, TOOLS, TOP, call, hear_signals

from catsync_tools.beside import Pairs, compare, differences, order_of, without
from catsync_tools.differences import all_differences, profile
from catsync_tools.documented import ROWS, Case, words_of
from catsync_tools.folder import Folder
from catsync_tools.known import Facts
from catsync_tools.postgres import Server, folder_of_programs
from catsync_tools.program import Program
from catsync_tools.sources import read_source
from catsync_tools.sql import Answer, Closed, Listed, Opened, Peeked, Regclass, Shown, referred_in, statement_of

HAS_SERVER = folder_of_programs() is not None
SCRIPTS = int(os.environ.get("CATSYNC_SERVER_SCRIPTS", "20"))

TABLES = ("t", "t", "t", "u", "order", "_t")
COLUMNS = ("a", "b", "a", "b", "c", "d", "select")
SYSTEM_COLUMNS = ("ctid", "xmin", "tableoid", "oid")
TYPES = ("bool", "int2", "int4", "int8", "text", "bytea", "date", "timestamptz", "boolean", "smallint", "integer", "bigint")
MODES = ("access share", "row share", "row exclusive", "share update exclusive", "share", "share row exclusive", "exclusive",
         "access exclusive")
FIELDS = ("name", "columns", "defaults", "statistics", "fillfactor", "constraints", "referenced", "indexes", "triggers", "of",
          "valid")
OIDS = ("16384", "16385", "16386", "16387", "16999")
COMMANDS = (
    (10, "begin"), (8, "commit"), (4, "rollback"), (10, "show T"), (10, "show T FIELD"), (10, "lock table T in MODE mode"),
    (5, "columns T"), (5, "column T C"), (5, "regclass OID"),
    (10, "open T"), (6, "peek T"), (5, "peek T FIELD"), (4, "close T"),
    (9, "create table T (COLUMNS)"), (7, "alter table T add column C TYPE"), (6, "alter table T drop column C"),
    (6, "alter table T rename column C to C"), (7, "alter table T alter column C set statistics STAT"),
    (6, "alter table T set (fillfactor = FILL)"), (4, "alter table T alter column C set default WORD"),
    (4, "alter table T add constraint K check (CHECK) VALID"),
    (6, "alter table T add constraint K foreign key (C) references T (C) VALID"), (3, "alter table T validate constraint K"),
    (3, "alter table T drop constraint K"), (4, "create trigger G on T"), (4, "alter table T SWITCH trigger G"),
    (7, "create index I on T (C)"), (3, "create index I on T (C, C)"), (3, "drop index I"), (4, "alter index I rename to I"),
    (3, "show I"), (3, "show I FIELD"))
INDEXES, CONSTRAINTS, TRIGGERS = ("i", "j", "i", "t"), ("k", "l"), ("g", "h")


def random_command(draw, columns):
    """A command."""
    text = draw.choices([form for _, form in COMMANDS], [weight for weight, _ in COMMANDS])[0]
    if "COLUMNS" in text:
        text = text.replace("COLUMNS", ", ".join("C TYPE" for _ in range(draw.randint(0, 4))))
    choices = {"T": TABLES, "C": columns, "TYPE": TYPES, "MODE": MODES, "FIELD": FIELDS, "OID": OIDS,
               "FILL": ("0", "9", "10", "50", "100", "101"), "WORD": ("7", "-3", "now", "x_y"), "CHECK": ("a > 0", "b > 0", "d > 0"), "VALID": ("", "not valid"),
               "SWITCH": ("enable", "disable"), "K": CONSTRAINTS, "G": TRIGGERS, "I": INDEXES,
               "STAT": ("-2", "-1", "0", "1", "100", "9999", "10000", "10001", "999999999")}
    words = text.replace("(", "( ").replace(")", " )").replace(",", " ,").split(" ")
    return " ".join(draw.choice(choices[word]) if word in choices else word for word in words)


def homes():
    """The folders in which the processes of this machine are at home, as far as they may be known."""
    for home in glob.glob("/proc/[0-9]*/cwd"):
        with contextlib.suppress(OSError):
            yield os.readlink(home)


def random_script(draw):
    """A script, and an order of its commands."""
    backends = draw.randint(1, 4)
    columns = COLUMNS + (SYSTEM_COLUMNS if draw.random() < 0.2 else ())
    lines, order, counts = ["1: create table t (a int4, b text)"], [(1, 1)], {1: 1}
    for _ in range(draw.randint(4, 24)):
        backend = draw.randint(1, backends)
        counts[backend] = counts.get(backend, 0) + 1
        lines.append("%d: %s" % (backend, random_command(draw, columns)))
        order.append((backend, counts[backend]))
    return "\n".join(["backends %d" % backends] + lines + ["end", ""]).encode(), order


class Statements(unittest.TestCase):
    """Commands as SQL, and answers beside each other."""

    def test_statements(self):
        """Each command has its SQL, with names in quotes."""
        for command, statement in (
                ("BEGIN;", "begin"), ("commit", "commit"), ("rollback ;", "rollback"),
                ("show t", Shown("t", None)), ("show t statistics", Shown("t", "statistics")),
                ("open t;", Opened("t")), ("peek t", Peeked("t", None)), ("peek T valid", Peeked("t", "valid")), ("close t", Closed("t")),
                ("columns t;", Listed("t", None)), ("column T a", Listed("t", "a")), ("regclass 016384", Regclass(16384)),
                ("lock table order in SHARE row exclusive mode", 'lock table "order" in share row exclusive mode'),
                ("create table t(a int4,b text);", 'create table "t" ("a" int4, "b" text)'),
                ("create table t ()", 'create table "t" ()'),
                ("alter table t add column b bool", 'alter table "t" add column "b" bool'),
                ("alter table t drop column b", 'alter table "t" drop column "b"'),
                ("alter table t rename column a to b", 'alter table "t" rename column "a" to "b"'),
                ("alter table t alter column a set statistics -1", 'alter table "t" alter column "a" set statistics -1'),
                ("alter table t set (fillfactor=70)", 'alter table "t" set (fillfactor = 70)'),
                ("drop table t;", 'drop table "t"'), ("alter table t rename to order", 'alter table "t" rename to "order"'),
                ("savepoint s", 'savepoint "s"'), ("release s", 'release savepoint "s"'),
                ("rollback to savepoint s;", 'rollback to savepoint "s"'),
                ("alter table t alter column a set default x-y", "alter table \"t\" alter column \"a\" set default 'x-y'"),
                ("alter table t add constraint k check(a - 1 >= 0) NOT valid;",
                 'alter table "t" add constraint "k" check (a-1>=0) not valid'),
                ("alter table t add constraint k foreign key(a) references u(b)",
                 'alter table "t" add constraint "k" foreign key ("a") references "u" ("b")'),
                ("alter table t validate constraint k", 'alter table "t" validate constraint "k"'),
                ("alter table t drop constraint k ;", 'alter table "t" drop constraint "k"'),
                ("alter table t disable trigger g", 'alter table "t" disable trigger "g"'),
                ("create trigger g on t", 'create trigger "g" before update on "t" for each row execute function '
                                          'suppress_redundant_updates_trigger()'),
                ("create index i on t(a,b);", 'create index "i" on "t" ("a", "b")'), ("drop index i", 'drop index "i"'),
                ("alter index i rename to j", 'alter index "i" rename to "j"'),
                ("drop view v", None), ("show", None), ("create table t (a)", None)):
            self.assertEqual(statement_of(command), statement)
        referred = referred_in(["alter table t add constraint k foreign key (a) references u (b)", "drop table u"])
        self.assertEqual(referred, {("u", "b")})
        self.assertEqual(statement_of("create table u (a int4, b text)", referred), 'create table "u" ("a" int4, "b" text unique)')
        self.assertEqual(statement_of("alter table u add column b text", referred), 'alter table "u" add column "b" text unique')
        self.assertEqual(statement_of("alter table t add column b text", referred), 'alter table "t" add column "b" text')

    def test_differences(self):
        """What differs is told by fields; oids needn't be the same, errors are compared by their codes."""
        pairs = Pairs()
        for here, server, expected in (
                ("ok", Answer("ok", []), []), ("ok", Answer("rolled back", []), ["answer"]),
                ("ok", Answer("ok", ["25001 x"]), ["warning"]),
                ("error 42P01 a", Answer("error 42P01 b", []), []), ("error 42P01 a", Answer("error 42P07 a", []), ["error"]),
                ("ok", Answer("error 42P07 a", []), ["answer"]), ("error 42P07 a", Answer("ok", []), ["answer"]),
                ("table 1; name t", Answer("table 5; name t", []), []),
                ("table 1; name t", Answer("table 6; name u", []), ["table", "name"]),
                ("table 2; name t", Answer("table 5; name t", []), ["table"]),
                ("statistics 1:-1", Answer("statistics 1:-1", []), []),
                ("statistics 1:-1", Answer("statistics 1:5", []), ["statistics"]),
                ("index 7; name i; of 1:2+1; valid v", Answer("index 8; name i; of 5:2+1; valid v", []), []),
                ("of 1:2", Answer("of 6:2", []), ["of"]), ("of 1:2", Answer("of 5:1", []), ["of"]),
                ("indexes 7:v:1 9:v:2", Answer("indexes 8:v:1 11:v:2", []), []),
                ("indexes 7:v:1", Answer("indexes 8:v:1 11:v:2", []), ["indexes"]),
                ("referenced 12:1:1", Answer("referenced 13:5:1", []), []),
                ("referenced 12:1:1", Answer("referenced 13:6:1", []), ["referenced"]),
                ("constraints k:check:v:a>0 l:fk:n:1:1:2", Answer("constraints k:check:v:a>0 l:fk:n:1:5:2", []), []),
                ("constraints l:fk:n:1:1:2", Answer("constraints l:fk:n:1:6:2", []), ["constraints"]),
                ("constraints l:fk:n:1:1:2", Answer("constraints l:fk:v:1:5:2", []), ["constraints"])):
            with self.subTest((here, server)):
                self.assertEqual(differences(here, server, pairs), expected)

    def test_order(self):
        """Commands come in the order in which they end; one without an entry comes after the one before it."""
        commands = {(1, 1): "", (1, 2): "", (1, 3): "", (2, 1): "", (2, 2): ""}
        steps = [(1, 0, "start"), (2, 0, "start"), (1, 1, "a"), (2, 1, "a"), (1, 1, "b"), (1, 2, "a"), (2, 2, "a"),
                 (1, 4, "stop")]
        self.assertEqual(order_of(commands, steps), [(2, 1), (1, 1), (1, 2), (1, 3), (2, 2)])

    def test_profile_names_them(self):
        """The page has the words by which differences are named."""
        text = profile()
        for row in ROWS:
            self.assertTrue(row.words.lower() in text, row.words)

    def test_conditions(self):
        """A difference is a documented one only where its row's condition holds, whatever the messages say."""
        facts = Facts({("a", "x")})
        for backend, command, text in (
                (1, 0, "start"), (1, 1, "write 1 +class(16384,a,r,-) +att(16384,1,x,int4,-1,l) +att(16384,2,y,text,-1,l)"),
                (1, 1, "visible 1"), (1, 1, "release 1"),
                (1, 2, "write 2 +class(16385,b,r,-) +att(16385,1,x,int4,-1,l)"), (1, 2, "visible 2"), (1, 2, "release 2"),
                (1, 3, "write 3 +con(16386,16385,k,f,v,1,16384,1) !16384"), (1, 3, "visible 3"), (1, 3, "release 3"),
                (1, 4, "write 4 +con(16387,16384,c,c,v,y>0) !16384"), (1, 4, "visible 4"), (1, 4, "release 4"),
                (1, 5, "write 5 +class(16388,i,i,-) +ind(16388,16384,v,1) !16384"), (1, 5, "visible 5"), (1, 5, "release 5"),
                (2, 0, "start"), (2, 1, "look no"), (2, 2, "lock 16384 su ok"), (2, 2, "write 6 =class(16384,a,r,70)")):
            facts.take(backend, command, text)
        for text in ("begin", "open a"):
            facts.end(1, text, "ok")
        refused = "error %s x"
        for text, here, server, words in (
                ("drop table b", "55006", "ok", "has a table open that a key of the dropped one refers to"),
                ("drop table a", "55006", "ok", None), ("drop table a", "55006", "2BP01", "55006 comes before 2BP01"),
                ("drop table b", "55006", "2BP01", None), ("drop index i", "55006", "ok", "an index whose table is open"),
                ("alter table a rename to c", "55006", "ok", "renames what is open"), ("alter table b rename to c", "55006", "ok", None),
                ("create trigger g on a", "55006", "ok", "makes triggers on it"), ("create trigger g on b", "55006", "ok", None),
                ("create table a ()", "55P03", "42P07", "is 42P07 at once"), ("create table b ()", "55P03", "42P07", None),
                ("alter table b rename to b", "ok", "42P07", "own is 42P07"), ("alter table b rename to c", "ok", "42P07", None),
                ("drop index a", "55P03", "42809", "the kind is tested before the lock"), ("drop index b", "55P03", "42809", None),
                ("lock table i in share mode", "55P03", "42809", None), ("alter table i rename to j", "42809", "ok", "take an index too"),
                ("alter table i rename column x to y", "42809", "ok", "take an index too"), ("alter table a rename to j", "42809", "ok", None),
                ("alter table i alter column x set statistics 5", "42809", "0A000", "take an index too"),
                ("alter table a drop column x", "0A000", "ok", "is refused with 0A000"), ("alter table a drop column y", "0A000", "ok", None),
                ("alter table a alter column x set default w", "ok", "22P02", "a default is a word"),
                ("alter table a alter column y set default w", "ok", "22P02", None),
                ("alter table a alter column x set default 7", "ok", "22P02", None),
                ("alter table a add constraint l check ( z>0 )", "ok", "42703", "the text of a check"),
                ("alter table a add constraint l check ( x>0 )", "ok", "42703", None),
                ("alter table b validate constraint k", "ok", "55P03", None),
                ("alter table b add constraint l foreign key ( x ) references a ( y )", "ok", "42804", "have to be unique"),
                ("alter table b add constraint l foreign key ( x ) references a ( x )", "ok", "42830", None),
                ("create table t ( ctid int4 )", "ok", "42701", "names of system columns"), ("create table ctid ( a int4 )", "ok", "42701", None),
                ("alter table a drop constraint c", "ok", "42704", None)):
            with self.subTest((text, here, server)):
                case = Case(1, text, refused % here if here != "ok" else here, refused % server if server != "ok" else server, facts)
                part = "error" if "ok" not in (here, server) else "answer"
                self.assertEqual(words_of(case, part, []), words)
        for text, warning, words in (("begin", "25001 x", "with a warning (25001, 25P01)"), ("commit", "25P01 x", None),
                                     ("alter table a alter column x set statistics 10001", "22023 x", "lowered to 10,000"),
                                     ("alter table a alter column x set statistics 10000", "22023 x", None)):
            with self.subTest(text):
                self.assertEqual(words_of(Case(1, text, "ok", "ok", facts), "warning", [warning]), words)
        facts.take(2, 3, "lock 16384 ex ok")
        self.assertEqual(words_of(Case(1, "alter table b validate constraint k", "ok", refused % "55P03", facts), "answer", []),
                         "locks the table that the key refers to")

    def test_checks_that_move(self):
        """A check whose column goes, or gets another name, isn't compared any more, until that is taken back."""
        facts = Facts()
        for command, text in ((1, "write 1 +class(16384,a,r,-) +att(16384,1,x,int4,-1,l)"), (1, "visible 1"), (1, "release 1"),
                              (2, "write 2 +con(16385,16384,c,c,v,x>0) !16384"), (2, "visible 2"), (2, "release 2"),
                              (3, "write 3 =att(16384,1,z,int4,-1,l)")):
            facts.take(1, command, text)
        case = Case(1, "alter table a drop constraint c", "ok", "error 42704 x", facts)
        self.assertEqual((facts.moved_checks(16384), words_of(case, "answer", [])), ({"c"}, "dropped with any column that it names"))
        facts.take(1, 3, "gone 3")
        self.assertEqual((facts.moved_checks(16384), words_of(case, "answer", [])), (set(), None))
        for text, expected in (("constraints c:check:v:x>0 k:fk:v:1:5:1", "constraints k:fk:v:1:5:1"), ("constraints c:check:v:x>0", "constraints -"),
                               ("name t; constraints d:check:v:x>0 c:check:v:x>0; referenced -", "name t; constraints d:check:v:x>0; referenced -")):
            self.assertEqual(without(text, ["c"]), expected)


@unittest.skipUnless(HAS_PROGRAM, NO_PROGRAM)
class Faults(unittest.TestCase):
    """Faults, for which no server is needed."""

    def test_faults(self):
        """A fault is one line on standard error, exit status 2, and nothing is printed."""
        with tempfile.TemporaryDirectory() as folder:
            paths = {}
            for name, text in (("good", "backends 1\n1: show t\nend\n"), ("bad", "backends 1\n1: shwo t\nend\n")):
                paths[name] = os.path.join(folder, name)
                with open(paths[name], "w", encoding="ascii") as file:
                    file.write(text)
            for words, expected in (([paths["bad"]], paths["bad"] + ": catsync: line 2: "), (["/no/such"], "/no/such: reading failed: "),
                                    ([], "the following arguments are required: SCRIPT; "),
                                    ([paths["good"], "--programs", folder], "no PostgreSQL server in " + folder)):
                with self.subTest(words):
                    status, shown, said = call("server", "--program", PROGRAM, *words)
                    self.assertEqual((status, shown, said.count("\n")), (2, b"", 1))
                    self.assertIn(expected, said)


@unittest.skipUnless(HAS_PROGRAM, NO_PROGRAM)
@unittest.skipUnless(HAS_SERVER, "no PostgreSQL server")
class Beside(unittest.TestCase):
    """Scripts beside a server."""

    @classmethod
    def setUpClass(cls):
        cls.server, cls.program = Server(), Program(PROGRAM)

    @classmethod
    def tearDownClass(cls):
        cls.server.stop()
        cls.program.close()

    def check(self, data, order=None):
        """All differences are ones that are named."""
        all_compared = compare(read_source(data), self.program, self.server, order)
        for compared, found in zip(all_compared, all_differences(all_compared, profile())):
            self.assertFalse([each for each in found if each.is_new], (data, compared))

    def test_going_on(self):
        """After a difference both are alike: what one of them has done alone is undone, so that the next difference shows."""
        with open(os.path.join(TOOLS, "samples", "beside.script"), "rb") as file:
            all_compared = compare(read_source(file.read()), self.program, self.server)
        new = [(compared.command, each.part) for compared, found in zip(all_compared, all_differences(all_compared, profile()))
               for each in found if each.is_new]
        self.assertEqual(new, [])
        self.assertEqual([compared.command for compared in all_compared if compared.differences], [
            (1, 4), (1, 5), (1, 10), (2, 3), (2, 6), (2, 8)])

    def test_examples(self):
        """The examples and the races."""
        races = glob.glob(os.path.join(TOP, "examples", "races", "*.script"))
        for path in sorted(glob.glob(os.path.join(TOP, "examples", "*.output"))) + sorted(races):
            with self.subTest(path), open(os.path.splitext(path)[0] + ".script", "rb") as file:
                self.check(file.read())

    def test_random_scripts(self):
        """Random scripts whose commands don't overlap."""
        for number in range(SCRIPTS):
            data, order = random_script(random.Random("beside %d" % number))
            with self.subTest(number):
                self.check(data, order)

    @contextlib.contextmanager
    def own_folder(self):
        """A folder in which temporary files are made meanwhile, which the server's user can read too."""
        with tempfile.TemporaryDirectory() as folder, unittest.mock.patch.dict(os.environ, TMPDIR=folder):
            os.chmod(folder, 0o755)
            yield folder

    def test_signals(self):
        """A signal at any time, and a second one after it, leaves no server and no folder."""
        draw = random.Random(2)
        for number in (signal.SIGHUP, signal.SIGTERM, signal.SIGINT, signal.SIGHUP):
            with self.subTest(number), self.own_folder() as folder:
                path = os.path.join(TOP, "examples", "two_backends.script")
                server = subprocess.Popen([os.path.join(TOOLS, "server"), "--program", PROGRAM, path], stdout=subprocess.PIPE,
                                          stderr=subprocess.PIPE, preexec_fn=hear_signals)
                with server:
                    while not os.listdir(folder) and server.poll() is None:
                        time.sleep(0.01)
                    time.sleep(draw.uniform(0, 0.6))
                    server.send_signal(number)
                    time.sleep(draw.uniform(0, 0.1))
                    server.send_signal(number)
                    said = server.stderr.read()
                self.assertIn((server.returncode, said), ((130, b"server: interrupted\n"), (130, b""), (0, b"")))
                self.assertEqual(os.listdir(folder), [])

    def test_killed(self):
        """What a killed tool leaves, its server with it, the next one takes away; and not what one that lives has."""
        words = [os.path.join(TOOLS, "server"), "--program", PROGRAM, os.path.join(TOP, "examples", "two_backends.script")]
        draw = random.Random(3)
        with self.own_folder() as folder:
            with unittest.mock.patch("tempfile.tempdir", folder):
                other = Folder(None)
            for _ in range(3):
                with subprocess.Popen(words, stdout=subprocess.DEVNULL, stderr=subprocess.DEVNULL) as server:
                    while not glob.glob(os.path.join(folder, "*", "data", "postmaster.pid")) and server.poll() is None:
                        time.sleep(0.01)
                    time.sleep(draw.uniform(0, 0.3))
                    server.kill()
                self.assertEqual(len(os.listdir(folder)), 2)
                self.assertEqual(call("server", *words[1:])[::2], (0, ""))
                self.assertEqual(os.listdir(folder), [os.path.basename(other.path)])
                self.assertEqual([home for home in homes() if home.startswith(folder)], [])
            other.remove()
            self.assertEqual(os.listdir(folder), [])

    def test_command(self):
        """What is printed, and the exit status; and nothing is left behind."""
        with tempfile.NamedTemporaryFile() as file:
            file.write(b"backends 2\nsetup 1: create table t (a int4)\n1: begin\n1: begin\n2: show t name\n1: end\n"
                       b"2: show u\nend\n")
            file.flush()
            with self.own_folder() as folder:
                status, shown, said = call("server", "--program", PROGRAM, file.name)
                self.assertEqual((status, said), (0, ""))
                self.assertEqual(os.listdir(folder), [])
        head, *commands = shown.decode().split("\n\n")
        self.assertRegex(head, "^beside PostgreSQL [0-9.]+: 6 commands, of which 1 differs$")
        self.assertIn("1.3 begin\n    here    ok\n    server  ok\n"
                      "    server  warning 25001 there is already a transaction in progress\n"
                      "    differs in warning, as docs/PROFILE.md says: with a warning (25001, 25P01)", commands)
        self.assertIn("2.1 show t name\n    both    name t", commands)


if __name__ == "__main__":
    unittest.main()
