#!/usr/bin/env python3
"""Tests of tools/spec: python3 tools/test_spec.py

Where isolationtester is installed (Debian's postgresql-NN, below lib/pgxs) the specs of examples/specs are run by it too;
testing.py says which program is run.
"""
import glob
import os
import re
import subprocess
import tempfile
import unittest

from testing import HAS_PROGRAM, NO_PROGRAM, PROGRAM, TOP, call, content_of, without_progress

from catsync_tools.faults import Fault
from catsync_tools.isolation import Blocker, all_permutations, read_spec
from catsync_tools.postgres import Server, folder_of_programs
from catsync_tools.refused import condition_of, why_no_check
from catsync_tools.statements import Rows, Sayer, statements_in
from catsync_tools.wording import message_of, warning_of

SPECS = sorted(glob.glob(os.path.join(TOP, "examples", "specs", "*.spec")))
TESTERS = sorted(glob.glob("/usr/lib/postgresql/*/lib/pgxs/src/test/isolation/isolationtester"))
TWO = ("session s1 step a { BEGIN; } step b { COMMIT; }\n"
       "session \"s \"\"2\" setup { SELECT 1; } step \"c d\" {\n\tSELECT 1;\n } teardown { SELECT 2; }\n")


def said(sql, *before):
    """The statements of SQL, after the SQL of a set-up."""
    sayer = Sayer()
    for each in before:
        sayer.note(each)
        sayer.step(each)
    return sayer.step(sql)


def without_notes(told):
    """What is said on standard error beside how far it is and what a report doesn't say, and the lines of that."""
    lines = without_progress("spec", told).splitlines(keepends=True)
    return tuple("".join(line for line in lines if line.startswith("# ") == are_notes) for are_notes in (False, True))


class Format(unittest.TestCase):
    """isolationtester's files."""

    def test_parts(self):
        """A file's parts, with comments, names in quotes, and SQL as it is printed."""
        spec = read_spec("# a comment\nsetup { CREATE TABLE t (a int); }\nsetup { SELECT 1; }\nteardown {}\n" + TWO
                         + "permutation a \"c d\"(*) b(\"c d\", a notices 2) # another\npermutation b")
        self.assertEqual((spec.setup, spec.teardown), (["CREATE TABLE t (a int);", "SELECT 1;"], [""]))
        self.assertEqual([session.name for session in spec.sessions], ["s1", 's "2'])
        self.assertEqual(spec.steps["c d"].sql, "\n\tSELECT 1;\n")
        self.assertEqual((spec.sessions[1].setup, spec.sessions[1].teardown), (["SELECT 1;"], ["SELECT 2;"]))
        self.assertEqual([(placed.step.name, placed.blockers) for placed in spec.permutations[0]], [
            ("a", ()), ("c d", (Blocker("*"),)), ("b", (Blocker("c d"), Blocker("a", 2)))])

    def test_all_permutations(self):
        """Where none is listed all are meant that keep each session's order, in isolationtester's order."""
        names = [" ".join(placed.step.name for placed in each) for each in all_permutations(read_spec(TWO))]
        self.assertEqual(names, ["a b c d", "a c d b", "c d a b"])

    def test_faults(self):
        """What goes wrong is named with its line."""
        for text, expected in (
                ("setup { x }", "line 1: a session is due here, and the file ends"),
                ("session s\nsession t", "line 2: a step of session 's' is due here, not 'session'"),
                ("session s step a {", "line 1: a '{' without its '}'"),
                ("session s\nstep a {}\nstep a {}", "line 3: the step 'a' is there twice"),
                (TWO + "permutation a x", "line 5: there is no step 'x'"),
                (TWO.replace("BEGIN; }", "BEGIN;") + "permutation b", "line 5: there is no step 'b': the SQL of 'a' has it, up to the next '}'"),
                (TWO + "permutation a(b)", "line 5: the step 'b', which 'a' waits for, isn't in its permutation"),
                (TWO + "step x {}", "line 5: a session or a permutation is due here, not 'step'"),
                (TWO + "permutation a;", "line 5: no part of a spec begins with ';'"),
                ('session "s\nstep', 'line 1: a name in quotes that doesn\'t end in its line')):
            with self.subTest(text):
                with self.assertRaises(Fault) as raised:
                    read_spec(text)
                self.assertEqual(str(raised.exception), expected)


class Statements(unittest.TestCase):
    """SQL as commands."""

    def test_tokens(self):
        """Comments, quotes, capitals and the schema."""
        self.assertEqual(statements_in('SELECT a -- no\nFROM public."t" /* no\n */; BEGIN ;; INSERT INTO "T" VALUES (\';\', $$;$$)'), [
            ["select", "a", "from", "t"], ["begin"], ["insert", "into", '"T"', "values", "(", "';'", ",", "$$;$$", ")"]])

    def test_commands(self):
        """What says a statement."""
        made = "CREATE TABLE t (a int PRIMARY KEY, b text); CREATE TABLE u (c int)"
        for sql, commands in (
                ("BEGIN ISOLATION LEVEL REPEATABLE READ", ["begin"]), ("START TRANSACTION", ["begin"]), ("END", ["commit"]),
                ("ABORT WORK", ["rollback"]), ("SAVEPOINT s", ["savepoint s"]), ("RELEASE s", ["release s"]),
                ("ROLLBACK TO SAVEPOINT s", ["rollback to s"]), ("ROLLBACK TO s", ["rollback to s"]),
                ("SELECT * FROM t", ["show t"]), ("SELECT 1 FROM ONLY t AS x, u WHERE 1 IN (SELECT a FROM t)", ["show t", "show u"]),
                ("SELECT a FROM t JOIN u ON a = c", ["show t", "show u"]), ("SELECT count(*) FROM generate_series(1, 2)", []),
                ("SELECT * FROM nowhere", ["show nowhere"]), ("WITH w AS (SELECT 1) SELECT * FROM w, pg_class", []),
                ("SELECT extract(epoch FROM b) FROM t WHERE a IS DISTINCT FROM b", ["show t"]),
                ("SELECT * FROM t FOR NO KEY UPDATE", ["lock table t in row share mode"]), ("TABLE t", ["show t"]),
                ("INSERT INTO t (a) SELECT c FROM u", ["lock table t in row exclusive mode", "show u"]),
                ("UPDATE ONLY t SET a = 1", ["lock table t in row exclusive mode"]),
                ("DELETE FROM t USING u", ["lock table t in row exclusive mode", "show u"]),
                ("LOCK t", ["lock table t in access exclusive mode"]),
                ("LOCK TABLE ONLY t, u IN SHARE MODE NOWAIT", ["lock table t in share mode", "lock table u in share mode"]),
                ("TRUNCATE t, u CASCADE", ["lock table t in access exclusive mode", "lock table u in access exclusive mode"]),
                ("VACUUM t", ["lock table t in share update exclusive mode"]), ("VACUUM FULL t", ["lock table t in access exclusive mode"]),
                ("VACUUM (FULL, ANALYZE) t", ["lock table t in access exclusive mode"]), ("CLUSTER t USING i", ["lock table t in access exclusive mode"]),
                ("ANALYZE t", ["lock table t in share update exclusive mode"]), ("REINDEX TABLE t", ["lock table t in share mode"]),
                ("COMMENT ON TABLE t IS 'x'", ["lock table t in share update exclusive mode"]),
                ("COMMENT ON COLUMN t.a IS 'x'", ["lock table t in share update exclusive mode"]),
                ("COMMENT ON CONSTRAINT c ON t IS 'x'", ["lock table t in access share mode"]),
                ("COMMENT ON TRIGGER g ON t IS NULL", ["lock table t in access share mode"]),
                ("ALTER TABLE t SET (user_catalog_table = true)", ["lock table t in access exclusive mode"]),
                ("ALTER TABLE t SET (parallel_workers = 2)", ["lock table t in share update exclusive mode"]),
                ("DECLARE c CURSOR FOR SELECT * FROM t", ["open t"]), ("SET enable_seqscan = off", []),
                ("CREATE TABLE v (a varchar(3) NOT NULL, b bigint DEFAULT 7 UNIQUE, c int REFERENCES t, CHECK (c > 0))", [
                    "create table v (a text, b int8, c int4)", "alter table v alter column b set default 7",
                    "create index v_b_key on v (b)", "alter table v add constraint v_c_fkey foreign key (c) references t (a)",
                    "alter table v add constraint v_check check (c>0)"]),
                ("CREATE UNIQUE INDEX ON t USING btree (a DESC, b) WHERE a > 0", ["create index t_a_b_idx on t (a, b)"]),
                ("CREATE TRIGGER g BEFORE INSERT ON t FOR EACH ROW EXECUTE FUNCTION f()", ["create trigger g on t"]),
                ("ALTER TABLE t ADD c int", ["alter table t add column c int4"]), ("ALTER TABLE t DROP b CASCADE", ["alter table t drop column b"]),
                ("ALTER TABLE t ALTER b SET STATISTICS -1", ["alter table t alter column b set statistics -1"]),
                ("ALTER TABLE t SET (fillfactor=70)", ["alter table t set (fillfactor = 70)"]),
                ("ALTER TABLE t ALTER a TYPE bigint", ["lock table t in access exclusive mode"]),
                ("ALTER TABLE t ADD c int, DROP b", ["lock table t in access exclusive mode", "alter table t add column c int4",
                                                     "alter table t drop column b"]),
                ("ALTER TABLE t DROP CONSTRAINT t_pkey", ["drop index t_pkey"]), ("ALTER TABLE t RENAME TO v", ["alter table t rename to v"]),
                ("DROP TABLE t, u", ["drop table t", "drop table u"]), ("DROP TABLE IF EXISTS t", ["drop table t"]),
                ("DROP TABLE IF EXISTS v", []), ("ALTER INDEX t_pkey RENAME TO i", ["alter index t_pkey rename to i"])):
            with self.subTest(sql):
                found = said(sql, made)[-1]
                self.assertEqual((list(found.commands), found.reason), (commands, None))

    def test_functions_of_triggers(self):
        """A trigger's function is missing where neither the spec makes it nor the server or an extension may have it."""
        made = "CREATE TABLE t (a int); CREATE OR REPLACE FUNCTION f() RETURNS trigger LANGUAGE plpgsql AS $$ BEGIN RETURN NEW; END $$"
        for function, more, is_missing in (
                ("FUNCTION f()", "", False), ("PROCEDURE g()", "", True), ("FUNCTION suppress_redundant_updates_trigger()", "", False),
                ("FUNCTION g()", "CREATE EXTENSION e", False), ("FUNCTION s.g()", "", False)):
            with self.subTest((function, more)):
                found = said("CREATE TRIGGER r BEFORE UPDATE ON t FOR EACH ROW EXECUTE " + function, made, more)[-1]
                self.assertEqual((found.commands, found.differs is not None), (("create trigger r on t",), is_missing))

    def test_keys_of_an_index(self):
        """A key that takes an index that is there is said by its lock, with a name or without; one without columns can't be said."""
        made = "CREATE TABLE t (a int); CREATE UNIQUE INDEX tu ON t (a)"
        for action in ("ADD PRIMARY KEY USING INDEX tu", "ADD UNIQUE USING INDEX tu", "ADD CONSTRAINT tc UNIQUE USING INDEX tu",
                       "ADD CONSTRAINT tc PRIMARY KEY USING INDEX tu DEFERRABLE"):
            with self.subTest(action):
                found = said("ALTER TABLE t " + action, made)[-1]
                self.assertEqual((found.commands, found.reason, found.unsaid), (
                    ("lock table t in access exclusive mode",), None, "'%s' but for its lock" % action.lower()))
        for action in ("ADD PRIMARY KEY", "ADD UNIQUE", "ADD CONSTRAINT tc", "ADD FOREIGN KEY (a)", "ADD", "DROP CONSTRAINT"):
            with self.subTest(action):
                found = said("ALTER TABLE t " + action, made)[-1]
                shown = action.lower().replace("(a)", "( a )")
                self.assertEqual((found.commands, found.reason), ((), "no command says '%s'" % shown))

    def test_results(self):
        """Which results can be said, of a table without rows."""
        for sql, rows in (("SELECT * FROM t", Rows("t", ("*",))), ("SELECT b, a FROM t WHERE a = 1", Rows("t", ("b", "a"))),
                          ("SELECT count(*) FROM t", Rows("t", ("count(*)",))), ("SELECT a + 1 FROM t", None),
                          ("SELECT a FROM t GROUP BY a", None), ("SELECT 1", None)):
            with self.subTest(sql):
                found = said(sql, "CREATE TABLE t (a int, b int)")[-1]
                self.assertEqual((found.rows, found.shows), (rows, True))
        self.assertEqual(said("SET deadlock_timeout = '10ms'")[-1].timeout, 0.01)

    def test_reasons(self):
        """What can't be said has a reason."""
        made = "CREATE TABLE t (a int); CREATE VIEW v AS SELECT 1; CREATE FUNCTION f() RETURNS int AS 'select 1'"
        for sql, reason in (
                ("CREATE INDEX CONCURRENTLY i ON t (a)", "a concurrent build"), ("SELECT pg_advisory_lock(1)", "an advisory lock"),
                ("PREPARE TRANSACTION 'x'", "a prepared transaction"), ("EXECUTE p", "a prepared statement"), ("SELECT * FROM v", "a view"),
                ("SELECT f()", "a function"), ("SET lock_timeout = 5", "a time-out"), ("CREATE TEMP TABLE x (a int)", "a temporary table"),
                ("CREATE TABLE x (a int) PARTITION BY LIST (a)", "a partition"), ("CREATE TABLE x AS SELECT 1", "a table that is made of a query"),
                ("CREATE INDEX ON t (lower(a))", "an index of an expression")):
            with self.subTest(sql):
                self.assertEqual(said(sql, made)[-1].reason, reason + " isn't modelled here")
        self.assertEqual(said("INSERT INTO nowhere VALUES (1)")[-1].reason, "no table 'nowhere' is made here")
        for sql in ("CLUSTER t", "CLUSTER VERBOSE t"):
            self.assertEqual(said(sql, made)[-1].reason, "it names no index, and the server refuses it where none is marked")

    def test_messages(self):
        """The server's words for errors and warnings."""
        for answer, command, message in (
                ("error 42P01 relation t does not exist", "show t", 'relation "t" does not exist'),
                ("error 42P01 relation t does not exist", "drop table t", 'table "t" does not exist'),
                ("error 42703 column b does not exist", "alter table t drop column b", 'column "b" of relation "t" does not exist'),
                ("error 55P03 relation 16384 is locked by backend 1 in ax", "lock table t in share mode", 'could not obtain lock on relation "t"'),
                ("error 55P03 name v is in use by transaction 2", "create table v ()", 'relation "v" already exists'),
                ("error 42809 i is not a table", "drop table i", '"i" is not a table'),
                ("error 42809 i is not a table", "create index j on i (a)", 'cannot open relation "i"'),
                ("error 42809 i is not a table", "create trigger g on i", 'cannot open relation "i"'),
                ("error 42809 i is not a table", "alter table i add column b int4",
                 'ALTER action ADD COLUMN cannot be performed on relation "i"'),
                ("error 42809 i is not a table", "alter table i alter column a set default 5",
                 'ALTER action ALTER COLUMN ... SET DEFAULT cannot be performed on relation "i"'),
                ("error 42809 i is not a table", "alter table i alter column a set statistics 5",
                 'cannot alter statistics on non-expression column "a" of index "i"'),
                ("error 42809 i is not a table", "lock table i in share mode", 'cannot lock relation "i"'),
                ("error 25P02 the transaction block has failed", "show t",
                 "current transaction is aborted, commands ignored until end of transaction block")):
            with self.subTest(answer):
                self.assertEqual(message_of(answer, command, False, False), message)
        self.assertEqual(message_of("error 42P07 relation v already exists", "create table v ()", True, False),
                         'duplicate key value violates unique constraint "pg_type_typname_nsp_index"')
        self.assertEqual(message_of("error 55P03 x", "show t", False, True), "deadlock detected")
        self.assertEqual([warning_of(*each) for each in (("begin", True), ("begin", False), ("commit", False))],
                         ["there is already a transaction in progress", None, "there is no transaction in progress"])


@unittest.skipUnless(HAS_PROGRAM, NO_PROGRAM)
class Reports(unittest.TestCase):
    """Reports, and what lies between permutations."""

    def run_spec(self, text, *words, expected=None):
        """What is printed for a spec, after a report what is said beside it, and the exit status."""
        with tempfile.TemporaryDirectory() as folder:
            paths = [os.path.join(folder, name) for name in ("x.spec", "x.out")]
            for path, content in zip(paths, (text, expected)):
                if content is not None:
                    with open(path, "w", encoding="ascii") as file:
                        file.write(content)
            status, shown, told = call("spec", "--program", PROGRAM, *words, *paths[:1 + (expected is not None)])
        more, notes = without_notes(told)
        self.assertEqual((more, bool(notes) and (expected is not None or "--explore" in words)), ("", False))
        return status, shown.decode() + notes

    def test_examples(self):
        """The report is isolationtester's own, byte for byte; what it doesn't say is on standard error."""
        self.assertEqual(len(SPECS), 5)
        for path in SPECS:
            with self.subTest(path):
                status, shown, told = call("spec", "--program", PROGRAM, path)
                self.assertEqual((status, without_notes(told)[0], shown), (0, "", content_of(path[:-5] + ".out")))

    def test_expected(self):
        """Beside an expected report what differs is told, and what isn't compared."""
        text = ("setup { CREATE TABLE t (a int4); }\nsession s1 setup { BEGIN; } step s1a { ALTER TABLE t ADD b int4; } step s1c { COMMIT; }\n"
                "session s2 step s2r { SELECT a FROM t; } step s2x { SELECT pg_advisory_lock(1); } step s2s { SELECT a + 1 FROM t; }\n"
                "permutation s1a s2r s1c s2x s2s\npermutation s1a s1c s2r\n")
        first = ("step s1a: ALTER TABLE t ADD b int4;\nstep s2r: SELECT a FROM t; <waiting ...>\nstep s1c: COMMIT;\n"
                 "step s2r: <... completed>\na\n-\n(0 rows)\n\nstep s2x: SELECT pg_advisory_lock(1);\npg_advisory_lock\n----\n    \n(1 row)\n\n"
                 "step s2s: SELECT a + 1 FROM t;\n?column?\n--------\n(0 rows)\n\n")
        second = "step s1a: ALTER TABLE t ADD b int4;\nstep s1c: COMMIT;\nstep s2r: SELECT a FROM t;\na\n-\n(0 rows)\n\n"
        expected = ("Parsed test spec with 2 sessions\n\nstarting permutation: s1a s2r s1c s2x s2s\n" + first +
                    "\nstarting permutation: s1a s1c s2r\n" + second)
        notes = ("# left out: step s2x: select pg_advisory_lock ( 1 ): an advisory lock isn't modelled here\n"
                 "# not compared: results of s2s\n")
        self.assertEqual(self.run_spec(text, expected=expected), (0, "2 permutations: 2 as expected\n" + notes))
        status, shown = self.run_spec(text, expected=expected.replace("<waiting ...>", "", 1).replace("step s1c", "NOTICE\nstep s1c", 1))
        self.assertEqual(status, 1)
        self.assertTrue(shown.startswith("2 permutations: 1 as expected, 1 differs\n\nstarting permutation: s1a s2r s1c s2x s2s\n"), shown)
        self.assertIn("\n+ step s2r: SELECT a FROM t; <waiting ...>\n", shown)
        status, shown = self.run_spec(text, expected=expected[:expected.rindex("\nstarting")])
        self.assertEqual(status, 1)
        self.assertIn("2 permutations: 1 as expected, 1 differs, of 1 expected\n", shown)

    def test_own_report(self):
        """A report that was printed here is as expected, with lines that begin with # at its end too."""
        text = ("setup { CREATE TABLE t (a int4); }\nsession s1 step i { INSERT INTO t VALUES (1); } step r { SELECT a + 1 FROM t; }\n"
                "session s2 step l { LOCK t; }\npermutation l i\npermutation i r\n")
        status, shown = self.run_spec(text)
        self.assertEqual((status, shown.split("\n")[-3][:1], shown.split("\n")[-2]), (0, "#", "# not printed: rows of r"))
        for expected in (shown, shown[:-1], shown + "# one more\n"):
            status, found = self.run_spec(text, expected=expected)
            self.assertEqual((status, found.split("\n")[0]), (0, "2 permutations: 2 as expected"))
        status, found = self.run_spec(text, expected=shown.replace("\nstep i", "\n# one\nstep i", 1))
        self.assertEqual((status, found.split("\n")[0]), (1, "2 permutations: 1 as expected, 1 differs"))

    def test_waits(self):
        """Conditions of steps, warnings, a step that can't be begun, and errors inside steps of several statements."""
        text = ("setup { CREATE TABLE t (a int4); }\nsession s1 step s1b { BEGIN; BEGIN; } step s1x { LOCK t; ALTER TABLE t DROP z; COMMIT; }\n"
                "step s1c { COMMIT; } session s2 step s2r { SELECT a FROM t; } step s2n { SELECT a FROM t; }\n")
        self.assertEqual(self.run_spec(text + "permutation s2r(*) s1b s1x s1c s2n\n"), (0, (
            "Parsed test spec with 2 sessions\n\nstarting permutation: s2r s1b s1x s1c s2n\n"
            "step s2r: SELECT a FROM t; <waiting ...>\ns1: WARNING:  there is already a transaction in progress\nstep s1b: BEGIN; BEGIN;\n"
            "step s2r: <... completed>\na\n-\n(0 rows)\n\nstep s1x: LOCK t; ALTER TABLE t DROP z; COMMIT;\n"
            'ERROR:  column "z" of relation "t" does not exist\nstep s1c: COMMIT;\n'
            "step s2n: SELECT a FROM t;\na\n-\n(0 rows)\n\n")))
        blocked = text.replace("ALTER TABLE t DROP z; COMMIT;", "") + "permutation s1b s1x s2r s2n s1c\n"
        status, shown = self.run_spec(blocked)
        self.assertEqual((status, shown.split("\n")[-2]), (1, "# it ends here: step s2r waits for ever"))

    def test_let_by(self):
        """Who closes a circle that goes over a place in a queue lets a waiter by, and nobody gives up; who checks first says which.
        So does the server, of these and of its own deadlock-soft."""
        text = ("setup { CREATE TABLE a1 (); CREATE TABLE a2 (); }\n"
                "session d1 setup { BEGIN; SET deadlock_timeout = '100s'; } step d1a1 { LOCK a1 IN ACCESS SHARE MODE; }\n"
                "step d1a2 { LOCK a2 IN ACCESS SHARE MODE; } step d1c { COMMIT; }\n"
                "session d2 setup { BEGIN; SET deadlock_timeout = '10ms'; } step d2a2 { LOCK a2 IN ACCESS SHARE MODE; }\n"
                "step d2a1 { LOCK a1 IN ACCESS SHARE MODE; } step d2c { COMMIT; }\n"
                "session e1 setup { BEGIN; SET deadlock_timeout = '100s'; } step e1l { LOCK a1; } step e1c { COMMIT; }\n"
                "session e2 setup { BEGIN; SET deadlock_timeout = '100s'; } step e2l { LOCK a2; } step e2c { COMMIT; }\n"
                "permutation d1a1 d2a2 e1l e2l d1a2 d2a1 d1c e1c d2c e2c\n")
        waits = ("Parsed test spec with 4 sessions\n\nstarting permutation: d1a1 d2a2 e1l e2l d1a2 d2a1 d1c e1c d2c e2c\n"
                 "step d1a1: LOCK a1 IN ACCESS SHARE MODE;\nstep d2a2: LOCK a2 IN ACCESS SHARE MODE;\n"
                 "step e1l: LOCK a1; <waiting ...>\nstep e2l: LOCK a2; <waiting ...>\n"
                 "step d1a2: LOCK a2 IN ACCESS SHARE MODE; <waiting ...>\nstep d2a1: LOCK a1 IN ACCESS SHARE MODE; <waiting ...>\n")
        self.assertEqual(self.run_spec(text), (0, waits + (
            "step d1a2: <... completed>\nstep d1c: COMMIT;\nstep e1l: <... completed>\nstep e1c: COMMIT;\n"
            "step d2a1: <... completed>\nstep d2c: COMMIT;\nstep e2l: <... completed>\nstep e2c: COMMIT;\n")))
        swapped = text.replace("100s", "9s", 1).replace("10ms", "100s").replace("d2a1 d1c e1c d2c e2c", "d2a1 d2c e2c d1c e1c")
        status, shown = self.run_spec(swapped)
        self.assertEqual((status, shown.split("\n")[9:-1]), (0, [
            "step d2a1: <... completed>", "step d2c: COMMIT;", "step e2l: <... completed>", "step e2c: COMMIT;",
            "step d1a2: <... completed>", "step d1c: COMMIT;", "step e1l: <... completed>", "step e1c: COMMIT;"]))

    def test_unprinted(self):
        """The last line that is said names the steps whose rows aren't printed, in the spec's order."""
        text = ("setup { CREATE TABLE t (a int4); }\nsession s1 step w { INSERT INTO t VALUES (1); } step x { SELECT a FROM t; }\n"
                "session s2 step s { SELECT a + 1 FROM t; } step r { SELECT a FROM t; }\npermutation %s\n")
        for steps, expected in (("r w", "# not said: rows, and waits for them: step w"), ("r w x r s", "# not printed: rows of x, s and r"),
                                ("s", "# not printed: rows of s")):
            with self.subTest(steps):
                status, shown = self.run_spec(text % steps)
                self.assertEqual((status, shown.split("\n")[-2]), (0, expected))

    def test_unprinted_alone(self):
        """A set-up's rows and a teardown's are named so, with the session whose it is."""
        text = ("setup { CREATE TABLE t (a int4); }\nsetup { %s }\nteardown { %s }\nsession s1 setup { %s } step b { BEGIN; } teardown { %s }\n"
                "session s2 step c { COMMIT; } teardown { %s }\npermutation b c\n")
        rows = "SELECT a + 1 FROM t;"
        for at, expected in enumerate(("the set-up", "the teardown", "the set-up of s1", "the teardown of s1", "the teardown of s2")):
            with self.subTest(expected):
                status, shown = self.run_spec(text % tuple(rows if place == at else "" for place in range(5)))
                self.assertEqual((status, shown.split("\n")[-2]), (0, "# not printed: rows of " + expected))
        self.assertEqual(self.run_spec(text % ((rows,) * 5))[1].split("\n")[-2], "# not printed: rows of the set-up, the set-up of s1, "
                         "the teardown of s1, the teardown of s2 and the teardown")

    def test_what_differs(self):
        """What is done or refused here and not by a server is named at the end, where a permutation has come to it."""
        text = ("setup { CREATE TABLE t (a int PRIMARY KEY, b int, c int UNIQUE); CREATE INDEX i ON t (b); }\nsession s1 "
                "step p { DROP INDEX t_pkey; } step u { DROP INDEX IF EXISTS t_c_key; } step k { ALTER TABLE t DROP CONSTRAINT t_pkey; } "
                "step b { ALTER TABLE t DROP COLUMN b; } step i { DROP INDEX i; }\npermutation %s\n")
        key = "# differs from the server: %s: there the index of a key isn't dropped by itself (2BP01); here it is like any other"
        column = "# differs from the server: step b: there the indexes and keys of a column go with it, as docs/PROFILE.md says"
        for steps, expected in (("p", [key % "step p"]), ("p u\npermutation p", [key % "step p and step u"]), ("b", [column]),
                                ("p b", [key % "step p", column]), ("k p", []), ("i b", [])):
            with self.subTest(steps):
                status, shown = self.run_spec(text % steps)
                self.assertEqual((status, [line for line in shown.split("\n") if line.startswith("# ")]), (0, expected))
                self.assertEqual(self.run_spec(text % steps, expected=shown)[1].split("\n")[1:-1], expected)

    REFUSED = (("ALTER a SET DEFAULT 'x'", "the default 'x' is no int4 (22P02)"),
               ("ALTER COLUMN a SET DEFAULT true", "the default true is of another type than its column, int4 (42804)"),
               ("ALTER a SET DEFAULT b", "the default names 'b', and no column may be named there (0A000)"),
               ("ALTER n SET DEFAULT 'y'", "the default 'y' is no numeric (22P02)"),
               ("ALTER f SET DEFAULT 1", "the default 1 is of another type than its column, bool (42804)"),
               ("ADD CHECK (nope > 1)", "the check names 'nope', which is no column (42703)"),
               ("ADD CONSTRAINT k CHECK (a > 0 AND (t.z > 1 OR f)) NOT VALID", "the check names 'z', which is no column (42703)"),
               ("ADD CHECK (ctid IS NULL)", "the check names the system column 'ctid' (42P10)"),
               ("ADD CHECK (a)", "the check 'a' is no condition (42804)"),
               ("ADD CHECK (a > 'x')", "the check compares 'a' with 'x', which is no int4 (22P02)"),
               ("ADD CHECK (b > 1)", "the check compares 'b', a text, with a number (42883)"),
               ("ADD c int DEFAULT 0 CHECK (c > 0 AND d > 0)", "the check names 'd', which is no column (42703)"))
    TAKEN = ("ALTER a SET DEFAULT '5'", "ALTER a SET DEFAULT -5", "ALTER f SET DEFAULT 'off'", "ALTER b SET DEFAULT 5", "ALTER a SET DEFAULT null",
             "ALTER a SET DEFAULT length('x')", "ALTER n SET DEFAULT '1e3'", "ADD c date DEFAULT 'tomorrow', ADD CHECK (c > '2024-01-01')",
             "ADD CHECK (t.a > 0 AND f IS NOT NULL AND length(b) > 1 AND b LIKE 'x%' AND a::int8 < 5)")
    OF_REFUSED = ("setup { CREATE TABLE t (a int, b text, n numeric(3), f boolean); %s }\nsession s1 step b { BEGIN; } step c { COMMIT; }\n"
                  "%s\nsession s2 step r { SELECT a FROM t; }\n%s\n")

    def test_refused_by_a_server(self):
        """A default or a check that a server refuses is named, with its step, in a block and outside one."""
        actions = [sql for sql, _ in self.REFUSED] + list(self.TAKEN)
        steps = "".join("step x%d { ALTER TABLE t %s; }\n" % each for each in enumerate(actions))
        permutations = ["r x%d" % at for at in range(len(actions))] + ["b x0 r c"]
        status, shown = self.run_spec(self.OF_REFUSED % ("", steps, "\n".join("permutation " + each for each in permutations)))
        kinds = {"default": "word", "check": "text"}
        self.assertEqual((status, [line for line in shown.split("\n") if line.startswith("# ")]), (0, [
            "# differs from the server: step x%d: there %s; here one is any %s, as docs/PROFILE.md says" % (
                at, why, kinds[why.split(" ")[1]]) for at, (_, why) in enumerate(self.REFUSED)]))

    def test_refused_set_up(self):
        """In a set-up nothing comes after what a server refuses."""
        for sql, why in self.REFUSED[0], (self.TAKEN[0], None):
            with self.subTest(sql):
                status, shown = self.run_spec(self.OF_REFUSED % ("ALTER TABLE t %s;" % sql, "", "permutation r"))
                ends = [line.split("; here")[0] for line in shown.split("\n") if line.startswith("# it ends here")]
                self.assertEqual((status, ends), (1, ["# it ends here: a set-up or a teardown fails in a server: there " + why]) if why else (0, []))

    def test_words_of_checks(self):
        """What in a check names no column."""
        for text in ("a > 1e3", "a::double precision > 0", "cast(a as double precision) > 0", "d > timestamp with time zone '2024-01-01'",
                     "d - d < interval '1' day", "substring(b from 1 for 2) = 'x'", "trim(both 'x' from b) = ''", "b::character varying = 'x'",
                     "extract(year from d) > 1", "t IS NOT NULL", "tableoid > 5", "b COLLATE \"C\" > 'a'", "(t).a > 1", "n > 1"):
            with self.subTest(text):
                (claim,) = said("ALTER TABLE t ADD CHECK (%s)" % text, "CREATE TABLE t (a int)")[-1].claims
                self.assertIsNone(why_no_check(condition_of(claim.tokens), {"a": "int4", "b": "text", "d": "date", "n": ""}, "t"))
        (claim,) = said("ALTER TABLE t ADD CHECK (a > 1e3 AND day > 0)", "CREATE TABLE t (a int)")[-1].claims
        self.assertEqual(why_no_check(condition_of(claim.tokens), {"a": "int4"}, "t"), ("names 'day', which is no column", "42703"))
        self.assertEqual(said("ALTER TABLE t ADD CHECK (b > 0)", "CREATE TABLE t (a int)", "ALTER TABLE t ALTER a TYPE text")[-1].claims, ())

    def test_refused_inside(self):
        """All orders of the steps inside have the same words."""
        status, shown = self.run_spec(self.OF_REFUSED % ("ALTER TABLE t ALTER a SET DEFAULT 'x';", "step d { ALTER TABLE t ADD CHECK (nope > 1); }",
                                                         "permutation d"), "--explore")
        self.assertEqual((status, [line.split("; here")[0] for line in shown.split("\n") if line.startswith("# ")]), (0, [
            "# differs from the server: the set-up: there " + self.REFUSED[0][1],
            "# differs from the server: step d: there " + self.REFUSED[5][1]]))

    def test_refused_by_what_holds(self):
        """Whether a check's columns are there is told by the step at which it comes."""
        text = ("setup { CREATE TABLE t (a int); }\nsession s1 step a { ALTER TABLE t ADD z int; } step r { ALTER TABLE t RENAME a TO y; }\n"
                "session s2 step x { ALTER TABLE t ADD CHECK (z > 0); }\npermutation %s\n")
        for steps, count in (("a x", 0), ("x a", 1), ("r x", 1)):
            with self.subTest(steps):
                status, shown = self.run_spec(text % steps)
                self.assertEqual((status, shown.count("# differs from the server: step x: there the check names 'z'")), (0, count))

    def test_inside(self):
        """Half of a commit is between the permutations, and no wait is told for an order of the steps."""
        path = os.path.join(TOP, "examples", "specs", "settings_of_one_commit.spec")
        status, shown, told = call("spec", "--program", PROGRAM, "--explore", path)
        self.assertEqual((status, without_progress("spec", told)), (0, ""))
        text = shown.decode()
        self.assertRegex(text, r"^all [0-9]+ orders of the steps inside s1both \| s2r: 3 sets of answers with no lock refused, 1 that no "
                               "permutation of whole statements has\n")
        self.assertEqual(re.findall(r"s2r: .*statistics (\S+)[^;]*; fillfactor (\S+)", text), [("1:7", "-")])
        script, rest = text[text.index("backends"):].split("\nend\n")
        steps = re.search("steps .*", rest).group()
        status, again, told = call("schedule", "--program", PROGRAM, given=(script + "\n" + steps + "\nend\n").encode())
        self.assertEqual((status, told), (0, ""))
        done = subprocess.run([PROGRAM, "walk"], input=again, stdout=subprocess.PIPE, check=True)
        self.assertIn(b" statistics 1:7 as of ", done.stdout)
        text = ("setup { CREATE TABLE t (a int4); }\nsession s1 step s1a { ALTER TABLE t DROP a; }\nsession s2 step s2r { SELECT * FROM t; }\n")
        status, shown = self.run_spec(text, "--explore")
        self.assertEqual(status, 0)
        self.assertRegex(shown, r"2 sets of answers with no lock refused, none that no permutation of whole statements has\n")

    def test_faults(self):
        """A fault is one line on standard error."""
        for words, expected in (([SPECS[0], "--most", "3"], "spec: --most is for --explore; spec --help says more\n"),
                                ([SPECS[0], "--jobs", "3"], "spec: --jobs is for --explore; spec --help says more\n"),
                                ([SPECS[0], "/no/out"], "spec: /no/out: reading failed: No such file or directory\n"),
                                (["/no/such"], "spec: /no/such: reading failed: No such file or directory\n"),
                                ([SPECS[0], SPECS[0], "--explore"], "spec: --explore doesn't go with OUT; spec --help says more\n"),
                                ([__file__], "spec: %s: line 1: a session is due here, not 'Tests'\n" % __file__)):
            with self.subTest(words):
                status, shown, told = call("spec", "--program", PROGRAM, *words)
                self.assertEqual((status, shown), (2, b""))
                self.assertTrue(told == expected or words == [__file__] and told.count("\n") == 1, told)


@unittest.skipUnless(TESTERS and folder_of_programs(), "no isolationtester with its server")
class Beside(unittest.TestCase):
    """The specs by isolationtester itself."""

    def test_examples(self):
        """What is expected of them is what it prints."""
        with Server() as server:
            for path in SPECS:
                with self.subTest(path), open(path, "rb") as file:
                    database = server.new_database()
                    done = subprocess.run([TESTERS[-1], "host=%s user=postgres dbname=%s" % (server.folder, database)], stdin=file,
                                          stdout=subprocess.PIPE, env=dict(os.environ, PGOPTIONS="-c lock_timeout=0"), timeout=300)
                    self.assertEqual((done.returncode, done.stdout), (0, content_of(path[:-5] + ".out")))


if __name__ == "__main__":
    unittest.main()
