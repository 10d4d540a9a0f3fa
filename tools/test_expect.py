#!/usr/bin/env python3
"""Tests of tools/expect and of the scripts in examples/races: python3 tools/test_expect.py"""
import glob
import os
import re
import signal
import subprocess
import sys
import tempfile
import time
import unittest
import unittest.mock

sys.dont_write_bytecode = sys.pycache_prefix is None

from testing import HAS_PROGRAM, NO_PROGRAM, PROGRAM, TOOLS, TOP, call, content_of, hear_signals, without_progress

from catsync_tools.counting import counted_script
from catsync_tools.expected import Answers, Part, read_expectation
from catsync_tools.faults import Fault
from catsync_tools.program import Program
from catsync_tools.progress import Progress
from catsync_tools.sources import read_source
from catsync_tools.trial import UNDECIDED, results_of
from catsync_tools.vacuous import doubt_of, doubt_of_order, doubt_of_pairs

RACES = os.path.join(TOP, "examples", "races")
SCRIPTS = sorted(glob.glob(os.path.join(RACES, "*.script")))

# The reader is refused the lock at one point, and has the new columns at the next.
ALTERED = b"""backends 2
setup 1: create table t (a int4)
1: alter table t add b text
2: show t columns
2: show t
steps 1 to visible, 2 to 1, 1 to end, 2 to end
%send
"""


# Two tables bear one name in turn, while a third backend alters the first of them.
IN_TURN = b"""backends 3
setup 1: create table a (a int4)
setup 1: create table t (b int4)
1: alter table t rename to u
1: alter table a rename to t
2: show t columns
3: alter table t add c text
%send
"""


class Expectations(unittest.TestCase):
    """Lines that begin with `expect`, and answers."""

    def test_forms(self):
        """The forms of a line."""
        for text, runs, parts in (
                ("expect 2.3 statistics 1:500", "own", (Part(2, 3, "statistics 1:500"),)),
                (" EXPECT 1.1  Error   42p01\t", "own", (Part(1, 1, "Error 42p01"),)),
                ("expect some 1.2 ok and 2 . 1 error", "some", (Part(1, 2, "ok"), Part(2, 1, "error"))),
                ("expect never 1.2 columns and:int4 and 2.1 ok", "never", (Part(1, 2, "columns and:int4"), Part(2, 1, "ok"))),
                ("expect 1.1 columns a:int4  ..", "own", (Part(1, 1, "columns a:int4 .."),)),
                ("expect 1.1 fillfactor 70 AS OF 57; name t", "own", (Part(1, 1, "fillfactor 70; name t"),))):
            with self.subTest(text):
                found = read_expectation(7, text)
                self.assertEqual((found.line, found.runs, found.parts), (7, runs, parts))

    def test_no_forms(self):
        """What has none is refused, with its line."""
        for text in ("expect", "expect some", "expect 1.1", "expect 1.1 ", "expect 1 ok", "expect ok", "expect all 1.1 ok",
                     "expect 1.1 ok and 2.1", "expect 1.1 caf\u00e9", "expect .1 ok"):
            with self.subTest(text):
                with self.assertRaisesRegex(Fault, "^line 7: an expectation must read "):
                    read_expectation(7, text)

    def test_slips(self):
        """What can't be meant as it stands is refused; what an answer may have isn't."""
        for text, said in (
                ("expect never 1.2 ok and", "nothing follows the last 'and'"), ("expect 1.1 AND ", "nothing follows the last 'and'"),
                ("expect 1.1 ok and 1.2 ok and", "nothing follows the last 'and'"),
                ("expect some 2.2 ok or 2.2 error", "texts are joined by 'and' alone"), ("expect 1.1 ok OR 2 . 1 ok and 1.2 ok", "texts are joined by"),
                ("expect 1.1 ok or 2.1", "texts are joined by"), ("expect 1.1 ok or error", "texts are joined by"),
                ("expect some 1.2 error 42701 and ok", "a command (B.C) is missing before 'ok': after 'and' comes B.C TEXT"),
                ("expect 1.1 ok and Error 42P01", "a command (B.C) is missing before 'Error'"), ("expect 1.1 error 42701 and 42P07", "a command (B.C)"),
                ("expect some 1.2 42701", "'error' is missing before 42701"), ("expect 2.1 ok and 1.2 42p01;", "'error' is missing before 42p01;"),
                ("expect 1.1 columns a:int4 .. b:text", "'..' stands at the end of a text alone"), ("expect 1.1 columns ..; name t", "'..' stands"),
                ("expect 1.1 columns .. ..", "'..' stands")):
            with self.subTest(text):
                with self.assertRaisesRegex(Fault, "^line 7: " + re.escape(said)):
                    read_expectation(7, text)
        for text in ("expect 1.1 used by an index or constraint", "expect 1.1 and ok:int4", "expect 1.1 table 42701",
                     "expect 1.1 columns or:int4", "expect 1.1 columns a:int4 .. and 2.1 name t .."):
            read_expectation(7, text)

    ANSWERS = Answers((
        "l 1 1 table 16384; name t; columns a:int4 b:text; defaults -; statistics 1:500 2:-1 as of 17; fillfactor - as of 15",
        "l 1 2 error 42P01 relation t does not exist as of 4", "l 2 1 ok", "l 2 2 columns -"))

    def test_what_an_answer_has(self):
        """A text is looked for in whole words and without places, up to the end of a field, which a `;` says too; after `..` the
        field may go on, and an error may in any case."""
        for backend, command, text, has in (
                (1, 1, "statistics 1:500", False), (1, 1, "statistics 1:500;", False), (1, 1, "statistics 1:500 2:-1;", True),
                (1, 1, "statistics 1:500 ..", True), (1, 1, "statistics 1:500..", True), (1, 1, "statistics 1:50 ..", False),
                (1, 1, "statistics 1:500 2:-1", True), (1, 1, "2:-1; fillfactor -;", True), (1, 1, "table 16384", True),
                (1, 1, "statistics 1:500 2:-1 as of 99", True), (1, 1, "columns a:int4", False), (1, 1, "columns a:int4 ..", True),
                (1, 1, "columns a:int4 b:text", True), (1, 1, "columns a:int4 b:text ..", True), (1, 1, "a:int4;", False),
                (1, 1, "ame t", False), (1, 2, "error 42p01", True), (1, 2, "Error 42P01", True), (1, 2, "does not exist;", True), (1, 2, "ok", False),
                (1, 2, "error 42P01 ..", True), (1, 2, "error 42", False),
                (2, 1, "ok", True), (2, 1, "ok;", True), (2, 2, "columns -", True), (2, 2, "columns", False), (2, 2, "columns ..", True),
                (2, 3, "ok", False), (2, 3, "no answer", True)):
            with self.subTest((backend, command, text)):
                part = read_expectation(1, "expect %d.%d %s" % (backend, command, text)).parts[0]
                self.assertEqual(self.ANSWERS.has(part), has)

    def test_differences(self):
        """What was expected and what came: of a `show` the field alone."""
        for part, came in ((Part(1, 1, "statistics 1:7"), "statistics 1:500 2:-1"), (Part(1, 2, "ok"),
                           "error 42P01 relation t does not exist"), (Part(2, 3, "ok"), "no answer"), (Part(1, 1, "Statistics 1:7"), "statistics 1:500 2:-1")):
            with self.subTest(part):
                self.assertEqual(self.ANSWERS.differences([part]), ["- %d.%d %s" % part, "+ %d.%d %s" % (part[:2] + (came,))])
        self.assertEqual(self.ANSWERS.differences([Part(2, 1, "ok")]), [])


class Doubts(unittest.TestCase):
    """Expectations of what no answer can have."""

    def test_texts(self):
        """Why no answer can have what is expected, where that can be seen."""
        shown = "2.1, 'show t columns', "
        for text, doubt in (
                ("2.1 columns zz:int4", "no command names 'zz'"), ("2.2 columns a:int4 and 2.2 name zz", "no command names 'zz'"),
                ("2.2 indexes i:v:1", "no command names 'i'"), ("2.1 error 42P99", "no command is refused with 42P99"),
                ("2.1 ok", shown + "is never answered 'ok'"), ("2.1 indexes -", shown + "shows no field 'indexes'"),
                ("1.1 columns ..", "1.1, 'create table t (a int4)', shows no field 'columns'"),
                ("2.2 indexes 16385:v:1", None), ("2.1 columns b:text", None), ("2.1 no answer", None), ("1.2 ok", None),
                ("1.2 error 55P03 relation 16384 is locked by backend 2 in as", None),
                ("2.1 columns a", "an item of 'columns' reads a:int4"), ("2.2 columns a ..", "an item of 'columns' reads a:int4"),
                ("2.1 columns a:int8", "no command names the type 'int8'"), ("2.1 columns a:integer", "no command names 'integer'"),
                ("2.2 fillfactor 70; constraints ..", "no command sets fillfactor 70"), ("2.2 fillfactor -;", None),
                ("2.2 statistics 1:100 ..", "no command sets statistics 100"), ("2.2 statistics 1:-1 ..", None),
                ("2.2 statistics 100 ..", "an item of 'statistics' reads 1:100"),
                ("2.1 error 42703", shown + "is never refused with 42703"), ("2.1 error 42P01", None), ("1.2 error 42701", None),
                ("2.1 error 55P03 relation 16384 is locked by backend 3", "backend 3 has no command"),
                ("2.2 error 42P01 and 2.2 columns a:int4 ..", "no answer of 2.2 has both 'error 42P01' and 'columns a:int4 ..'"),
                ("2.2 error 42P01 and 2.2 error 55P03", "no answer of 2.2 has both 'error 42P01' and 'error 55P03'"),
                ("2.2 error 42P01 and 2.2 relation t", None), ("2.2 error 42P01 and 2.1 columns a:int4", None)):
            with self.subTest(text):
                source = read_source(ALTERED % b"expect never %s\n" % text.encode())
                self.assertEqual(doubt_of(source.expected[0], source), doubt)

    def test_contradictions(self):
        """Two values of one answer, and fields that don't come one after the other in one."""
        both = "no answer of 2.2 has both '%s' and '%s'"
        for one, other, is_told in (
                ("columns a:int4", "columns a:int4 b:text", True), ("columns a:int4 ..", "columns a:int4 b:text", False),
                ("columns a:int4 b:text ..", "columns a:int4", True), ("columns a:int4 ..", "columns b:text ..", True),
                ("columns a:int4 ..", "columns a:int4 b:text ..", False), ("statistics 1:-1;", "statistics -", True),
                ("columns a:int4; defaults -", "defaults -; statistics 1:-1", False), ("name t", "name tt", True), ("name t", "NAME T;", False),
                ("ok", "columns a:int4", True), ("rolled back", "back", False), ("no answer", "error 42P01", True), ("no answer", "no answer", False),
                ("error 42P01", "triggers -", True), ("error 42809", "columns", False), ("error 22023", "of range", False),
                ("error 55P03", "name t", False), ("error 42P01", "error 42P01 relation t", False), ("a:int4", "columns b:text", False)):
            for texts in ((one, other), (other, one)):
                with self.subTest(texts):
                    source = read_source(ALTERED % b"expect never 2.2 %s and 2.2 %s\n" % tuple(text.encode() for text in texts))
                    self.assertEqual(doubt_of_pairs(source.expected[0].parts), both % texts if is_told else None)
        after = "no answer has '%s' right after '%s': join texts of one answer by 'and'"
        for text, doubt in (("columns a:int4; statistics 1:-1", after % ("statistics", "columns")), ("columns -; defaults -; statistics -", None),
                            ("triggers -; name t", after % ("name", "triggers")), ("table 16384; name t; columns -", None), ("columns -; columns -",
                             after % ("columns", "columns")), ("name i; of 16384:1; valid v", None), ("a:int4 b:text; defaults -", None)):
            with self.subTest(text):
                self.assertEqual(doubt_of_order(text), doubt)

    @unittest.skipUnless(HAS_PROGRAM, NO_PROGRAM)
    def test_contradictions_are_told(self):
        """Of an expectation that is met and says nothing, and of one that can't be met; not of one that is as it should be."""
        both = b"2.2 columns a:int4 b:text and 2.2 columns a:int4"
        status, printed, said = call("expect", "--program", PROGRAM, given=ALTERED % (
            b"expect never %s\nexpect %s\nexpect some %s\nexpect never 1.2 ok and 2.1 error\n" % ((both,) * 3)))
        self.assertEqual((status, without_progress("expect", said)), (1, ""))
        why = "no answer of 2.2 has both 'columns a:int4 b:text' and 'columns a:int4'\n"
        self.assertEqual([line.strip() + "\n" for line in printed.decode().split("\n") if "both" in line], [
            "says nothing: " + why, "can't be met: " + why, "can't be met: " + why])

    def test_no_doubts(self):
        """Of what the examples expect there are none, whichever runs are meant."""
        for path in SCRIPTS:
            source = read_source(content_of(path))
            self.assertEqual([doubt_of(one._replace(runs="never"), source) for one in source.expected], [None] * len(source.expected), path)


    def test_numbers(self):
        """Numbers that a command sets, as answers have them."""
        script = (b"backends 1\n1: create table t (a timestamp with time zone)\n1: alter table t set (fillfactor = 070)\n"
                  b"1: alter table t alter a set statistics 20000\n1: show t\nexpect never 1.4 %s\nend\n")
        for text, doubt in (("columns a:timestamptz; defaults -", None), ("fillfactor 70", None), ("fillfactor 71", "no command sets fillfactor 71"),
                            ("statistics 1:10000", None), ("statistics 1:20000", "no command sets statistics 20000")):
            with self.subTest(text):
                source = read_source(script % text.encode())
                self.assertEqual(doubt_of(source.expected[0], source), doubt)

    @unittest.skipUnless(HAS_PROGRAM, NO_PROGRAM)
    def test_no_doubts_of_answers(self):
        """Of what is answered there are none, field by field."""
        program, count = Program(PROGRAM), 0
        self.addCleanup(program.close)
        for path in SCRIPTS:
            source = read_source(content_of(path))
            for line in program.run(counted_script(source, lambda: program)).answers:
                _, backend, command, answer = line.split(" ", 3)
                for text in [answer] + answer.split("; "):
                    one = read_expectation(1, "expect never %s.%s %s" % (backend, command, text))
                    self.assertIsNone(doubt_of(one, source), "%s: %s" % (path, line))
                    count += 1
        self.assertGreater(count, 200)


class Tool(unittest.TestCase):
    """tools/expect."""

    def expect(self, *words, given=b""):
        """Exit status, standard output and standard error."""
        status, printed, said = call("expect", "--program", PROGRAM, *words, given=given)
        return status, printed.decode(), without_progress("expect", said)

    @unittest.skipUnless(HAS_PROGRAM, NO_PROGRAM)
    def test_met(self):
        """Where all is met the exit status is 0; without a path the script is on standard input."""
        given = ALTERED % (b"expect 2.1 error 55P03\nexpect 2.2 columns a:int4 b:text; defaults - and 1.2 ok\n"
                           b"expect some 2.1 columns a:int4; and 2.2 columns a:int4 b:text;\nexpect never 2.1 error 42P01\n")
        self.assertEqual(self.expect(given=given), (0, "passed: standard input\n1 passed, 0 failed\n", ""))

    @unittest.skipUnless(HAS_PROGRAM, NO_PROGRAM)
    def test_not_met(self):
        """What isn't met is told with its line and with what came, and the exit status is 1."""
        given = ALTERED % (b"expect 2.1 columns a:int4;\nexpect 2.2 columns a:int4; and 2.1 error 55P03\n"
                           b"expect some 2.1 error 42P01\nexpect never 1.2 error AND 2.1 columns a:int4;\n")
        status, printed, said = self.expect(given=given)
        self.assertEqual((status, said), (1, ""))
        orders = re.search("all ([0-9]+) orders", printed).group(1)
        steps = re.search("steps .*", printed).group()
        self.assertEqual(printed, """FAILED: standard input
  line 7: expect 2.1 columns a:int4;
    - 2.1 columns a:int4;
    + 2.1 error 55P03 relation 16384 is locked by backend 1 in ax
  line 8: expect 2.2 columns a:int4; and 2.1 error 55P03
    - 2.2 columns a:int4;
    + 2.2 columns a:int4 b:text
  line 9: expect some 2.1 error 42P01
    none of all %s orders has it
    + 2.1 columns a:int4 b:text
    + 2.1 columns a:int4
    + 2.1 error 55P03 relation 16384 is locked by backend 1 in ax
  line 10: expect never 1.2 error AND 2.1 columns a:int4;
    %s
    + 1.2 error 55P03 relation 16384 is locked by backend 2 in as
    + 2.1 columns a:int4
0 passed, 1 failed
""" % (orders, steps))
        again = (ALTERED % b"expect 2.1 columns a:int4; and 1.2 error 55P03\n").replace(
            b"steps 1 to visible, 2 to 1, 1 to end, 2 to end", steps.encode())
        self.assertEqual(self.expect(given=again)[0], 0)

    UNDECIDED = ("not decided within 3 orders: no serial order and no random schedule has it; there are at least [0-9]+ orders by an "
                 "estimate: --most N")

    @unittest.skipUnless(HAS_PROGRAM, NO_PROGRAM)
    def test_more_orders_than_are_run(self):
        """Then it isn't decided, which is no failure and no success and has its own exit status; but what isn't met is."""
        status, printed, said = self.expect("--most", "3", given=ALTERED % b"expect never 1.2 error 42P01\nexpect 2.1 error\n")
        self.assertEqual((status, said), (3, ""))
        self.assertRegex(printed, "^not decided: standard input\n  line 7: expect never 1.2 error 42P01\n    %s\n"
                         "0 passed, 0 failed, 1 not decided\n$" % self.UNDECIDED)
        status, printed, _ = self.expect("--most", "3", given=ALTERED % b"expect some 1.2 error 42P01\nexpect 2.1 ok\n")
        self.assertEqual(status, 1)
        self.assertRegex(printed, "^FAILED: standard input\n  line 7: expect some 1.2 error 42P01\n    %s\n"
                         "  line 8: expect 2.1 ok\n    - 2.1 ok\n    [+] 2.1 error 55P03 .*\n"
                         "    can't be met: 2.1, 'show t columns', is never answered 'ok'\n0 passed, 1 failed\n$" % self.UNDECIDED)

    @unittest.skipUnless(HAS_PROGRAM, NO_PROGRAM)
    def test_what_came(self):
        """Where none of all orders has what some should have, the different answers that came are told, of one run together, and
        at most five."""
        status, printed, said = self.expect(given=ALTERED % b"expect some 2.1 error and 1.2 error\n")
        self.assertEqual((status, said), (1, ""))
        self.assertRegex(printed, """^FAILED: standard input
  line 7: expect some 2.1 error and 1.2 error
    none of all [0-9]+ orders has it
    [+] 2.1 columns a:int4 b:text and 1.2 ok
    [+] 2.1 columns a:int4 and 1.2 ok
    [+] 2.1 error 55P03 relation 16384 is locked by backend 1 in ax and 1.2 ok
    [+] 2.1 columns a:int4 and 1.2 error 55P03 relation 16384 is locked by backend 2 in as
0 passed, 1 failed
$""")
        given = ALTERED % b"expect some 1.2 no answer and 2.1 ok and 2.2 columns -\n"
        shown = [self.expect("--jobs", jobs, given=given) for jobs in ("1", "3")]
        self.assertEqual(shown[0], shown[1])
        self.assertRegex(shown[0][1], "orders has it\n(    [+] 1.2 .*\n){5}    [+] [.][.]\n    can't be met: .*\n0 passed, 1 failed\n$")
        lines = re.findall("[+] 1.2 .*", shown[0][1])
        self.assertEqual(len(set(lines)), 5)

    @unittest.skipUnless(HAS_PROGRAM, NO_PROGRAM)
    def test_estimates(self):
        """However few orders the guess is made from, it isn't told where more were run."""
        source, program = read_source(ALTERED % b"expect never 1.2 error 42P01\n"), Program(PROGRAM)
        self.addCleanup(program.close)
        for first, most in ((2, 3), (2, 60), (16, 60)):
            with self.subTest((first, most)), unittest.mock.patch("catsync_tools.search.FIRST", first):
                (result,) = results_of(source, program, 1, most, Progress()).values()
                self.assertEqual(result.verdict, UNDECIDED)
                found = re.search("; there are (at least|more than) ([0-9]+) orders?( by an estimate)?: --most N$", result.lines[0])
                self.assertEqual(found.group(1) == "at least", bool(found.group(3)))
                self.assertGreater(int(found.group(2)) + (found.group(1) != "at least"), most)

    @unittest.skipUnless(HAS_PROGRAM, NO_PROGRAM)
    def test_serial_orders_decide(self):
        """What a serial order meets or breaks is decided by it, however many orders there are."""
        status, printed, said = self.expect("--most", "1", given=IN_TURN % (
            b"expect some 2.1 columns b:int4\nexpect some 2.1 columns a:int4\nexpect some 2.1 columns b:int4 c:text\n"))
        self.assertEqual((status, printed, said), (0, "passed: standard input\n1 passed, 0 failed\n", ""))
        status, printed, said = self.expect("--most", "1", given=IN_TURN % b"expect never 2.1 columns a:int4 and 3.1 ok\n")
        self.assertEqual((status, said), (1, ""))
        self.assertRegex(printed, "^FAILED: .*\n  line 8: .*\n    steps .*\n    [+] 2.1 columns a:int4\n    [+] 3.1 ok\n0 passed, ")

    @unittest.skipUnless(HAS_PROGRAM, NO_PROGRAM)
    def test_jobs(self):
        """However many processors are used, the same is printed; random schedules decide where not all orders are run."""
        given = ALTERED % b"expect some 2.1 error 55P03\nexpect some 1.2 error 55P03\nexpect never 1.2 error and 2.1 columns a:int4\n"
        for words in ((), ("--most", "40", "--passed"), ("--most", "300", "--passed")):
            with self.subTest(words):
                shown = [self.expect(*words, "--jobs", jobs, given=given) for jobs in ("1", "3")]
                self.assertEqual(shown[0], shown[1])
                self.assertEqual(shown[0][0], 1)

    @unittest.skipUnless(HAS_PROGRAM, NO_PROGRAM)
    def test_passed(self):
        """What is met can be listed, each with what came."""
        given = ALTERED % b"expect 2.1 error 55P03 and 1.2 ok\nexpect some 2.1 columns a:int4\nexpect never 2.1 error 42P01\n"
        status, printed, said = self.expect("--passed", given=given)
        self.assertEqual((status, said), (0, ""))
        self.assertRegex(printed, """^passed: standard input
  passed: line 7: expect 2.1 error 55P03 and 1.2 ok
    [+] 2.1 error 55P03 relation 16384 is locked by backend 1 in ax
    [+] 1.2 ok
  passed: line 8: expect some 2.1 columns a:int4
    steps [0-9* ]+
    [+] 2.1 columns a:int4
  passed: line 9: expect never 2.1 error 42P01
    none of all [0-9]+ orders has it
1 passed, 0 failed
$""")

    @unittest.skipUnless(HAS_PROGRAM, NO_PROGRAM)
    def test_passed_of_a_script_that_fails(self):
        """Then each line says what became of it."""
        given = ALTERED % (b"expect 1.2 ok\nexpect 2.1 ok\nexpect some 2.1 columns a:int4\nexpect never 2.1 columns a:int4\n"
                           b"expect never 2.1 columns zz:int4\n")
        status, printed, said = self.expect("--passed", given=given)
        self.assertEqual((status, said), (1, ""))
        self.assertEqual(re.findall("^ *([a-zA-Z ]+): line ([0-9]+)", printed, re.MULTILINE), [
            ("passed", "7"), ("FAILED", "8"), ("passed", "9"), ("FAILED", "10"), ("says nothing", "11")])

    @unittest.skipUnless(HAS_PROGRAM, NO_PROGRAM)
    def test_doubts(self):
        """An expectation that no answer can break is neither met nor broken, with an exit status that isn't 0; but one that isn't met
        fails its script. The same is said of what no answer can meet."""
        never, why = b"expect never 2.1 columns a:int3\n", "no command names 'int3'"
        told = "  line %d: expect never 2.1 columns a:int3\n    says nothing: " + why + "\n"
        self.assertEqual(self.expect(given=ALTERED % (b"expect 1.2 ok\n" + never)), (
            3, "says nothing: standard input\n" + told % 8 + "0 passed, 0 failed, 1 with a line that says nothing\n", ""))
        status, printed, said = self.expect(given=ALTERED % (never + b"expect some 2.1 columns a:int3\n"))
        self.assertEqual((status, said), (1, ""))
        self.assertRegex(printed, "^FAILED: standard input\n" + told % 7 + "  line 8: .*\n(    .*\n)+    can't be met: " + why
                         + "\n0 passed, 1 failed\n$")

    @unittest.skipUnless(HAS_PROGRAM, NO_PROGRAM)
    def test_places(self):
        """That the places in an expectation aren't compared is told."""
        status, printed, said = self.expect(given=ALTERED % b"expect 1.2 ok\nexpect 2.2 columns a:int4 b:text as of 99\n")
        self.assertEqual((status, printed, said), (0, "passed: standard input\n  line 8: expect 2.2 columns a:int4 b:text as of 99\n"
                                                   "    places aren't compared: as of 99\n1 passed, 0 failed\n", ""))

    @unittest.skipUnless(HAS_PROGRAM, NO_PROGRAM)
    def test_signals(self):
        """A signal ends it with one line, while processes search too."""
        for number in (signal.SIGINT, signal.SIGTERM):
            with self.subTest(number):
                tool = subprocess.Popen([os.path.join(TOOLS, "expect"), "--program", PROGRAM, "--most", "1000000", "--jobs", "2"],
                                        stdin=subprocess.PIPE, stdout=subprocess.PIPE, stderr=subprocess.PIPE, preexec_fn=hear_signals)
                with tool:
                    tool.stdin.write(IN_TURN % b"expect never 2.1 no answer\n")
                    tool.stdin.close()
                    until = time.monotonic() + 100
                    while content_of("/proc/%d/task/%d/children" % (tool.pid, tool.pid)).count(b" ") < 2 and time.monotonic() < until:
                        time.sleep(0.02)
                    tool.send_signal(number)
                    self.assertEqual((tool.stdout.read(), tool.stderr.read()), (b"", b"expect: interrupted\n"))
                self.assertEqual(tool.returncode, 130)

    @unittest.skipUnless(HAS_PROGRAM, NO_PROGRAM)
    def test_schedule_that_ends_early(self):
        """A command that isn't finished has no answer."""
        given = b"backends 1\n1: create table t (a int4)\nsteps 1*3\nexpect 1.1 no answer\nexpect 1.1 ok\nend\n"
        status, printed, _ = self.expect(given=given)
        self.assertEqual(status, 1)
        self.assertIn("  line 5: expect 1.1 ok\n    - 1.1 ok\n    + 1.1 no answer\n", printed)
        self.assertNotIn("line 4", printed)

    @unittest.skipUnless(HAS_PROGRAM, NO_PROGRAM)
    def test_folder(self):
        """All scripts of a folder, by name, and no other file."""
        with tempfile.TemporaryDirectory() as folder:
            for name, content in (("b.script", ALTERED % b"expect 1.2 ok\n"), ("a.script", ALTERED % b"expect 1.2 error\n"),
                                  ("c.output", b"")):
                with open(os.path.join(folder, name), "wb") as file:
                    file.write(content)
            status, printed, said = self.expect(folder, os.path.join(folder, "b.script"))
        self.assertEqual((status, said), (1, ""))
        self.assertEqual([line for line in printed.splitlines() if not line.startswith(" ")], [
            "FAILED: %s/a.script" % folder, "passed: %s/b.script" % folder, "passed: %s/b.script" % folder,
            "2 passed, 1 failed"])

    def test_faults(self):
        """A fault is one line on standard error with its place, exit status 2, and nothing is printed."""
        with tempfile.TemporaryDirectory() as folder:
            for words, given, said in (
                    ([], b"", "standard input: line 1: NoBackends: the first line, but for a ring line, must read 'backends N'"),
                    ([], ALTERED % b"", "standard input: no line expects anything"),
                    ([], ALTERED % b"expect 3.1 ok\n", "standard input: line 7: there is no command 1 of backend 3"),
                    (["/no/such.script"], b"", "/no/such.script: reading failed: No such file or directory"),
                    ([folder], b"", "%s: no file there ends with .script" % folder),
                    (["--most", "0"], b"", "argument --most: not a count: 0; expect --help says more"),
                    (["--jobs", "1" * 5000], b"", "argument --jobs: not a count: 11"),
                    (["--sideways"], b"", "unrecognized arguments: --sideways; expect --help says more"),
                    (["--program", "/nowhere"], ALTERED % b"expect 1.2 ok\n", "/nowhere: No such file or directory"),
                    (["--program", "/bin/false"], ALTERED % b"expect 1.2 ok\n", "standard input: /bin/false: exit status 1")):
                with self.subTest(said):
                    status, printed, error = call("expect", *words, given=given)
                    self.assertEqual((status, printed), (2, b""))
                    self.assertTrue(error.startswith("expect: " + said), error)
                    self.assertEqual(error.count("\n"), 1)

    @unittest.skipUnless(HAS_PROGRAM, NO_PROGRAM)
    def test_faults_of_scripts(self):
        """What the program refuses, and what a schedule can't reach, is told with the script's name."""
        for line, said in ((b"1: creat\n", "standard input: catsync: line 2"),
                           (b"1: begin\nsteps 1 to lock\n", "standard input: line 3: '1 to lock' can't be reached: ")):
            with self.subTest(said):
                status, printed, error = self.expect(given=b"backends 1\n%sexpect 1.1 ok\nend\n" % line)
                self.assertEqual((status, printed), (2, ""))
                self.assertTrue(error.startswith("expect: " + said), error)

    @unittest.skipUnless(HAS_PROGRAM, NO_PROGRAM)
    def test_refused_set_up(self):
        """A command of the set-up that is refused is a fault of the script, unless an expectation is about it."""
        given = ALTERED.replace(b"\n1: alter", b"\nsetup 1: alter table tt add column b text\n1: alter")
        for line in (b"expect never 2.1 columns c:text\n", b"expect 2.2 error\n"):
            with self.subTest(line):
                self.assertEqual(self.expect(given=given % line), (
                    2, "", "expect: standard input: line 3: the set-up's 1.2 is refused: error 42P01 relation tt does not exist\n"))
        self.assertEqual(self.expect(given=given % b"expect 1.2 error 42P01\n")[:2], (0, "passed: standard input\n1 passed, 0 failed\n"))

    def test_closed_input(self):
        """Closed standard input is a fault too."""
        done = subprocess.run(["bash", "-c", "%s %s/expect <&-" % (sys.executable, TOOLS)], stdout=subprocess.PIPE,
                              stderr=subprocess.PIPE)
        self.assertEqual((done.returncode, done.stderr), (2, b"expect: reading failed: standard input is closed\n"))


class Races(unittest.TestCase):
    """examples/races."""

    @unittest.skipUnless(HAS_PROGRAM, NO_PROGRAM)
    def test_races(self):
        """All expectations are met."""
        status, printed, said = call("expect", "--program", PROGRAM, RACES)
        self.assertEqual((status, without_progress("expect", said)), (0, ""), printed.decode())
        self.assertEqual(printed.decode().splitlines()[-1], "%d passed, 0 failed" % len(SCRIPTS))

    def test_comments(self):
        """Each begins with a comment, and is a line of the table."""
        self.assertGreaterEqual(len(SCRIPTS), 20)
        for path in SCRIPTS:
            self.assertRegex(content_of(path), b"^-- [A-Z]")
        table = re.findall("^\\| `([a-z0-9_]+)` \\|", content_of(os.path.join(RACES, "README.md")).decode(), re.MULTILINE)
        self.assertEqual(table, [os.path.basename(path)[:-len(".script")] for path in SCRIPTS])


if __name__ == "__main__":
    unittest.main()
