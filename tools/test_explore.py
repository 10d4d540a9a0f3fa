#!/usr/bin/env python3
"""Tests of tools/explore: python3 tools/test_explore.py

The searches are tested on made-up steps too, for which no program is needed (testing.py says which one is run).
"""
import functools
import html
import io
import json
import os
import pty
import random
import re
import signal
import subprocess
import sys
import tempfile
import threading
import time
import unittest
import unittest.mock

from testing import CAN_WAIT, HAS_PROGRAM, NO_PROGRAM, PROGRAM, TOOLS, TOP, call, content_of, hear_signals, without_progress

from catsync_tools import explore
from catsync_tools.access import Accesses
from catsync_tools.chains import Chains
from catsync_tools.faults import Fault
from catsync_tools.findings import Found, without_places
from catsync_tools.history import history_of
from catsync_tools.orders import Search
from catsync_tools.program import Program, Run
from catsync_tools.progress import Progress, duration
from catsync_tools.report import Extent, Serial, Shown, head_of, led_to
from catsync_tools.schedules import SWITCHES, random_schedule
from catsync_tools.scripts import steps_line, turns_of
from catsync_tools.search import Exploration, Far, Piece, Settings, guess_of, wanted_of
from catsync_tools.sentences import about, estimate
from catsync_tools.serial import SerialRuns, WholeAccesses, commands_of, transactions_of
from catsync_tools.shares import shares
from catsync_tools.sources import read_source
from catsync_tools.turns import Tried, fewest_turns
from catsync_tools.walks import KnownWalks, Walks


# The search for orders, without the program.

def read_all(terminal):
    """Reads what is written to a terminal until nobody has it open any more."""
    try:
        while os.read(terminal, 4096):
            pass
    except OSError:
        pass


def interleavings(counts):
    """All orders in which backends can make so many steps each."""
    if not any(counts.values()):
        yield []
    for backend in counts:
        if counts[backend]:
            for rest in interleavings({other: count - (other == backend) for other, count in counts.items()}):
                yield [backend] + rest


def order_of(history):
    """What comes before what in a history."""
    return tuple(sorted((step.backend, step.turn, tuple(sorted(step.before.items()))) for step in history.steps))


class Orders(unittest.TestCase):
    """The search finds each order once, whatever the steps are."""

    STEPS = ("look no", "publish 2", "fetch 1", "lock 7 as ok", "lock 8 ax ok", "release 1", "scan relname t rows 0",
             "scan class 7 rows 1", "write 1 +class(7,t,r,-)", "write 1 +att(8,1,a,int4,-1,l)", "visible 1", "gone 1",
             "clash t row 7")

    def program(self, steps):
        """A program in which each backend makes its steps, whatever the others do."""
        def run(first, rest):
            """Steps in this order."""
            order = list(first)
            for backend in rest:
                order += [backend] * len(steps[backend])
            left, made = {backend: list(own) for backend, own in steps.items()}, []
            for backend in order:
                if left[backend]:
                    made.append((backend, 1, left[backend].pop(0)))
            return Run(b"", made, ())
        return run

    def all_orders(self, steps):
        """The orders of all interleavings."""
        orders = set()
        for order in interleavings({backend: len(own) for backend, own in steps.items()}):
            orders.add(order_of(history_of(self.program(steps)(order, []).steps, Accesses())))
        return orders

    def test_each_order_once(self):
        """Against all interleavings, for random steps of two and of three backends."""
        draw = random.Random(12)
        for _ in range(40):
            lengths = draw.choice(((3, 3, 2), (2, 2, 2), (5, 5), (6, 3)))
            steps = {backend: [draw.choice(self.STEPS) for _ in range(length - 1)] + ["stop"]
                     for backend, length in enumerate(lengths, 1)}
            with self.subTest(steps):
                for walks in (Walks, KnownWalks):
                    search = Search(walks(self.program(steps), Accesses()), sorted(steps))
                    found = [order_of(history) for answers, history in search.orders() if answers is not None]
                    self.assertEqual(len(found), len(set(found)))
                    self.assertEqual(set(found), self.all_orders(steps))

    def test_shares(self):
        """Shares have each order between them, and none twice."""
        draw = random.Random(4)
        for count in (1, 2, 7, 30, 500):
            for _ in range(8):
                steps = {backend: [draw.choice(self.STEPS) for _ in range(length - 1)] + ["stop"]
                         for backend, length in enumerate(draw.choice(((3, 3, 2), (5, 4))), 1)}
                with self.subTest((count, steps)):
                    walks, backends = KnownWalks(self.program(steps), Accesses()), sorted(steps)
                    found = [order_of(history) for share in shares(walks, backends, count)
                             for answers, history in Search(walks, backends, share).orders() if answers is not None]
                    self.assertEqual(len(found), len(set(found)))
                    self.assertEqual(set(found), self.all_orders(steps))

    def test_how_far(self):
        """How far a search is stays between 0 and 1, and is 1 at its last order."""
        draw = random.Random(2)
        for _ in range(10):
            steps = {backend: [draw.choice(self.STEPS) for _ in range(length)] + ["stop"]
                     for backend, length in enumerate(draw.choice(((3, 3, 2), (5, 4))), 1)}
            search = Search(KnownWalks(self.program(steps), Accesses()), sorted(steps))
            done = [search.done for _ in search.orders()]
            with self.subTest(steps):
                self.assertTrue(all(0 < one < 1.000001 for one in done))
                self.assertAlmostEqual(done[-1], 1)

    def test_random_schedules(self):
        """They have few turns, all steps to the last switch, and each backend goes on to its stop."""
        draw, seen = random.Random(1), set()
        for _ in range(300):
            steps = {backend: draw.randint(1, 30) for backend in range(1, draw.randint(2, 5))}
            first, rest = random_schedule(draw, steps)
            self.assertEqual(sorted(rest), sorted(steps))
            self.assertLessEqual(len(turns_of(first)), max(SWITCHES) + len(steps))
            self.assertTrue(all(first.count(backend) <= count for backend, count in steps.items()))
            seen.add(len(turns_of(first)))
        self.assertGreater(len(seen), 5)

    def test_serial_orders(self):
        """Each order of whole commands is found once, against all ways to put them one after the other."""
        draw = random.Random(6)
        for _ in range(30):
            commands = {backend: [draw.choices(self.STEPS, k=draw.randint(1, 3)) for _ in range(draw.randint(1, 3))]
                        for backend in (1, 2, 3)}
            with self.subTest(commands):
                runner = Made(commands)
                runs = SerialRuns(runner, {backend: list(range(1, len(own) + 1)) for backend, own in commands.items()})
                found = []
                for answers, history in Search(Walks(runs.run, WholeAccesses(())), runner.backends).orders():
                    if answers is not None:
                        self.assertEqual(runs.last.steps, runner.whole([step.backend for step in history.steps]).steps)
                        found.append(order_of(history))
                self.assertEqual(len(found), len(set(found)))
                self.assertEqual(set(found), {order_of(self.whole_history(runner.whole(order))) for order in interleavings(
                    {backend: len(own) for backend, own in commands.items()})})

    def whole_history(self, run):
        """The history of whole commands of a run in which they are made one after the other."""
        wholes = []
        for backend, command, text in run.steps:
            if text != "stop" and (not wholes or wholes[-1][:2] != (backend, command)):
                wholes.append((backend, command, []))
            wholes[-1][2].append(text)
        return history_of([(backend, [command] * len(texts), "\n".join(texts)) for backend, command, texts in wholes],
                          WholeAccesses(()))


class Groups(unittest.TestCase):
    """Which commands are made one after the other in serial orders."""

    def test_groups(self):
        """Each command by itself; and by transactions, of which a block is one up to its end."""
        texts = ("show t", "begin", "show t", "begin;", "COMMIT ;", "show t", "commit", "begin", "rollback", "begin", "show t")
        commands = {(2, number): text for number, text in enumerate(texts, 1)}
        self.assertEqual(commands_of(commands), {2: list(range(1, 12))})
        self.assertEqual(transactions_of(commands), {2: [1, 2, 6, 7, 8, 10]})


class Made:
    """Backends with made-up commands, of so many steps whatever the others do; each ends with a stop."""

    def __init__(self, commands):
        self.backends = sorted(commands)
        self.commands = commands
        self.steps = {backend: [(backend, number, text) for number, texts in enumerate(own, 1) for text in texts]
                      + [(backend, len(own) + 1, "stop")] for backend, own in commands.items()}

    def run(self, first, rest):
        """Steps in this order."""
        left, made = {backend: list(own) for backend, own in self.steps.items()}, []
        for backend in list(first) + [backend for backend in rest for _ in self.steps[backend]]:
            if left[backend]:
                made.append(left[backend].pop(0))
        return Run(b"", made, ())

    def whole(self, order):
        """Whole commands in this order; the stop belongs to the last of each backend."""
        left = {backend: [[(backend, number, text) for text in texts] for number, texts in enumerate(own, 1)]
                for backend, own in self.commands.items()}
        for backend, own in left.items():
            own[-1].append((backend, len(own), "stop"))
        made = [step for backend in order for step in left[backend].pop(0)]
        return Run(b"", [(backend, command + (text == "stop"), text) for backend, command, text in made], ())


def history_in_turns(steps, backends):
    """The history of backends with these steps, in this order of turns."""
    left = {backend: list(own) for backend, own in steps.items()}
    return history_of([(backend, 1, left[backend].pop(0)) for backend in backends], Accesses())


def backends_of(turns):
    """Whose step is next in turns, one by one."""
    return [backend for backend, count in turns for _ in range(count)]


def least_turns(steps):
    """The fewest turns that keep the order of a history's steps, with each step that can come next tried at each place."""
    befores = {}
    for step in steps:
        befores.setdefault(step.backend, []).append(step.before)

    @functools.lru_cache(maxsize=None)
    def after(place, latest):
        """The fewest turns from a place on, the one that is going on not counted."""
        made = dict(place)
        found = []
        for backend, own in befores.items():
            if made[backend] < len(own) and all(count <= made[other] for other, count in own[made[backend]].items()
                                                if other != backend):
                following = tuple(sorted({**made, backend: made[backend] + 1}.items()))
                found.append((backend != latest) + after(following, backend))
        return min(found, default=0)
    return after(tuple((backend, 0) for backend in sorted(befores)), None)


class Known(unittest.TestCase):
    """Walks of which only those are run that have a step which isn't known."""

    class Locks:
        """Backends that each lock a relation, two of them by turns, and look for messages that others publish: what comes out
        depends on who was first."""

        def __init__(self, rels):
            self.rels, self.runs = rels, 0

        def run(self, first, rest):
            """Steps in this order: a lock, then a release, a message and the stop, or a stop at once."""
            self.runs += 1
            left = {backend: None for backend in self.rels}
            holders, made, published, order = {}, [], 0, list(first)
            order += [backend for backend in rest for _ in range(9)]
            for backend in order:
                number, rel = left[backend] or 0, self.rels[backend]
                if number == 0:
                    text = "look no" if published == 0 else "look yes"
                elif number == 1 and text_of(made, backend) == "look yes":
                    text, number = "fetch %d" % published, 0
                elif number == 1:
                    text = "lock %d ax %s" % (rel, "held %d ax" % holders[rel] if rel in holders else "ok")
                    number = 4 if rel in holders else 1
                    holders.setdefault(rel, backend)
                elif number == 2:
                    text, published = "publish 1", published + 1
                elif number == 3:
                    text = "release 1"
                    holders.pop(rel)
                elif number in (4, 5):
                    text = "stop"
                    number = 8
                else:
                    continue
                left[backend] = number + 1
                made.append((backend, 1, text))
            return Run(b"", made, tuple("l %d 1 %s" % (backend, " ".join(text for other, _, text in made if other == backend))
                                        for backend in sorted(left)))

    def outcomes(self, walks, rels):
        """Each order's steps by backend, and its answers."""
        return [(order_of(history), answers, sorted((step.backend, step.turn, step.text) for step in history.steps))
                for answers, history in Search(walks, sorted(rels)).orders() if answers is not None]

    def test_same_orders(self):
        """All orders, steps and answers are those of walks that are each run, in the same order, with fewer runs."""
        for rels in ({1: 7, 2: 7}, {1: 7, 2: 8}, {1: 7, 2: 7, 3: 7}, {1: 7, 2: 8, 3: 7}):
            with self.subTest(rels):
                each, known = self.Locks(rels), self.Locks(rels)
                self.assertEqual(self.outcomes(KnownWalks(known.run, Accesses()), rels),
                                 self.outcomes(Walks(each.run, Accesses()), rels))
                self.assertLessEqual(known.runs, each.runs)

    def test_forgetting(self):
        """The same where all is forgotten now and then, and where it matters who has read messages."""
        rels = {1: 7, 2: 7, 3: 8}
        wanted = self.outcomes(Walks(self.Locks(rels).run, Accesses()), rels)
        for name, value in (("MOST_KNOWN", 5), ("FEW", 0), ("FEW", 1), ("RUN_ANYWAY", 1)):
            with self.subTest(name), unittest.mock.patch("catsync_tools.walks." + name, value):
                self.assertEqual(self.outcomes(KnownWalks(self.Locks(rels).run, Accesses()), rels), wanted)

    def test_a_program_that_differs(self):
        """A program that makes other steps in the same order is found out."""
        class Other(self.Locks):
            """Answers that depend on how often it was run."""

            def run(self, first, rest):
                """Steps in this order."""
                run = super().run(first, rest)
                return run._replace(answers=("l 1 1 %d" % self.runs,) + run.answers[1:])
        walks = KnownWalks(Other({1: 7, 2: 7}).run, Accesses())
        with self.assertRaisesRegex(Fault, "two schedules of one order have other answers, so it isn't one: l 1 1 "):
            self.outcomes(walks, {1: 7, 2: 7})


def text_of(made, backend):
    """The latest step of a backend."""
    return [text for other, _, text in made if other == backend][-1]


class FewestTurns(unittest.TestCase):
    """The search for the fewest turns, whatever the steps are."""

    STEPS = Orders.STEPS + tuple("lock %d as ok" % rel for rel in range(20, 26))

    def drawn(self, draw, lengths):
        """Random steps of backends, so many of each, and their history in a random order."""
        steps = {backend: [draw.choice(self.STEPS) for _ in range(length)] for backend, length in enumerate(lengths, 1)}
        order = [backend for backend, own in steps.items() for _ in own]
        draw.shuffle(order)
        return steps, history_in_turns(steps, order)

    def check(self, steps, history, least):
        """The search finds the fewest turns, they keep the order, and it finds none where fewer are wanted."""
        turns = fewest_turns(history.steps).turns
        self.assertEqual(len(turns), least)
        self.assertEqual(order_of(history_in_turns(steps, backends_of(turns))), order_of(history))
        self.assertEqual(fewest_turns(history.steps, least).turns, turns)
        self.assertIsNone(fewest_turns(history.steps, least - 1).turns)

    def test_against_all_interleavings(self):
        """For each order of some steps, against all interleavings that are of this order."""
        draw = random.Random(5)
        for lengths in ((4, 4), (5, 3), (3, 3, 2), (2, 3, 3), (3, 3, 3), (2, 2, 2, 1), (2, 2, 2, 2)):
            steps, _ = self.drawn(draw, lengths)
            least, histories = {}, {}
            for order in interleavings({backend: len(own) for backend, own in steps.items()}):
                history = history_in_turns(steps, order)
                key = order_of(history)
                histories[key] = history
                least[key] = min(least.get(key, len(order)), len(turns_of(order)))
            for key, history in histories.items():
                with self.subTest(steps):
                    self.check(steps, history, least[key])

    def test_against_all_places(self):
        """For longer histories, against all ways to go on at each place."""
        draw = random.Random(8)
        for _ in range(60):
            steps, history = self.drawn(draw, draw.choice(((12, 12), (8, 8, 8), (10, 9, 8), (5, 5, 5, 5), (6, 6, 5, 4))))
            with self.subTest(steps):
                self.check(steps, history, least_turns(history.steps))

    def test_places_that_are_passed_over(self):
        """A place is passed over for one that has all its steps and no more turns, and for no other."""
        _, history = self.drawn(random.Random(1), (5, 5))
        tried = Tried(Chains(history.steps))
        tried.add((2, 3), 4)
        tried.add((4, 1), 2)
        for place, turns, is_passed_over in (((2, 3), 4, True), ((1, 3), 5, True), ((4, 0), 2, True), ((2, 3), 3, False),
                                             ((3, 2), 9, False), ((4, 1), 1, False), ((2, 4), 9, False)):
            self.assertEqual(tried.has_better(place, turns), is_passed_over)

    def test_eight_backends(self):
        """Eight backends with a hundred steps each are no trouble."""
        draw = random.Random(3)
        steps, history = self.drawn(draw, [100] * 8)
        shortest = fewest_turns(history.steps)
        self.assertEqual(len(shortest.turns), shortest.least)
        self.assertEqual(order_of(history_in_turns(steps, backends_of(shortest.turns))), order_of(history))

    def test_search_that_is_given_up(self):
        """It has turns that keep the order, knows how many there are at least, and says that fewer may do."""
        draw, unsure = random.Random(2), 0
        for _ in range(40):
            steps, history = self.drawn(draw, (8, 8, 8))
            least, given_up, found = least_turns(history.steps), fewest_turns(history.steps, most_tried=0), Found()
            self.assertEqual(order_of(history_in_turns(steps, backends_of(given_up.turns))), order_of(history))
            self.assertLessEqual(given_up.least, least)
            self.assertGreaterEqual(len(given_up.turns), least)
            found.add(history.steps, 0)
            self.assertEqual(found.is_shortest, len(given_up.turns) == given_up.least)
            if not found.is_shortest:
                unsure += 1
                self.assertEqual(led_to(found, "9 orders"), "1 of 9 orders (%d turns; the fewest are %d or more)" % (
                    len(given_up.turns), given_up.least))
            found.add(history.steps, 10000)
            self.assertEqual(found.size, (least, len(history.steps)))
        self.assertGreater(unsure, 0)


class Cut(Exploration):
    """A search that never comes to its end, and about how much of it the first orders are."""

    def __init__(self, part=0.2):
        self.settings, self.guess, self.far, self.part, self.is_split, self.is_guessed = Settings(), None, [], part, False, False

    def do(self, tasks, most, count, kind, shown=None, in_rounds=False):
        """Tells how far the first orders are."""
        self.far = [Far(256, self.part)]
        return False

    def shares(self, count):
        """None."""
        self.is_split = True
        return []


class HowFar(unittest.TestCase):
    """What is said of how far a search is."""

    def test_guess(self):
        """By how far each task is; tasks that aren't begun are as others."""
        self.assertIsNone(guess_of([Far(0, 0.0)]))
        self.assertEqual(guess_of([Far(10, 0.5), Far(30, 1.0)]), 50)
        self.assertEqual(guess_of([Far(10, 0.5), Far(30, 1.0), Far(0, 0.0), Far(0, 0.0)]), 100)
        self.assertEqual([about(number) for number in (0, 7, 42, 128, 1250, 197160)], ["0", "7", "42", "130", "1200", "200000"])
        self.assertEqual([estimate(guess, 5000) for guess in (None, 1300, 5049, 5060)], ["more than 5000 orders"] * 3 + [
            "at least 5100 orders by an estimate"])
        self.assertEqual([duration(seconds) for seconds in (0, 99, 150, 5000, 9000)], ["0 s", "99 s", "2 min", "83 min", "2.5 h"])

    def test_guess_of_a_search_that_is_cut(self):
        """It is that of the first orders, and more than were run."""
        for most, guess, is_split in ((100, 1280, False), (1000, 1280, True), (1280, 1281, True), (5000, 5001, True)):
            search = Cut()
            self.assertFalse(search.run_orders(most))
            self.assertEqual((search.guess, search.is_split), (guess, is_split))

    def test_far_more_orders(self):
        """Where there seem to be ten times as many orders as are to be run no more are than the first ones."""
        for part, is_split in ((0.09, True), (0.085, False)):
            search = Cut(part)
            self.assertFalse(search.run_orders(300))
            self.assertEqual((search.guess, search.is_split, search.is_guessed), (round(256 / part), is_split, not is_split))
        for is_guessed, are in ((False, "are"), (True, "seem to be")):
            self.assertEqual(Extent(300, True, "1", 300, True, "", 3012, is_guessed).text,
                             "300 random schedules from seed 1, as there %s more than 300 orders" % are)

    def test_head(self):
        """Where no set comes only when commands are interleaved, how many come only when transactions are."""
        extent = Extent(9, False, "1", None, True, "")
        for kinds, said in (({"a": "transactions", "b": "commands", "c": "commands"}, "none only when interleaved, 2 only when transactions are interleaved"),
                            ({"a": "transactions", "b": "commands"}, "1 only when interleaved"),
                            ({"a": "transactions", "b": "transactions", "c": "transactions"}, "none only when interleaved")):
            serial = Serial({(key,): kind for key, kind in kinds.items()}, True)
            sets = [Shown((key,), None, None) for key in "abc"]
            self.assertEqual(head_of(extent, serial, sets), ["all 9 orders: 3 sets of answers, " + said])

    def test_estimate_while_a_search_goes_on(self):
        """None by the first orders alone, which have seen too little of the tree, and no time that is reckoned by it; and what comes
        after the orders where there are too many. The count of orders only grows, though the first ones are made again."""
        said, then = "%d of at most 5000 %s, 0 sets of answers", ", and then 5000 random schedules"
        for far, kind, shown in (
                ([Far(30, 0.4)], "orders", (0, 5000, said % (30, "orders"), "")),
                ([Far(300, 0.5), Far(0, 0.0)], "orders", (300, 1200, said % (300, "orders") + "; some 1200 by an estimate", "")),
                ([Far(300, 0.1), Far(0, 0.0)], "orders", (300, 5000, said % (300, "orders") + "; some 6000 by an estimate", then)),
                ([Far(5, 0.01), Far(0, 0.0)], "orders", (5, 1000, said % (20, "orders") + "; some 1000 by an estimate", "")),
                ([Far(8, 0.0)], "random schedules", (8, 5000, said % (8, "random schedules"), ""))):
            search = unittest.mock.Mock(so_far=lambda: "0 sets of answers", orders_shown=20)
            Exploration.show(search, far, 5000, kind)
            self.assertEqual(search.progress.show.call_args[0], shown)

    def test_lines(self):
        """Where standard error is no terminal there is a line now and then."""
        with unittest.mock.patch("sys.stderr", io.StringIO()) as said:
            progress = Progress("explore")
            progress.show(1, 4, "1 of at most 4 orders")
            self.assertEqual(said.getvalue(), "")
            with unittest.mock.patch("catsync_tools.progress.LINE_PAUSE", 0):
                progress.begun -= 50
                progress.show(1, 4, "1 of at most 4 orders", ", and then more")
            progress.clear()
            self.assertRegex(said.getvalue(), "^explore: 1 of at most 4 orders, 15[0-9] s left, and then more\n$|, [23] min left, and then more\n$")


# The explorer, with the program.

# Two backends create one name. Who writes first is transaction 1 and gets the name. The other is refused: with 55P03 while
# that transaction runs, with 42P07 once it is visible. Two times two.
TWO_CREATORS = b"""backends 2
1: create table t (a int4)
2: create table t (b text)
end
"""
TWO_CREATORS_ANSWERS = {
    ("l 1 1 ok", "l 2 1 error 55P03 name t is in use by transaction 1"),
    ("l 1 1 ok", "l 2 1 error 42P07 relation t already exists"),
    ("l 1 1 error 55P03 name t is in use by transaction 1", "l 2 1 ok"),
    ("l 1 1 error 42P07 relation t already exists", "l 2 1 ok"),
}

# A show beside the create of its table. What counts is where its scan for the name is, before or after `visible`, and
# where its lock is, before or after the `release`: no relation, refused, or shown. Under AccessShare a name needs no place.
CREATE_AND_SHOW = b"""backends 2
1: create table t (a int4)
2: show t name
end
"""
CREATE_AND_SHOW_ANSWERS = {
    ("l 1 1 ok", "l 2 1 error 42P01 relation t does not exist as of _"),
    ("l 1 1 ok", "l 2 1 error 55P03 relation 16384 is locked by backend 1 in ax"),
    ("l 1 1 ok", "l 2 1 name t"),
}

# A block that is rolled back, and another backend's create of the same name.
# - The block writes first. The other create is refused while the write is there, and then its show finds nothing, since the
#   block's table is never visible; after `gone` it has the name.
# - The other create writes first. The block is refused, and fails: with 55P03 while that transaction runs, with 42P07 once
#   it is visible. `rollback` answers ok either way, and the show finds the other's table.
ROLLED_BACK = b"""backends 2
1: begin
1: create table t (a int4)
1: rollback
2: create table t (b text)
2: show t columns
end
"""
ROLLED_BACK_ANSWERS = {
    ("l 1 1 ok", "l 1 2 ok", "l 1 3 ok", "l 2 1 error 55P03 name t is in use by transaction 1",
     "l 2 2 error 42P01 relation t does not exist as of _"),
    ("l 1 1 ok", "l 1 2 ok", "l 1 3 ok", "l 2 1 ok", "l 2 2 columns b:text"),
    ("l 1 1 ok", "l 1 2 error 55P03 name t is in use by transaction 1", "l 1 3 ok", "l 2 1 ok", "l 2 2 columns b:text"),
    ("l 1 1 ok", "l 1 2 error 42P07 relation t already exists", "l 1 3 ok", "l 2 1 ok", "l 2 2 columns b:text"),
}

# Which of these a serial order of transactions has, and which one of commands alone: a create that is refused while another
# backend's block goes on. All others come only when commands are interleaved.
SERIAL = {answers for answers in TWO_CREATORS_ANSWERS | CREATE_AND_SHOW_ANSWERS if not any("55P03" in text for text in answers)}
SERIAL |= {answers for answers in ROLLED_BACK_ANSWERS if answers[3].endswith("l 2 1 ok") and "55P03" not in answers[1]}
SERIAL_COMMANDS = {answers for answers in ROLLED_BACK_ANSWERS if "55P03" in answers[3]}

# Two backends look twice for a table that a third one makes. Here the turns that each go on longest aren't the fewest.
TWO_LOOK = b"""backends 3
1: create table t (a int4)
2: show t name
2: show t name
3: show t name
3: show t name
end
"""

BY_HAND = ((TWO_CREATORS, TWO_CREATORS_ANSWERS), (CREATE_AND_SHOW, CREATE_AND_SHOW_ANSWERS),
           (ROLLED_BACK, ROLLED_BACK_ANSWERS))


# Fields of a part's file, or of a set in it, with what they can't be.
FAULTY_FIELDS = (
    (("schedules",), "3"), (("schedules",), True), (("schedules",), -1), (("schedules",), 1.5), (("serial",), 5),
    (("serial",), {"a": "b"}), (("is_over",), "no"), (("is_serial_over",), 1), (("places",), 0), (("random",), "x"),
    (("seed",), 1), (("seed",), "\ud800"), (("part",), "1"), (("part",), 3), (("sets",), {}), (("sets",), [5]), (("more",), 1),
    (("set", "count"), "3"), (("set", "answers"), "l 1 1 ok"), (("set", "answers"), [1]), (("set", "answers"), ["\ud800"]),
    (("set", "turns"), [[1]]), (("set", "turns"), [["1", 2]]), (("set", "size"), [1]), (("set", "least"), None),
)


class Report:
    """What the explorer printed."""

    def __init__(self, text):
        self.head, *sets = text.split("\n\n")
        self.counts, self.steps, self.answers = [], [], []
        for lines in (one.strip("\n").split("\n") for one in sets):
            self.counts.append(lines[0])
            self.steps.append(lines[1])
            self.answers.append(tuple(lines[2:]))


class Counting(Exploration):
    """An exploration that finds the fewest turns by trying all."""

    def __init__(self, *words):
        super().__init__(*words)
        self.least = {}

    def add(self, piece, answers, steps):
        """One more schedule."""
        key = without_places(answers)
        self.least[key] = min(self.least.get(key, (99, 99)), (least_turns(steps), len(steps)))
        return super().add(piece, answers, steps)


@unittest.skipUnless(HAS_PROGRAM, NO_PROGRAM)
class Explorer(unittest.TestCase):
    """tools/explore on the program."""

    @classmethod
    def setUpClass(cls):
        cls.program = Program(PROGRAM)

    @classmethod
    def tearDownClass(cls):
        cls.program.close()

    def explore(self, script, *words):
        """Exit status, standard output and standard error of the explorer."""
        status, text, said = call("explore", "--program", PROGRAM, *words, given=script)
        return status, text.decode(), without_progress("explore", said)

    def report(self, script, *words):
        """What the explorer prints for a script that is explored to the end."""
        status, text, said = self.explore(script, *words)
        self.assertEqual((status, said), (0, ""))
        return Report(text)

    def run_with(self, script, line):
        """The run of a script with this line of steps."""
        return self.program.run(read_source(script).script.with_steps(line))

    def test_answers_by_hand(self):
        """Each set of answers that was worked out by hand is found, and no other."""
        for script, answers in BY_HAND:
            with self.subTest(script):
                report = self.report(script)
                self.assertRegex(report.head, "^all [0-9]+ orders: %d sets of answers" % len(answers))
                self.assertEqual({without_places(found) for found in report.answers}, answers)
                self.assertEqual(len(report.answers), len(answers))
                counts = [int(number) for count in report.counts for number in re.findall(": ([0-9]+) of", count)]
                self.assertIn("all %d orders" % sum(counts), report.head)

    def test_steps_can_be_pasted_back(self):
        """The line of steps leads to just the answers that are printed with it."""
        for script, _ in BY_HAND:
            for words in ((), ("--most", "3"), ("--places", "--most", "20")):
                with self.subTest((script, words)):
                    report = self.report(script, *words)
                    for line, answers in zip(report.steps, report.answers):
                        self.assertEqual(self.run_with(script, line).answers, answers)

    def test_marks(self):
        """Each set that no serial order has is marked as such."""
        for script, answers in BY_HAND:
            report = self.report(script)
            for count, found in zip(report.counts, report.answers):
                with self.subTest(found):
                    key = without_places(found)
                    mark = ("" if key in SERIAL else ", only when transactions are interleaved" if key in SERIAL_COMMANDS
                            else ", only when interleaved")
                    self.assertTrue(count.endswith("orders" + mark), count)
            self.assertTrue(report.head.endswith(", %s only when interleaved" % (len(answers - SERIAL - SERIAL_COMMANDS) or "none")), report.head)
            interleaved = self.report(script, "--interleaved")
            self.assertEqual({without_places(found) for found in interleaved.answers}, answers - SERIAL - SERIAL_COMMANDS)

    def test_line_of_steps_is_the_shortest(self):
        """Of all orders that were run with these answers it has the fewest turns, and of those the fewest steps."""
        for script, most in [(script, 5000) for script, _ in BY_HAND] + [(TWO_LOOK, 40)]:
            exploration = Counting(Settings(seed="2"), read_source(script), PROGRAM, Progress())
            exploration.run_serial()
            if not exploration.run_orders(most):
                exploration.run_random(most)
            printed = Report(self.explore(script, "--most", str(most), "--seed", "2", "--jobs", "1")[1])
            for line, answers in zip(printed.steps, printed.answers):
                with self.subTest(line):
                    again = self.run_with(script, line)
                    self.assertEqual(again.answers, answers)
                    self.assertEqual((len(line.split()) - 1, len(again.steps)),
                                     exploration.least.pop(without_places(answers)))
            self.assertEqual(exploration.least, {})
            exploration.program.close()

    def test_jobs(self):
        """However many processors are used, the same is printed."""
        for words in ((), ("--random", "150"), ("--places", "--most", "300"), ("--find", "55P03", "--find", "l 2 2 *b:text")):
            with self.subTest(words):
                shown = [self.explore(ROLLED_BACK, *words, "--jobs", jobs) for jobs in ("1", "2", "5")]
                self.assertEqual(shown[0], shown[1])
                self.assertEqual(shown[0], shown[2])

    def test_jobs_of_a_search_that_is_split(self):
        """The same where there are so many orders that the search is split; and parts of it merged."""
        with open(os.path.join(TOP, "examples", "second_show.script"), "rb") as file:
            script = file.read()
        one, other = (self.explore(script, "--jobs", jobs) for jobs in ("1", "3"))
        self.assertEqual(one, other)
        self.assertRegex(one[1], "^all 316 orders: ")
        self.assertEqual(self.merged(script, 3), one[1])

    def test_jobs_of_a_search_for_a_text(self):
        """However many processes do tasks, the same one finds what is looked for, before the same number of schedules."""
        draw = random.Random(9)
        exploration = Exploration(Settings(wanted=(re.compile("x"),)), read_source(TWO_CREATORS), PROGRAM, Progress())
        with unittest.mock.patch("catsync_tools.jobs.PAUSE", 0):
            for _ in range(12):
                made = [(draw.randint(0, 6), draw.random() < 0.3, draw.random() * 0.01) for _ in range(draw.randint(2, 6))]
                all_made = sum(count for count, _, _ in made)
                for most in (draw.randint(0, all_made), draw.randint(0, all_made), all_made):
                    with self.subTest((made, most)):
                        shown = [self.done(exploration, made, most, jobs) for jobs in (1, 2, 3)]
                        self.assertEqual(shown[1:], shown[:1] * 2)
                        self.assertEqual(shown[0][0], all_made <= most or shown[0][1] is not None)
        exploration.program.close()

    def done(self, exploration, made, most, jobs):
        """What becomes of shares that have so many orders, may have what is looked for in the last, and wait for so long; of no
        more orders than the limit any is counted at a time."""
        def orders_of(share, most_of_it=None):
            """One task."""
            number, count, finds, seconds = share
            def task():
                """Its orders."""
                piece = Piece(False)
                yield piece
                for done in range(1, count + 1):
                    time.sleep(seconds)
                    if piece.schedules == most_of_it:
                        piece.is_cut = True
                        yield piece
                        piece.is_cut = False
                    piece.schedules = done
                    piece.found = [(number, done)] if finds and done == count else None
                    yield piece
            return task
        shown = []
        exploration.found, exploration.schedules = None, 0
        exploration.settings = exploration.settings._replace(jobs=jobs)
        with unittest.mock.patch.object(exploration, "orders_of", orders_of), unittest.mock.patch.object(
                exploration, "show", lambda far, *_: shown.append(sum(one.schedules for one in far))):
            is_within = exploration.run_shares([(number,) + one for number, one in enumerate(made, 1)], most)
        self.assertLessEqual(max(shown), most + 1)
        return is_within, exploration.found, is_within and exploration.schedules

    def test_search_that_pauses(self):
        """Shares that pause after their first orders go on where they were: each order is made once, and their count only grows."""
        for jobs in (1, 2):
            exploration, made, shown = Exploration(Settings(wanted=(re.compile("x y z"),), jobs=jobs), read_source(TWO_CREATORS), PROGRAM,
                                                   Progress()), [], []
            add = exploration.add
            with unittest.mock.patch("catsync_tools.search.FIRST", 8), unittest.mock.patch(
                    "catsync_tools.search.SHARES", 4), unittest.mock.patch("catsync_tools.jobs.PAUSE", 0), unittest.mock.patch.object(
                        exploration, "add", lambda *words: made.append(1) or add(*words)), unittest.mock.patch.object(
                            exploration, "show", lambda far, *_: shown.append(sum(one.schedules for one in far) if len(far) > 1 else 0)):
                self.assertTrue(exploration.run_orders(30))
            self.assertEqual((exploration.schedules, exploration.found, exploration.is_over), (28, None, True))
            self.assertEqual((shown, shown[-1]), (sorted(shown), 28))
            self.assertTrue(jobs > 1 or len(made) == 9 + 28, len(made))
            self.assertFalse(exploration.run_orders(27))
            exploration.program.close()

    def test_signal_as_processes_start(self):
        """A signal that comes just before the processes are there, or to one of them as it starts, ends the search as any
        other does."""
        before = ("old = Jobs.run_in_children\ndef new(self, *words):\n    os.kill(os.getpid(), %d)\n    return old(self, *words)\n"
                  "Jobs.run_in_children = new")
        inside = ("old = Jobs.serve\ndef new(self, *words):\n    os.kill(os.getpid(), %d)\n    os.kill(os.getppid(), %d)\n"
                  "    return old(self, *words)\nJobs.serve = new")
        head = ("import os, sys\nsys.path.insert(0, %r)\nfrom catsync_tools import start\n"
                "from catsync_tools.jobs import Jobs\n")
        tail = "\nsys.exit(start.run('explore'))"
        for number in (signal.SIGINT, signal.SIGTERM, signal.SIGHUP):
            for change in (before % number, inside % (number, number)):
                with self.subTest(change):
                    words = ["--program", PROGRAM, "--random", "200", "--jobs", "2"]
                    done = subprocess.run(
                        [sys.executable, "-c", head % TOOLS + change + tail] + words, input=ROLLED_BACK, stdout=subprocess.PIPE, stderr=subprocess.PIPE,
                        preexec_fn=hear_signals)
                    self.assertEqual((done.returncode, done.stderr), (130, b""))
                    self.assertRegex(done.stdout, b"^stopped after [0-9]+ random schedules? from seed 1: [0-9]+ sets?")

    def merged(self, script, count, *words):
        """What the parts of a search are merged to."""
        with tempfile.TemporaryDirectory() as folder:
            paths = [os.path.join(folder, "part%d" % part) for part in range(1, count + 1)]
            for part, path in enumerate(paths, 1):
                status, text, said = self.explore(script, *words, "--part", "%d/%d" % (part, count))
                self.assertEqual((status, said), (0, ""))
                with open(path, "w", encoding="utf-8") as file:
                    file.write(text)
            status, text, said = call("explore", "--merge", *paths)
            self.assertEqual((status, said), (0, ""))
            if count > 1:
                status, some, said = call("explore", "--merge", *paths[:-1])
                self.assertEqual((status, said), (3, ""))
                self.assertRegex(some.decode(), "^stopped after [0-9]+ [a-z0-9 ]+ of %d parts, without %d: " % (count, count))
                fields = json.loads(content_of(paths[0]))
                with open(paths[0], "w", encoding="utf-8") as file:
                    json.dump(dict(fields, is_over=False), file)
                some = call("explore", "--merge", *paths[:-1])[1].decode()
                self.assertRegex(some, "^stopped after .* of %d parts, without %d and not to the end of 1: " % (count, count))
        return text.decode()

    def test_parts(self):
        """Parts are merged to what one search prints."""
        for script, _ in BY_HAND:
            for words in ((), ("--random", "90")):
                with self.subTest((script, words)):
                    self.assertEqual(self.merged(script, 4, *words), self.explore(script, *words)[1])

    def test_faulty_parts(self):
        """Files that aren't different parts of one search are refused."""
        with tempfile.TemporaryDirectory() as folder:
            paths = {name: os.path.join(folder, name) for name in ("one", "two", "other", "cut", "form")}
            for name, script, part in (("one", TWO_CREATORS, "1/2"), ("two", TWO_CREATORS, "2/2"),
                                       ("other", CREATE_AND_SHOW, "2/2")):
                with open(paths[name], "w", encoding="utf-8") as file:
                    file.write(self.explore(script, "--part", part)[1])
            text = content_of(paths["one"]).decode()
            for name, changed in (("cut", text[:-9]), ("form", text.replace("form 1", "form 9"))):
                with open(paths[name], "w", encoding="utf-8") as file:
                    file.write(changed)
            for number, (path, value) in enumerate(FAULTY_FIELDS):
                fields = json.loads(text)
                place = fields if len(path) == 1 else fields["sets"][0]
                place[path[-1]] = value
                self.check_faulty_part(os.path.join(folder, "field%d" % number), json.dumps(fields))
            self.check_faulty_part(os.path.join(folder, "deep"), "[" * 100000)
            for names, said in ((["one", "one"], "one: part 1 of 2, as is "),
                                (["one", "other"], "other: of another search than "),
                                (["cut"], "cut: not what 'explore --part' prints"), (["one", "form"], "form: not what "),
                                (["no"], "no: reading failed: ")):
                with self.subTest(names):
                    status, shown, error = call("explore", "--merge", *[os.path.join(folder, name) for name in names])
                    self.assertEqual((status, shown, error.count("\n")), (2, b"", 1))
                    self.assertIn(said, error)

    def check_faulty_part(self, path, text):
        """A file that isn't a part is refused."""
        with self.subTest(text[:60]):
            with open(path, "w", encoding="utf-8") as file:
                file.write(text)
            self.assertEqual(call("explore", "--merge", path), (2, b"", "explore: %s: not what 'explore --part' prints\n" % path))

    def test_out_that_is_no_file(self):
        """A link stays one, and a pipe and a device are written to; where nothing can be written that is said before the
        search."""
        with tempfile.TemporaryDirectory() as folder:
            link, real, pipe = (os.path.join(folder, name) for name in ("link", "real", "pipe"))
            os.symlink("real", link)
            os.mkfifo(pipe)
            words = ("explore", "--program", PROGRAM, "--part", "1/1", "--out")
            text = call(*words[:-1], given=TWO_CREATORS)[1]
            self.assertEqual(call(*words, link, given=TWO_CREATORS), (0, b"", ""))
            self.assertEqual((os.readlink(link), content_of(real)), ("real", text))
            with subprocess.Popen(["cat", pipe], stdout=subprocess.PIPE) as reader:
                self.assertEqual(call(*words, pipe, given=TWO_CREATORS), (0, b"", ""))
                self.assertEqual(reader.stdout.read(), text)
            self.assertEqual(call(*words, "/dev/stdout", given=TWO_CREATORS), (0, text, ""))
            self.assertEqual(call(*words, "/dev/null", given=TWO_CREATORS), (0, b"", ""))
            self.assertFalse(os.path.isfile("/dev/null"))
            self.assertEqual(sorted(os.listdir(folder)), ["link", "pipe", "real"])
        with unittest.mock.patch.object(Exploration, "run_serial", side_effect=AssertionError("a search")), \
                unittest.mock.patch("catsync_tools.interrupts.Interrupts.hold"):
            for more, said in ((["--part", "1/1", "--out", "/no/such/part"], "/no/such/part: writing failed: No such file or "),
                               (["--picture", "/proc"], "/proc/set1.svg: writing failed: "),
                               (["--part", "1/1", "--out", "/proc/part"], "/proc/part: writing failed: ")):
                with self.subTest(more), unittest.mock.patch("catsync_tools.explore.read_input", return_value=TWO_CREATORS):
                    self.assertRaisesRegex(Fault, said, explore.main, ["--program", PROGRAM] + more)

    def test_no_schedule_has_other_answers(self):
        """Schedules that are drawn at random lead to no other answers than those worked out by hand."""
        draw = random.Random(3)
        for script, answers in BY_HAND:
            for _ in range(25):
                steps = [draw.randint(1, 2) for _ in range(40)]
                line = steps_line(turns_of(steps) + [(1, 100), (2, 100)])
                self.assertIn(without_places(self.run_with(script, line).answers), answers)

    def test_own_steps_are_passed_over(self):
        """A schedule in the script changes nothing."""
        script = content_of(os.path.join(TOP, "examples", "two_creators.script"))
        without = b"\n".join(line for line in script.split(b"\n") if not line.startswith(b"steps"))
        self.assertNotEqual(script, without)
        self.assertEqual(self.explore(script), self.explore(without))

    def test_random_schedules(self):
        """Where there are more orders than are wanted, schedules are drawn, the same ones for the same seed."""
        report = self.report(TWO_CREATORS, "--most", "3", "--seed", "7")
        self.assertRegex(report.head, "^3 random schedules from seed 7, as there are more than 3 orders: .*\n"
                         "there are at least ([4-9]|[1-9][0-9]+) orders by an estimate$")
        self.assertLessEqual({without_places(found) for found in report.answers}, TWO_CREATORS_ANSWERS)
        self.assertEqual(self.explore(TWO_CREATORS, "--most", "3"), self.explore(TWO_CREATORS, "--most", "3", "--seed", "1"))

    def test_places(self):
        """With places, answers that name other entries are other answers."""
        report = self.report(CREATE_AND_SHOW, "--places", "--most", "30")
        self.assertEqual(len(set(report.answers)), len(report.answers))
        self.assertGreater(len(report.answers), len(CREATE_AND_SHOW_ANSWERS))

    def test_find(self):
        """A text is found in an answer or an entry, with a schedule that leads to it."""
        for text in ("error 55P03", "lock 16384 as held 1 ax", "l 2 1 *55P03"):
            status, found, said = self.explore(CREATE_AND_SHOW, "--find", text)
            self.assertEqual((status, said), (0, ""))
            where, line, *lines = found.splitlines()
            self.assertRegex(where, "^found (in a serial order|after [1-9][0-9]* orders?):$")
            output = self.run_with(CREATE_AND_SHOW, line).output.decode()
            self.assertEqual([shown for shown in output.splitlines() if wanted_of(text).search(shown)], lines)
            self.assertTrue(lines)

    def test_texts(self):
        """A star stands for any text, other signs for themselves, and places don't count."""
        for text, line, is_there in (
                ("a*c", "xabbcx", True), ("a*c", "xacx", True), ("a*c", "xab", False), ("a.c", "abc", False),
                ("+class(16384", "write 1 +class(16384,t,r,-)", True), ("x as of 7; y", "x; y", True), ("x; y", "x; y", True)):
            self.assertEqual(wanted_of(text).search(line) is not None, is_there)

    def test_find_several(self):
        """Several texts are found in one schedule, and places don't count."""
        both = ("--find", "l 1 2 *55P03", "--find", "columns b:text")
        status, found, _ = self.explore(ROLLED_BACK, *both)
        self.assertEqual(status, 0)
        self.assertIn("l 1 2 error 55P03 name t is in use by transaction 1\n", found)
        self.assertIn("l 2 2 columns b:text\n", found)
        status, found, _ = self.explore(ROLLED_BACK, "--find", "l 1 2 *55P03", "--find", "42P01")
        self.assertEqual(status, 1)
        self.assertRegex(found, "^all [0-9]+ orders: none has all of these texts: ")

    def test_find_interleaved(self):
        """What a serial order leads to is passed over."""
        self.assertEqual(self.explore(CREATE_AND_SHOW, "--find", "l 2 1 name t")[0], 0)
        self.assertEqual(self.explore(CREATE_AND_SHOW, "--find", "l 2 1 name t", "--interleaved")[0], 1)
        self.assertEqual(self.explore(CREATE_AND_SHOW, "--find", "55P03", "--interleaved")[0], 0)

    def test_setup(self):
        """A set-up is made first, and its steps aren't printed."""
        script = b"backends 2\nsetup 1: create table t (a int4)\n1: alter table t add b text\n2: show t columns\nend\n"
        report = self.report(script)
        self.assertEqual({found[2] for found in report.answers}, {
            "l 2 1 columns a:int4", "l 2 1 columns a:int4 b:text",
            "l 2 1 error 55P03 relation 16384 is locked by backend 1 in ax"})
        for line, answers in zip(report.steps, report.answers):
            pasted = script.replace(b"end\n", line.encode() + b"\nend\n")
            counted = call("schedule", "--program", PROGRAM, given=pasted)[1]
            self.assertEqual(self.program.run(counted).answers, answers)

    def test_commands_in_pictures(self):
        """A picture has a command without its comment and its semicolon."""
        with tempfile.TemporaryDirectory() as folder:
            self.explore(TWO_CREATORS.replace(b"(b text)", b"(b text);  -- b"), "--picture", folder)
            drawn = content_of(os.path.join(folder, "set1.svg")).decode()
        self.assertIn("2: create table t (b text)</", drawn)

    def test_find_nothing(self):
        """Where no schedule has the text the exit status is 1."""
        status, said, _ = self.explore(TWO_CREATORS, "--find", "42P01")
        self.assertEqual(status, 1)
        self.assertRegex(said, "^all [0-9]+ orders: no answer and no entry has the text 42P01\n$")

    def test_pictures(self):
        """There is a picture of each set's schedule, or of the one that is found, as an SVG or a page."""
        for words, names in ((["--find", "55P03"], ["found"]), ([], ["set1", "set2", "set3"])):
            for kind, more in (("svg", []), ("html", ["--html"])):
                with tempfile.TemporaryDirectory() as folder, self.subTest((words, kind)):
                    inner = os.path.join(folder, "a", "b")
                    status, found, _ = self.explore(CREATE_AND_SHOW, "--picture", inner, *words, *more)
                    self.assertEqual(status, 0)
                    pictures = ["%s.%s" % (name, kind) for name in names]
                    self.assertEqual(sorted(os.listdir(inner)), sorted(pictures + ([] if words else ["index.html"])))
                    if not words:
                        self.check_index(content_of(os.path.join(inner, "index.html")).decode(), found, pictures)
                    lines = [line for line in found.splitlines() if line.startswith("steps ")]
                    for name, line in zip(names, lines):
                        drawn = content_of(os.path.join(inner, "%s.%s" % (name, kind))).decode()
                        for entry in self.run_with(CREATE_AND_SHOW, line).steps:
                            self.assertIn("h %d %d %s" % entry, drawn)

    def check_index(self, page, printed, pictures):
        """The index has all that is printed, each set with its picture, in order."""
        text = html.unescape(re.sub("<[^>]*>", "", page))
        for line in printed.splitlines():
            self.assertIn(line, text)
        self.assertEqual(re.findall('src="([^"]*)"', page), pictures)

    def test_pictures_of_an_earlier_search(self):
        """Pictures of sets that are no more are removed, as is that of what isn't found any more; and nothing else."""
        with tempfile.TemporaryDirectory() as folder:
            earlier = ["set1.svg", "set4.svg", "set40.svg", "set4.html", "found.svg", "set.svg", "reset4.svg", "set4.svg.old"]
            for name in earlier:
                with open(os.path.join(folder, name), "w", encoding="utf-8"):
                    pass
            self.assertEqual(self.explore(CREATE_AND_SHOW, "--picture", folder)[0], 0)
            left = set(earlier) - {"set4.svg", "set40.svg"} | {"set2.svg", "set3.svg", "index.html"}
            self.assertEqual(set(os.listdir(folder)), left)
            self.assertEqual(self.explore(CREATE_AND_SHOW, "--picture", folder, "--find", "42P02")[0], 1)
            self.assertEqual(set(os.listdir(folder)), left - {"found.svg"})

    def test_program_without_a_folder(self):
        """A program's name is that of a file here, and not of one on PATH."""
        with tempfile.TemporaryDirectory() as folder:
            os.symlink(PROGRAM, os.path.join(folder, "here"))
            for name, status in (("here", 0), ("true", 2)):
                done = subprocess.run([sys.executable, os.path.join(TOOLS, "explore"), "--program", name], cwd=folder,
                                      input=TWO_CREATORS, stdout=subprocess.PIPE, stderr=subprocess.PIPE)
                self.assertEqual(done.returncode, status, done.stderr)
            self.assertEqual(done.stderr, b"explore: ./true: No such file or directory\n")

    def test_faults(self):
        """A fault is one line on standard error, exit status 2, and nothing is printed or written."""
        examples = os.path.join(TOP, "examples")
        cases = [(["--most", "0"], TWO_CREATORS, "argument --most: not a count: 0; explore --help says more"),
                 (["--part", "3/2"], TWO_CREATORS, "argument --part: not a part, as 3/64: 3/2"),
                 (["--part", "1/99999"], TWO_CREATORS, "argument --part: a search has at most 4096 parts, and not those of 1/99999"),
                 (["--part", "1/2", "--out", TOP], TWO_CREATORS, TOP + ": writing failed: Is a directory"),
                 (["--merge", "x", "--most", "3"], b"", "--most doesn't go with --merge; "),
                 (["--merge", "x", "--random", "3"], b"", "--random doesn't go with --merge; "),
                 (["--merge", "x", "--seed", "1"], b"", "--seed doesn't go with --merge; "),
                 (["--merge", "x", "--places"], b"", "--places doesn't go with --merge; "),
                 (["--merge", "x", "--jobs", "3"], b"", "--jobs doesn't go with --merge; "),
                 (["--merge", "x", "--find", "3"], b"", "--find doesn't go with --merge; "),
                 (["--part", "1/2", "--find", "x"], TWO_CREATORS, "--find doesn't go with --part; explore --help says more"),
                 (["--find", ""], TWO_CREATORS, "--find needs a text; "),
                 (["--html"], TWO_CREATORS, "--html is for --picture; "),
                 (["--out", "x"], TWO_CREATORS, "--out is for --part; "),
                 (["--part", "1/2", "--out", "/no/such/part"], TWO_CREATORS, "/no/such/part: writing failed: "),
                 (["--picture", "/dev/null/a"], TWO_CREATORS, "/dev/null/a: the folder can't be made: "),
                 (["--picture", "/proc"], TWO_CREATORS, "/proc/set1.svg: writing failed: "),
                 (["--program", "/no/such/program"], TWO_CREATORS, "/no/such/program: "),
                 (["--program", "/bin/echo"], TWO_CREATORS, "/bin/echo: what it prints isn't an output of catsync"),
                 ([], b"", "line 1: "), (["--merge"], TWO_CREATORS, "--merge needs FILEs; "),
                 (["x"], b"", "it reads its standard input: explore < x; ")]
        bad = os.path.join(examples, "bad_line")
        cases.append(([], content_of(bad + ".script"), content_of(bad + ".error").decode()))
        status, _, said = call("explore", "--merge", "x", "--program", PROGRAM)
        self.assertEqual((status, said), (2, "explore: --program doesn't go with --merge; explore --help says more\n"))
        for words, script, expected in cases:
            with self.subTest(expected):
                status, text, said = call("explore", *words) if "--merge" in words else self.explore(script, *words)
                text = text or ""
                self.assertEqual((status, text), (2, ""))
                self.assertTrue(said.startswith("explore: " + expected), said)
                self.assertEqual(said.count("\n"), 1)

    def test_closed_streams(self):
        """Closed standard streams are faults, or don't matter."""
        command = "exec %s %s --program %s" % (sys.executable, os.path.join(TOOLS, "explore"), PROGRAM)
        for redirection, expected in (("<&-", "explore: reading failed: standard input is closed\n"),
                                      (">&-", "explore: writing failed: standard output is closed\n"),
                                      (">/dev/full", "explore: writing failed: No space left on device\n")):
            done = subprocess.run(["sh", "-c", command + " " + redirection], input=TWO_CREATORS, stdout=subprocess.PIPE,
                                  stderr=subprocess.PIPE)
            self.assertEqual((done.returncode, done.stdout, done.stderr.decode()), (2, b"", expected))
        done = subprocess.run(["sh", "-c", command + " 2>&-"], input=TWO_CREATORS, stdout=subprocess.PIPE)
        self.assertEqual(done.returncode, 0)

    def interrupted(self, number, shown, *words):
        """Exit status and standard output of the explorer on an example with many orders, which is sent a signal once its bar
        on a terminal shows this."""
        terminal, other_end = pty.openpty()
        with open(os.path.join(TOP, "examples", "three_at_once.script"), "rb") as script:
            explorer = subprocess.Popen([sys.executable, os.path.join(TOOLS, "explore"), "--program", PROGRAM] + list(words),
                                        stdin=script, stdout=subprocess.PIPE, stderr=other_end,
                                        preexec_fn=hear_signals)
        with explorer:
            os.close(other_end)
            bar = b""
            while not re.search(shown, bar):
                bar += os.read(terminal, 4096)
            explorer.send_signal(number)
            # its bar may go on for a while, and a terminal that nobody reads is full after some lines
            reader = threading.Thread(target=read_all, args=(terminal,), daemon=True)
            reader.start()
            text = explorer.stdout.read()
        reader.join()
        os.close(terminal)
        return explorer.returncode, text

    def test_killed(self):
        """Where the explorer is killed its processes end too."""
        with open(os.path.join(TOP, "examples", "three_at_once.script"), "rb") as script:
            explorer = subprocess.Popen([sys.executable, os.path.join(TOOLS, "explore"), "--program", PROGRAM, "--most", "1000000",
                                         "--jobs", "3"], stdin=script, stdout=subprocess.PIPE)
        with explorer:
            children = []
            while len(children) < 3:
                time.sleep(0.05)
                children = [int(child) for child in content_of("/proc/%d/task/%d/children" % (explorer.pid, explorer.pid)).split()]
            explorer.kill()
        until = time.monotonic() + 60
        while any(os.path.exists("/proc/%d" % child) for child in children) and time.monotonic() < until:
            time.sleep(0.05)
        self.assertLess(time.monotonic(), until)

    def test_interrupt(self):
        """On Ctrl-C there are the results so far, on a terminal there was a bar, and the exit status is 130."""
        status, text = self.interrupted(
            signal.SIGINT, rb"\[#*\.*\] [1-9][0-9]{2} of at most 1000000 orders, [0-9]+ sets? of answers",
            "--most", "1000000", "--jobs", "2")
        self.assertEqual(status, 130)
        report = Report(text.decode())
        self.assertRegex(report.head, "^stopped after [0-9]+ orders?: ")
        self.assertTrue(report.answers)

    def test_interrupt_of_serial_orders(self):
        """On a signal while serial orders run there are the sets of those that have run."""
        status, text = self.interrupted(signal.SIGTERM, rb"[2-9] serial orders of ", "--jobs", "1")
        self.assertEqual(status, 130)
        report = Report(text.decode())
        self.assertRegex(report.head, "^stopped after 0 orders: [1-9][0-9]* sets? of answers, ")
        self.assertTrue(report.answers)
        self.assertIn(": none of the orders, but an order that was run before them", text.decode())

    def test_signal_at_any_time(self):
        """A part that is told to stop at any time leaves the file as it was, or has in it what it has found, whole."""
        draw, count = random.Random(7), int(os.environ.get("CATSYNC_SIGNALS", "8"))
        with tempfile.TemporaryDirectory() as folder:
            path, begun = os.path.join(folder, "part"), time.monotonic()
            self.assertEqual(self.stopped(path, None, None), (0, b""))
            whole, took = content_of(path), time.monotonic() - begun
            for _ in range(count):
                with open(path, "w", encoding="utf-8") as file:
                    file.write("old")
                number = draw.choice((signal.SIGTERM, signal.SIGINT))
                ended = self.stopped(path, draw.uniform(0, 1.1 * took), number)
                text = content_of(path)
                self.assertEqual(os.listdir(folder), ["part"])
                if text not in (b"old", whole):
                    self.assertEqual(ended, (130, b""))
                    self.assertRegex(call("explore", "--merge", path)[1].decode(),
                                     "^stopped after [0-9]+ orders? of 1 part, not to the end of 1: ")
                elif text == b"old" and CAN_WAIT:
                    self.assertIn(ended, ((130, b"explore: interrupted\n"), (130, b""), (-number, b"")))

    def stopped(self, path, seconds, number):
        """Exit status and standard error of a part of a search that writes a file, and is sent a signal after so long."""
        with open(os.path.join(TOP, "examples", "second_show.script"), "rb") as script:
            explorer = subprocess.Popen(
                [os.path.join(TOOLS, "explore"), "--program", PROGRAM, "--part", "1/1", "--out", path], stdin=script,
                stdout=subprocess.PIPE, stderr=subprocess.PIPE, preexec_fn=hear_signals)
        with explorer:
            if number is not None:
                time.sleep(seconds)
                explorer.send_signal(number)
            said = explorer.communicate()[1]
        return explorer.returncode, said

    def test_interrupt_of_a_part(self):
        """On Ctrl-C, and on a batch system's SIGTERM, a part prints what it has found, and the parts are merged as a search
        that isn't over."""
        for number in (signal.SIGINT, signal.SIGTERM, signal.SIGHUP):
            with tempfile.TemporaryDirectory() as folder:
                status, text = self.interrupted(number, rb"[1-9][0-9]* orders", "--part", "1/1", "--jobs", "2")
                self.assertEqual(status, 130)
                path = os.path.join(folder, "part")
                with open(path, "wb") as file:
                    file.write(text)
                self.assertFalse(json.loads(text.decode())["is_over"])
                self.assertRegex(call("explore", "--merge", path)[1].decode(),
                                 "^stopped after [0-9]+ orders? of 1 part, not to the end of 1: ")


if __name__ == "__main__":
    unittest.main()
