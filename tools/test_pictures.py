#!/usr/bin/env python3
"""Tests of tools/picture: python3 tools/test_pictures.py

The pictures are those of all outputs in examples/ and in tools/samples/; of the latter some have entries that no command
makes. What is expected is worked out from the lines alone, or by hand. The keys of a page are tried in a browser, if
there is one (chromium).
"""
import glob
import html.parser
import json
import os
import re
import shutil
import subprocess
import sys
import tempfile
import time
import unittest
import xml.etree.ElementTree as ElementTree

sys.dont_write_bytecode = sys.pycache_prefix is None
sys.path.insert(0, os.path.dirname(os.path.abspath(__file__)))

from testing import TOOLS, TOP, call, content_of

from catsync_tools.faults import Fault
from catsync_tools.layout import Span
from catsync_tools.matching import answer_can_be_of, check_script
from catsync_tools.messages import COLUMNS, NAMES, OIDS, Row, hash_of, messages_of
from catsync_tools.outputs import read_output
from catsync_tools.picture import picture_of, script_of
from catsync_tools.sources import read_source
from catsync_tools.steps import steps_of
from catsync_tools.story import story_of
from catsync_tools.why import plain, sentences_of

OUTPUTS = sorted(path for folder in (os.path.join(TOP, "examples"), os.path.join(TOOLS, "samples"))
                 for path in glob.glob(os.path.join(folder, "*.output")))
SVG = "{http://www.w3.org/2000/svg}"


def entry_lines(data):
    """The lines of the entries of an output."""
    return [line for line in data.decode().split("\n") if line.startswith("h ")]


def answer_lines(data):
    """The lines of the answers of an output."""
    return [line for line in data.decode().split("\n") if line.startswith("l ")]


def example(name):
    """The story of an example, or of a sample."""
    path = next(path for path in OUTPUTS if os.path.basename(path) == name + ".output")
    return story_of(read_output(content_of(path)))


# What a picture has to show, worked out from the lines alone.

def message_pairs(lines):
    """The publishes and fetches with a message in common, by their numbers."""
    log, position, pairs = [], {}, set()
    for number, line in enumerate(lines, 1):
        backend, words = line.split(" ")[1], line.split(" ")[3:]
        if words[0] == "start" or words == ["fetch", "reset"]:
            position[backend] = len(log)
        elif words[0] == "publish":
            log += [number] * int(words[1])
        elif words[0] == "fetch":
            taken = log[position[backend]:position[backend] + int(words[1])]
            position[backend] += int(words[1])
            pairs.update((publish, number) for publish in taken)
    return pairs


def refused(lines):
    """The numbers of the entries that were refused for another's lock or name."""
    return [number for number, line in enumerate(lines, 1)
            if line.split(" ")[3] == "clash" or (" lock " in line and " held " in line)]


def grants(lines):
    """How many locks were granted: those asked for, and one for each new relation."""
    return sum(line.endswith(" ok") + line.count("+class(") for line in lines)


def transactions(lines):
    """How many transactions there were: each begins with a backend's first entry that is neither its start nor its stop,
    and ends with the release of the command in which it began."""
    began, count = {}, 0
    for line in lines:
        _, backend, command, word = line.split(" ")[:4]
        if word in ("start", "stop"):
            continue
        if backend not in began:
            began[backend] = command
            count += 1
        if word == "release" and line.split(" ")[4] == began[backend]:
            del began[backend]
    return count


# What a picture shows.

def classes(element):
    """The classes of an element."""
    return element.get("class", "").split()


class Drawn:
    """A picture that was parsed, without its legend."""

    def __init__(self, text):
        self.root = ElementTree.fromstring(text)
        for legend in [child for child in self.root if "legend" in classes(child)]:
            self.root.remove(legend)

    def all(self, class_):
        """The elements of a class."""
        return [element for element in self.root.iter() if class_ in classes(element)]

    def shown(self, class_):
        """The texts of the entries or answers: the whole text, and the text as it is shown."""
        texts = []
        for group in self.all(class_):
            shown = "".join(next(text for text in group.iter(SVG + "text") if "line" in classes(text)).itertext())
            texts.append((group.find(SVG + "title").text.split("\n")[-1] if "cut" in classes(group) else shown, shown))
        return texts

    def numbers(self):
        """The numbers beside the entries."""
        return [int(text.text) for text in self.root.iter(SVG + "text") if "number" in classes(text)]


class Pictures(unittest.TestCase):
    """Pictures of all outputs."""

    def drawn(self, path, first=1, last=None):
        """The picture of an output, and its lines."""
        data = content_of(path)
        lines = entry_lines(data)
        return Drawn(picture_of(read_output(data), False, Span(first, last or len(lines)))), lines, answer_lines(data)

    def test_samples_have_all_events(self):
        """The outputs that are drawn have each kind of event."""
        kinds = {entry.event.kind for path in OUTPUTS for entry in read_output(content_of(path)).entries}
        self.assertEqual(sorted(kinds), sorted([
            "start", "look", "fetch", "fetch reset", "lock ok", "lock held", "unlock", "scan", "write", "clash row",
            "clash running", "visible", "publish", "release", "gone", "fail", "stop"]))

    def test_entries_and_answers(self):
        """Each entry has its number, its mark and its text once, in order; so has each answer its text."""
        for path in OUTPUTS:
            with self.subTest(path):
                drawn, lines, answers = self.drawn(path)
                self.assertEqual(drawn.numbers(), list(range(1, len(lines) + 1)))
                self.assertEqual([whole for whole, _ in drawn.shown("entry")], lines)
                self.assertEqual(sorted(whole for whole, _ in drawn.shown("answer")), sorted(answers))
                for whole, shown in drawn.shown("entry") + drawn.shown("answer"):
                    self.assertTrue(shown == whole or (shown.endswith(" ...") and whole.startswith(shown[:-4])))
                marks = {element.get("id") for element in drawn.root.find(SVG + "defs")}
                used = [use.get("href") for use in drawn.root.iter(SVG + "use")]
                self.assertEqual(len([use for entry in drawn.all("entry") for use in entry.iter(SVG + "use")]), len(lines))
                self.assertLessEqual(set(used), {"#" + mark for mark in marks})

    def test_text_is_nowhere_else(self):
        """No other text of a picture has an entry's line."""
        for path in OUTPUTS:
            with self.subTest(path):
                data = content_of(path)
                text = picture_of(read_output(data), False, Span(1, len(entry_lines(data))))
                found = [shown for element in ElementTree.fromstring(text).iter(SVG + "text")
                         for shown in ["".join(element.itertext())] if re.match("h [0-9]+ [0-9]+ ", shown)]
                self.assertEqual(len(found), len(entry_lines(data)))

    def test_arrows(self):
        """There is an arrow for each pair of a publish and a fetch, and for each refusal; and no other."""
        for path in OUTPUTS:
            with self.subTest(path):
                drawn, lines, _ = self.drawn(path)
                self.assertEqual(len(drawn.all("message")), len(message_pairs(lines)))
                self.assertEqual(len(drawn.all("refusal")), len(refused(lines)))
                titles = {tuple(int(number) for number in re.findall("entry ([0-9]+)", arrow.find(SVG + "title").text))
                          for arrow in drawn.all("message")}
                self.assertEqual(titles, message_pairs(lines))

    def test_bars(self):
        """There is a bar for each transaction, for each lock, for each descriptor of which a scan was made, and for each other
        scan."""
        for path in OUTPUTS:
            with self.subTest(path):
                drawn, lines, _ = self.drawn(path)
                self.assertEqual(len(drawn.all("transaction")), transactions(lines))
                self.assertEqual(len(drawn.all("lock")), grants(lines))
                self.assertEqual(len(drawn.all("build")), sum(" scan class " in line for line in lines))
                self.assertEqual(len(drawn.all("kept")), len(re.findall(
                    " scan (?:class|relname|reloid|attname|attlist) ", " ".join(lines))))

    def test_marks_of_what_serves(self):
        """There is a mark for each command that is served, in the row by which it had what it needed."""
        for path in OUTPUTS:
            with self.subTest(path):
                drawn, _, _ = self.drawn(path)
                served = [served for kept in story_of(read_output(content_of(path))).kept for served in kept.serves]
                self.assertEqual(len(drawn.all("serves")), len(served))
                rows = {row.get("id"): float(row.get("y")) + 9 for row in drawn.all("row")}
                self.assertEqual(sorted(float(mark.get("cy")) for mark in drawn.all("serves")),
                                 sorted(rows["row%d" % one.entry] for one in served))

    def test_part_of_a_history(self):
        """Of a part the entries of the part are drawn, and the arrows with an end in it."""
        for path in OUTPUTS:
            with self.subTest(path):
                lines = entry_lines(content_of(path))
                first, last = len(lines) // 3 + 1, 2 * len(lines) // 3 + 1
                drawn, _, _ = self.drawn(path, first, last)
                self.assertEqual([whole for whole, _ in drawn.shown("entry")], lines[first - 1:last])
                pairs = [pair for pair in message_pairs(lines) if any(first <= end <= last for end in pair)]
                self.assertEqual(len(drawn.all("message")), len(pairs))
                self.assertEqual(len(drawn.all("refusal")), sum(first <= number <= last for number in refused(lines)))

    def test_width(self):
        """A picture of few lanes is no wider than is wanted, and no text and no item of the legend lies beyond its edge."""
        for path in OUTPUTS:
            data = content_of(path)
            for width in (740, 1340):
                with self.subTest((path, width)):
                    output = read_output(data)
                    root = ElementTree.fromstring(picture_of(output, False, Span(1, len(output.entries)), width=width))
                    if len({entry.backend for entry in output.entries}) < 3:
                        self.assertLessEqual(float(root.get("width")), width)
                    for text in root.iter(SVG + "text"):
                        if "transform" in text.attrib:
                            continue
                        for part in text.iter():
                            if part.text and part.get("x") and not text.get("text-anchor"):
                                length = len(part.text) * (7.2 if "line" in classes(text) else 6)
                                self.assertLessEqual(float(part.get("x")) + length, float(root.get("width")) + 1)

    def test_labels(self):
        """Along a bar that is wide enough there is a label again and again, in its hatched part too where that is long."""
        for path in OUTPUTS:
            with self.subTest(path):
                drawn, _, _ = self.drawn(path)
                parts = [part for bar in ("lock", "part", "kept-current", "kept-outdated") for part in drawn.all(bar)
                         if 9 <= float(part.get("width")) <= 12]
                labels = [(float(label.get("x")), float(label.get("y"))) for label in drawn.all("label")]
                for part in parts:
                    x, top, height = (float(part.get(name)) for name in ("x", "y", "height"))
                    own = sorted(y for at, y in labels if x <= at <= x + 12 and top <= y <= top + height)
                    if height > 300:
                        ends = [top] + own + [top + height]
                        self.assertTrue(own)
                        self.assertLess(max(last - first for first, last in zip(ends, ends[1:])), 800)

    def test_label_of_what_is_hatched(self):
        """A lock that isn't clear for long is labelled there, as is what is kept while it is out of date."""
        for name, class_, texts in (("granted_not_clear", "lock", ["as 16384 t"]),
                                    ("columns_protected", "kept", ["descriptor 16384 t"])):
            with self.subTest(name):
                drawn, _, _ = self.drawn(os.path.join(TOP, "examples", name + ".output"))
                self.assertEqual([label.text for label in drawn.all("halo")], texts)

    def test_pictures_of_the_readme(self):
        """The pictures that README and the pages show are those of their examples."""
        for more, script, given, shown in (
                ("", "crates/catsync/stdin", "crates/catsync/stdout", "docs/first_run.svg"),
                ("", "examples/two_backends.script", "examples/two_backends.output", "docs/two_backends.svg"),
                ("--brief --from 66 ", "examples/stale_in_the_server.script", "examples/stale_in_the_server.output",
                 "docs/stale_in_the_server.svg")):
            with self.subTest(shown):
                words = more.split() + ["--script", os.path.join(TOP, script)]
                status, drawn, _ = call("picture", *words, given=content_of(os.path.join(TOP, given)))
                self.assertEqual(status, 0)
                self.assertEqual(drawn, content_of(os.path.join(TOP, shown)),
                                 "make it anew: tools/picture %s--script %s < %s > %s" % (more, script, given, shown))


class Brief(unittest.TestCase):
    """Brief pictures, and pictures with commands."""

    def test_rows(self):
        """Each entry is in one row, in order; a row is of one command; and half of the rows are enough."""
        entries = rows = 0
        for path in OUTPUTS:
            with self.subTest(path):
                output = read_output(content_of(path))
                steps = steps_of(output.entries, True)
                self.assertEqual([entry for step in steps for entry in step.entries], output.entries)
                for step in steps:
                    self.assertEqual(len({(entry.backend, entry.command) for entry in step.entries}), 1)
                    others = [entry for entry in step.entries if entry.event.kind != "look"]
                    self.assertTrue(len(others) <= 1 or all(entry.event.kind == "scan" for entry in others))
                entries, rows = entries + len(output.entries), rows + len(steps)
        self.assertLess(rows, 0.55 * entries)

    def test_by_hand(self):
        """The rows of an example."""
        path = os.path.join(TOP, "examples", "columns_protected.output")
        steps = steps_of(read_output(content_of(path)).entries, True)
        self.assertEqual([(step.first, step.last) for step in steps][:20], [
            (1, 1), (2, 2), (3, 4), (5, 5), (6, 6), (7, 7), (8, 8), (9, 10), (11, 12), (13, 14), (15, 26), (27, 28), (29, 30),
            (31, 32), (33, 44), (45, 46), (47, 47), (48, 48), (49, 49), (50, 50)])
        self.assertEqual([step.text for step in steps][9:12], [
            "h 1 3 lock 16384 as ok", "h 1 3 scan class, attribute, attrdef, constraint, index, trigger 16384", "h 2 1 fetch 5"])

    def test_same_bars(self):
        """A brief picture has the same bars and arrows, and its rows have the texts of steps."""
        for path in OUTPUTS:
            with self.subTest(path):
                output = read_output(content_of(path))
                span = Span(1, len(output.entries))
                long, brief = (Drawn(picture_of(output, False, span, brief=brief)) for brief in (False, True))
                for class_ in ("transaction", "lock", "kept", "message", "refusal", "answer", "serves"):
                    self.assertEqual(len(long.all(class_)), len(brief.all(class_)), class_)
                self.assertEqual([whole for whole, _ in brief.shown("entry")],
                                 [step.text for step in steps_of(output.entries, True)])

    def test_commands(self):
        """Each command that has an entry or an answer stands once above them, as it is written."""
        for path in OUTPUTS:
            script = path[:-len(".output")] + ".script"
            if not os.path.exists(script):
                continue
            with self.subTest(script):
                output = read_output(content_of(path))
                commands = script_of(script, output)
                drawn = Drawn(picture_of(output, False, Span(1, len(output.entries)), commands))
                begun = {(one.backend, one.command) for one in output.entries + output.answers}
                self.assertEqual(sorted(whole for whole, _ in drawn.shown("command")), sorted(
                    "%d: %s" % (backend, text) for (backend, number), text in commands.items() if (backend, number) in begun))

    def test_order_of_commands(self):
        """A command stands above its first entry, or, where it has none, above its answer."""
        path = os.path.join(TOP, "examples", "failed_block.output")
        output = read_output(content_of(path))
        drawn = Drawn(picture_of(output, False, Span(1, 11), script_of(path[:-7] + ".script", output)))
        texts = [(float(next(text.iter(SVG + "tspan")).get("y")), "".join(text.itertext()))
                 for text in drawn.root.iter(SVG + "text") if "line" in classes(text)]
        self.assertEqual([text for _, text in sorted(texts)][:16], [
            "h 1 0 start", "1: begin", "h 1 1 look no", "l 1 1 ok", "1: create table t (a int4)",
            "h 1 2 write 1 +class(16384,t,r,-) +att(16384,1,a,int4,-1,l)", "l 1 2 ok", "1: create table t (b text)",
            "h 1 3 clash t row 16384", "h 1 3 gone 1", "h 1 3 release 1", "l 1 3 error 42P07 relation t already exists",
            "1: show t", "l 1 4 error 25P02 the transaction block has failed", "1: commit", "l 1 5 rolled back"])


class Stories(unittest.TestCase):
    """What a history comes to."""

    def test_rows_of_scans(self):
        """Each scan gives as many rows as its entry says."""
        for path in OUTPUTS:
            with self.subTest(path):
                for facts in story_of(read_output(content_of(path))).facts:
                    if facts.entry.event.kind == "scan":
                        self.assertEqual(len(facts.rows), facts.entry.event.parts["rows"], facts.entry.line)

    def test_looks(self):
        """A look says yes where messages wait for its backend, and no where none does."""
        for path in OUTPUTS:
            with self.subTest(path):
                for facts in story_of(read_output(content_of(path))).facts:
                    if facts.entry.event.kind == "look":
                        self.assertEqual(facts.entry.event.parts["answer"] == "yes", facts.left > 0, facts.entry.line)

    def test_publishes(self):
        """All messages of a commit are sent before its release."""
        for path in OUTPUTS:
            with self.subTest(path):
                for transaction in story_of(read_output(content_of(path))).transactions:
                    if transaction.visible and transaction.last:
                        self.assertEqual(transaction.published, len(transaction.messages))

    # Of what is kept: backend, first scan, last scan, out of date from, end, why it ends, and entries where it serves.
    KEPT = {
        "columns_protected": [
            (1, 12, 12, None, 69, "the stop", [53, 55, 67]), (1, 16, 26, 48, 55, "a message", []),
            (2, 30, 30, None, 52, "the stop", []), (2, 34, 44, None, 47, "an own write", []),
            (2, 46, 46, None, 47, "an own write", []), (1, 57, 67, None, 69, "the stop", [67])],
        "second_show": [
            (1, 11, 11, None, 27, "the stop", []), (1, 15, 25, None, 27, "the stop", []), (2, 31, 31, None, 51, "the stop", [48]),
            (2, 35, 45, None, 51, "the stop", [49])],
        "serves_until_fetched": [
            (1, 5, 5, None, 25, "a message", [19]), (1, 9, 19, None, 25, "a message", [19]), (1, 27, 27, None, 43, "the stop", []),
            (1, 31, 41, None, 43, "the stop", [])],
        "rolled_back": [
            (1, 5, 5, None, 20, "an own write taken back", []), (1, 9, 19, None, 20, "an own write taken back", []),
            (2, 24, 24, 35, 41, "a message", []), (1, 30, 30, None, 34, "an own write", []), (2, 43, 43, None, 59, "the stop", []),
            (2, 47, 57, None, 59, "the stop", [])],
        "reset_inside_build": [
            (2, 11, 11, None, 27, "a reset", []), (2, 15, None, None, 27, "a reset", []), (2, 29, 39, None, 41, "the stop", [])],
        "build_starts_over": [
            (2, 11, 11, None, 59, "the stop", []), (2, 15, None, None, 45, "a message", []), (1, 20, 20, None, 42, "the stop", []),
            (1, 24, 34, None, 37, "an own write", []), (1, 36, 36, None, 37, "an own write", []),
            (2, 47, 57, None, 59, "the stop", [])],
        "early_end": [(2, 12, 12, None, None, "", []), (2, 16, None, None, None, "", [])],
        "negative_entry": [
            (1, 4, 4, 13, 22, "a message", [12, 16]), (1, 24, 24, None, 40, "the stop", []), (1, 28, 38, None, 40, "the stop", [])],
        "one_hash": [
            (2, 18, 18, None, 61, "a message", []), (2, 22, 32, None, 71, "the stop", [65]), (2, 36, 36, None, 71, "the stop", [68]),
            (2, 40, 50, None, 71, "the stop", [69]), (2, 63, 63, None, 71, "the stop", [])],
        "list_of_columns": [
            (2, 11, 11, None, 100, "the stop", [18, 24, 54, 60, 89, 95]), (2, 15, 15, 48, 53, "a message", [26]),
            (2, 21, 21, None, 100, "the stop", [62]), (1, 30, 30, None, 86, "the stop", [65]),
            (1, 34, 44, None, 47, "an own write", []), (1, 46, 46, None, 47, "an own write", []),
            (2, 57, 57, 82, 88, "a message", []), (1, 68, 78, None, 81, "an own write", []),
            (1, 80, 80, None, 81, "an own write", []), (2, 92, 92, None, 100, "the stop", []),
            (2, 98, 98, None, 100, "the stop", [])],
        "regclass": [
            (1, 4, 4, None, 7, "an own write", []), (1, 15, 15, None, 29, "the stop", [28]),
            (1, 20, 20, None, 21, "an own write taken back", []), (1, 25, 25, None, 29, "the stop", [])],
        "names": [
            (2, 4, 4, None, 55, "the stop", [17]), (2, 21, 21, None, 55, "the stop", [28, 34, 36, 40]),
            (2, 25, 25, None, 55, "the stop", [33]), (2, 31, 31, None, 55, "the stop", [31]),
            (2, 33, 33, None, 55, "the stop", [33]), (2, 43, 53, None, 55, "the stop", []),
            (1, 58, 58, None, 80, "the stop", []), (1, 62, 72, None, 75, "an own write", []),
            (1, 74, 74, None, 75, "an own write", [])],
    }

    def test_kept(self):
        """What is kept from when to when, and where it serves: worked out by hand."""
        for name, wanted in self.KEPT.items():
            with self.subTest(name):
                found = [(kept.backend, kept.first, kept.built, kept.outdated, kept.last, kept.cause,
                          [served.entry for served in kept.serves]) for kept in example(name).kept]
                self.assertEqual(found, wanted)

    def test_builds_that_start_over(self):
        """The builds of a sample: three are given up for a message, and five come to their end."""
        builds = [(kept.backend, kept.first, kept.built or kept.last, kept.outcome)
                  for kept in example("started_over").kept if kept.is_descriptor]
        self.assertEqual([build[3] for build in builds].count("started over"), 3)
        self.assertIn((2, 16, 48, "started over"), builds)
        self.assertIn((2, 50, 86, "started over"), builds)
        self.assertIn((2, 88, 98, "finished"), builds)

    def test_messages(self):
        """The messages of a change: one for each cache, two where the hash of a key changes, and one for the descriptor."""
        self.assertEqual(hash_of(NAMES, "an"), hash_of(NAMES, "c0"))
        self.assertEqual(hash_of(NAMES, "an"), 4078)
        old, new = Row("class", ("16384", "t", "r", "-")), Row("class", ("16384", "v", "r", "-"))
        targets = [[message.target for message in part] for part in messages_of(old, new)]
        self.assertEqual(targets, [[(NAMES, hash_of(NAMES, "t")), (NAMES, hash_of(NAMES, "v")),
                                    (OIDS, hash_of(OIDS, 16384))], [(0, 16384)]])
        column = Row("att", ("16384", "1", "a", "int4", "-1", "l"))
        self.assertEqual([message.target for message in messages_of(column, column)[0]],
                         [(COLUMNS, hash_of(COLUMNS, 16384, "a"))])


class Sentences(unittest.TestCase):
    """What entries do and why, in words."""

    SAID = {
        ("columns_protected", 14): "Backend 1 looks for messages after the grant at 13, and none waits. With that the lock of "
                                   "13 is clear.",
        ("columns_protected", 26): "Backend 1 scans pg_trigger for the triggers of t, scan 6 of 6 for its descriptor: 0 rows. The "
                                   "descriptor is built, and kept from here on.",
        ("columns_protected", 47): "Backend 2 writes as transaction 2: it replaces 1 row of pg_attribute. Its commit has to send "
                                   "2 messages, for the column a of t and the descriptor of t. The descriptor of t (built at 34 "
                                   "to 44) and the column a of t (read at 46) are stale.",
        ("columns_protected", 48): "Backend 2 commits transaction 2: from here on all others see what it wrote at 47. Its 2 "
                                   "messages aren't sent yet, so nothing tells backend 1 that the descriptor of t, built at 16 "
                                   "to 26, is out of date.",
        ("columns_protected", 53): "Backend 1 is granted RowShare on t, on which no other backend has a lock. The name t, read at "
                                   "12, serves command 4 without a scan.",
        ("columns_protected", 55): "Backend 1 fetches the 2 messages of 49 and 50: the descriptor of t, built at 16 to 26, is "
                                   "stale. With that the lock of 53 is clear. The name t, read at 12, serves command 5 without a "
                                   "scan.",
        ("columns_protected", 57): "Backend 1 scans pg_class for t, scan 1 of 6 for its descriptor: 1 row. The last one, built "
                                   "at 16 to 26, is stale since 55.",
        ("sleepers", 103): "Backend 3 looks the name t up in pg_class: it is relation 16384. The name t, read at 30, is stale "
                           "since 100. It asks for no lock on that, as it holds AccessShare since 31, clear.",
        ("negative_entry", 5): "Backend 1 looks for messages before it answers that no relation has the name orders, and none "
                               "waits.",
        ("negative_entry", 14): "Backend 1 looks for messages at the start of a transaction, and none waits. The absence of the "
                                "name orders, read at 4, is out of date since 13: transaction 1 has yet to send its messages.",
        ("negative_entry", 15): "Backend 1 looks for messages before it answers that no relation has the name orders, and none "
                                "waits. The absence of the name orders, read at 4, is out of date since 13: transaction 1 has "
                                "yet to send its messages.",
        ("negative_entry", 16): "Backend 1 ends its transaction, which wrote nothing; it has no lock to release. The absence of "
                                "the name orders, read at 4, serves command 3 without a scan, out of date as it is since 13.",
        ("negative_entry", 24): "Backend 1 looks the name orders up in pg_class: it is relation 16384. The absence of the name "
                                "orders, read at 4, is stale since 22.",
        ("list_of_columns", 57): "Backend 2 scans pg_attribute for all columns of t by name: 2 rows. The list of columns of t, "
                                 "read at 15, is stale since 53.",
        ("regclass", 28): "Backend 1 ends its transaction, which wrote nothing; it has no lock to release. The oid 16384, read "
                          "at 15, serves command 9 without a scan.",
        ("two_backends", 9): "Backend 2 is refused AccessShare on t: backend 1 holds AccessExclusive since 3, and the two "
                             "conflict.",
        ("two_backends", 13): "Backend 1 ends its committed transaction 1, and releases AccessExclusive on t (since 3).",
        ("two_creators", 6): "Backend 2 is refused its write: transaction 1 of backend 1, which still runs, has the name t in "
                             "use since 3.",
        ("two_creators", 19): "Backend 1 is refused its write: t (16385) has the name t, since 11.",
        ("absent_name", 14): "Backend 3 looks the name orders up in pg_class: no relation has it, as what backend 1 wrote at 10 "
                             "isn't visible yet.",
        ("open_relation", 59): "Backend 2 scans pg_class for orders, scan 1 of 6 for its descriptor: 1 row. The last one, built at "
                               "22 to 32, is stale since 57, but in use: this one is built in its place.",
        ("rebuilds_nested", 105): "Backend 2 scans pg_class for u, scan 1 of 6 for its descriptor: 1 row. The last one, built at 38 "
                                  "to 48, is stale since 103, but in use: this one is built in its place. The build of t, which "
                                  "began at 76, waits for it.",
        ("stale_in_the_server", 102): "Backend 2 fetches the 2 messages of 98 and 99: the build of t, which began at 75, starts "
                                     "over.",
        ("reset_inside_build", 27): "Backend 2 has lost messages: of the 70 that waited the queue keeps only the last ones. So it "
                                    "resets: it drops all that it keeps, and is past all messages. The name t, read at 11, is "
                                    "stale. The build of t, which began at 15, starts over.",
        ("messages_in_parts", 14): "Backend 2 looks for messages again, since 13 took as many as a fetch can: 44 messages wait, "
                                   "of 7, 8 and 9.",
        ("serves_until_fetched", 25): "Backend 1 fetches its own 4 messages of 21 and 22: the name t (read at 5) and the "
                                      "descriptor of t (built at 9 to 19) are stale.",
        ("key_to_an_open_table", 57): "Backend 1 scans pg_class for customers, scan 1 of 6 for its descriptor: 1 row. The last "
                                      "one, built at 22 to 32, is stale since 55, but in use: this one is built in its place.",
        ("key_to_an_open_table", 71): "Backend 1 scans pg_class for customers, scan 1 of 6 for its descriptor: 1 row. The last "
                                      "one, built at 57 to 67, is stale since 68, but in use: this one is built in its place.",
        ("index_renamed_by_another", 65): "Backend 2 scans pg_index for the index orders_id, scan 2 of 2 for its descriptor: 1 "
                                          "row. The descriptor is built, and kept from here on.",
        ("index_beside_readers", 28): "Backend 1 writes as transaction 2: it adds 1 row to pg_class and 1 row to pg_index. Its commit "
                                      "has to send 4 messages, for the name by_id, the oid 16385, the descriptor of by_id and the "
                                      "descriptor of orders. The descriptor of orders, built at 15 to 25, is stale. It holds "
                                      "AccessExclusive on by_id, its new relation, and that is clear at once.",
        ("drops_that_cross", 48): "Backend 1 is refused AccessExclusive on orders: backend 2 holds AccessExclusive since 42, and the "
                                  "two conflict.",
        ("further", 122): "Backend 1 looks for messages after the grant at 121, and none waits. With that the lock of 121 is clear. "
                          "The descriptor of t, built at 96 to 106, serves command 20 without a scan.",
        ("further", 124): "Backend 1 looks for messages after the grant at 123, and none waits. With that the lock of 123 is clear. "
                          "The column a of t, read at 52, serves command 20 without a scan. The column a of u, read at 54, serves "
                          "command 20 without a scan.",
        ("further", 166): "Backend 1 looks for messages after the grant at 165, and none waits. With that the lock of 165 is clear.",
        ("further", 227): "Backend 1 looks for messages after the grant at 226, and none waits. With that the lock of 226 is clear. "
                          "The descriptor of t, built at 213 to 223, serves command 28 without a scan. The column a of t, read at "
                          "52, serves command 28 without a scan.",
        ("nothing_to_find", 14): "Backend 3 joins the queue of messages, past all that were published before: it has read "
                                 "nothing that they could be for.",
    }

    def test_by_hand(self):
        """Sentences of examples."""
        for (name, number), wanted in self.SAID.items():
            with self.subTest((name, number)):
                self.assertEqual(plain(sentences_of(example(name))[number]), wanted)

    def test_places(self):
        """Each entry has sentences; each number in braces is an entry of the history; a sentence has nothing unfinished."""
        for path in OUTPUTS:
            with self.subTest(path):
                story = story_of(read_output(content_of(path)))
                for facts, text in zip(story.facts, sentences_of(story).values()):
                    self.assertTrue(text.startswith("Backend %d " % facts.entry.backend) and text.endswith("."), text)
                    self.assertNotRegex(text, r"None|\bnothing to\b|  |\.\.|,\.")
                    for number in re.findall(r"\{([0-9]+)\}", text):
                        self.assertTrue(1 <= int(number) <= len(story.entries), text)


# What holds after an entry, worked out from the lines alone.

def locks_after(lines, number):
    """The locks that are held after an entry, as backends with modes and relations."""
    held = []
    for line in lines[:number]:
        _, backend, command, *words = line.split(" ")
        place = (int(backend), int(command))
        if words[0] == "lock" and words[3] == "ok":
            held.append(place + (words[2],))
        elif words[0] == "write":
            held += [place + ("ax",)] * line.count("+class(")
        elif words[0] == "unlock":
            held.remove(next(one for one in held if one[0] == place[0] and one[2] == words[2]))
        elif words[0] == "release":
            held = [one for one in held if one[0] != place[0] or one[1] < int(words[1])]
    return sorted((backend, mode) for backend, _, mode in held)


def waiting_after(lines, number):
    """How many messages wait for each backend after an entry."""
    length, place = 0, {}
    for line in lines[:number]:
        _, backend, _, *words = line.split(" ")
        if words[0] == "publish":
            length += int(words[1])
        elif words[0] == "start" or words == ["fetch", "reset"]:
            place[backend] = length
        elif words[0] == "fetch":
            place[backend] += int(words[1])
    return {backend: length - at for backend, at in place.items()}


def data_of(page):
    """The data of a page."""
    return json.loads(re.search(r'<script type="application/json" id="data">(.*?)</script>', page, re.DOTALL).group(1))


def value_at(pairs, number):
    """The last value of pairs of an entry and a value."""
    return [0] + [value for entry, value in pairs if entry <= number]


class Pages(unittest.TestCase):
    """Pages to step through."""

    MODES = {"AccessShare": "as", "RowShare": "rs", "RowExclusive": "rx", "ShareUpdateExclusive": "su", "Share": "sh",
             "ShareRowExclusive": "sr", "Exclusive": "ex", "AccessExclusive": "ax"}

    def pages(self):
        """The pages of all outputs, with their lines."""
        for path in OUTPUTS:
            lines = entry_lines(content_of(path))
            yield path, picture_of(read_output(content_of(path)), True, Span(1, len(lines))), lines

    def test_alone(self):
        """A page is well formed and needs nothing else."""
        for path, page, lines in self.pages():
            with self.subTest(path):
                html.parser.HTMLParser().feed(page)
                self.assertNotRegex(page.replace("http://www.w3.org/2000/svg", ""), r"https?:|<link|src=|@import|url\((?!#)")
                self.assertEqual([entry[1] for entry in data_of(page)["entries"]], lines)
                self.assertEqual(len(re.findall('class="row"', page)), len(lines))

    def test_locks(self):
        """After each entry the locks are those that the lines give."""
        for path, page, lines in self.pages():
            with self.subTest(path):
                things = data_of(page)["things"]
                for number in range(1, len(lines) + 1):
                    held = sorted((thing[0], self.MODES[thing[4].split(" ")[0]]) for thing in things if thing[1] == 2
                                  and thing[2] <= number and (thing[3] is None or number < thing[3]))
                    self.assertEqual(held, locks_after(lines, number))

    def test_waiting(self):
        """After each entry as many messages wait as the lines give."""
        for path, page, lines in self.pages():
            with self.subTest(path):
                data = data_of(page)
                for number in range(1, len(lines) + 1):
                    length = value_at(data["lengths"], number)[-1]
                    waits = {backend: length - value_at(pairs, number)[-1] for backend, pairs in data["places"].items()
                             if pairs[0][0] <= number}
                    self.assertEqual(waits, waiting_after(lines, number))
                self.assertEqual(len(data["log"]), value_at(data["lengths"], len(lines))[-1])

    def test_part(self):
        """The page of a part has the state that the whole one has there."""
        for path, page, lines in self.pages():
            with self.subTest(path):
                first, last = len(lines) // 3 + 1, 2 * len(lines) // 3 + 1
                part = data_of(picture_of(read_output(content_of(path)), True, Span(first, last)))
                for number in range(first, last + 1):
                    states = [[thing for thing in data["things"] if thing[2] <= number and
                               (thing[3] is None or number < thing[3])] for data in (part, data_of(page))]
                    self.assertEqual(states[0], states[1])
                self.assertEqual(part["entries"], data_of(page)["entries"][first - 1:last])

    def test_kept(self):
        """What a backend keeps, in words, before and after it is out of date, and once it is told."""
        path = os.path.join(TOP, "examples", "columns_protected.output")
        output = read_output(content_of(path))
        things = data_of(picture_of(output, True, Span(1, 69), script_of(path[:-7] + ".script", output)))["things"]
        found = [(thing[1], plain(thing[4])) for thing in things if thing[0] == 1 and thing[2] <= 54 < (thing[3] or 99)]
        self.assertEqual(found, [
            (0, "lock table t in row share mode"), (1, "since 9"), (2, "AccessShare on t since 13, clear since 14"),
            (2, "RowShare on t since 53, not clear yet"), (3, "name t, read at 12"),
            (3, "descriptor of t, built at 16 to 26, out of date since 48")])
        self.assertEqual([thing[2:4] for thing in things if thing[0] == 1 and thing[1] == 3],
                         [[12, 69], [16, 26], [26, 48], [48, 55], [57, 67], [67, 69]])

    def test_values(self):
        """What is cached of a relation is what `show` answers of it, each field read at the entry that the answer names."""
        compared = 0
        for path, page, lines in self.pages():
            data, ends = data_of(page), story_of(read_output(content_of(path))).answers
            for number, answers in ends.items():
                for answer in (answer for answer in answers if re.match("(table|index) [0-9]+; ", answer.text)):
                    fields = dict(part.split(" ", 1) for part in answer.text.split("; ")[1:])
                    held = values_at(data, answer.backend, number, "descriptor of ")
                    with self.subTest("%s: %s" % (path, answer.line)):
                        own = [found for found in held if set(found) == set(fields) and all(
                            fields[field] in (value, "%s as of %d" % (value, entry)) for field, (entry, value, _) in found.items())]
                        self.assertTrue(own, held)
                    compared += 1
        self.assertGreater(compared, 30)

    def test_true(self):
        """Beside what is stale stands what is true at the chosen entry, as often as that changes."""
        data = data_of(next(page for path, page, _ in self.pages() if path.endswith("columns_protected.output")))
        seen = [values_at(data, 1, number, "descriptor of ")[0]["statistics"] for number in (26, 47, 48, 54)]
        self.assertEqual(seen, [(18, "1:-1 2:-1", None)] * 2 + [(18, "1:-1 2:-1", "1:100 2:-1")] * 2)
        names = [values_at(data, 1, number, "name t")[0] for number in (12, 53)]
        self.assertEqual(names, [{"row": (12, "class(16384,t,r,-)", None)}] * 2)


def values_at(data, backend, number, beginning):
    """What a page shows of the things that a backend keeps at an entry: by field the entry of its scan, its value, and what is
    true then, if that is something else."""
    found = []
    for thing in data["things"]:
        if thing[:2] == [backend, 3] and thing[4].startswith(beginning) and thing[2] <= number < (thing[3] or number + 1):
            read, true = data["kept"][str(thing[5])]
            now = {field: value for entry, field, value in true if entry <= number}
            found.append({field: (entry, value, now[field] if now.get(field, value) != value else None)
                          for entry, field, value in read if entry <= number})
    return found


PRESSED = """<script>
const seen = [];
function press(key, shiftKey) {
  document.dispatchEvent(new KeyboardEvent('keydown', {key, shiftKey: Boolean(shiftKey), bubbles: true}));
  seen.push(document.body.dataset.entry);
}
seen.push(document.body.dataset.entry);
for (const key of ['ArrowDown', 'j', 'ArrowRight', 'ArrowUp', 'k', 'ArrowLeft', 'k', 'PageDown', 'PageUp', 'End', 'j', 'Home'])
  press(key);
press('J', true);
press('ArrowUp', true);
document.getElementById('entry53').dispatchEvent(new MouseEvent('click', {bubbles: true}));
seen.push(document.body.dataset.entry);
const shown = [...document.querySelectorAll('#state .backend')].map(box => box.innerText.replace(/\\s+/g, ' ')).join(' | ');
document.title = seen.join(' ') + ' / ' + document.querySelector('#entry p').innerText + ' / ' + shown;
</script></body>"""


ROOM = """<script>
const rows = document.getElementById('rows').firstElementChild.nextElementSibling, long = document.querySelector('text[data-text]');
document.title = [picture.clientWidth, picture.scrollWidth, rows.clientWidth, long.children[0].textContent.length,
                  [...document.querySelectorAll('text.line')].every(text => text.getBBox().x + text.getBBox().width <= rows.clientWidth),
                  [...long.children].map(part => part.textContent).join('') === long.dataset.text].join(' ');
</script></body>"""


SIGHT = """<script>
const edge = what => Math.round(Math.max(...[...document.querySelectorAll(what)].map(one => one.getBoundingClientRect().right)));
const left = Math.round(Math.min(...[...document.querySelectorAll('text.line')].map(one => one.getBoundingClientRect().left)));
select(rowOf(data.entries.length - 20));
const count = () => document.querySelectorAll('#state .value').length, before = count();
for (const head of document.querySelectorAll('#state h2')) head.dispatchEvent(new MouseEvent('click', {bubbles: true}));
document.title = [picture.clientWidth, picture.scrollWidth, edge('#rows use'), left, before, count()].join(' ');
</script></body>"""


@unittest.skipUnless(shutil.which("chromium"), "no browser (chromium)")
class Browser(unittest.TestCase):
    """A page in a browser."""

    def title(self, name, script, size):
        """The title that a script gives to the page of an example, in a window of this size."""
        path = next(path for path in OUTPUTS if os.path.basename(path) == name + ".output")
        output, source = read_output(content_of(path)), path[:-7] + ".script"
        commands = script_of(source, output) if os.path.exists(source) else None
        page = picture_of(output, True, Span(1, len(output.entries)), commands)
        with tempfile.TemporaryDirectory() as folder:
            with open(os.path.join(folder, "page.html"), "w", encoding="utf-8") as file:
                file.write(page.replace("</body>", script))
            done = subprocess.run(
                ["chromium", "--headless", "--no-sandbox", "--disable-gpu", "--user-data-dir=" + os.path.join(folder, "data"),
                 "--window-size=" + size, "--dump-dom", "file://" + os.path.join(folder, "page.html")],
                stdout=subprocess.PIPE, stderr=subprocess.DEVNULL, timeout=120)
        return html.unescape(re.search("<title>(.*?)</title>", done.stdout.decode(), re.DOTALL).group(1))

    def test_width(self):
        """The rows and their texts fill the window, with more in a line where it is wider; a narrow one is scrolled."""
        longest = 0
        for width, is_narrow in ((1000, True), (1300, False), (1500, False), (2000, False)):
            with self.subTest(width):
                room, all_, rows, first, is_within, is_whole = self.title("sleepers", ROOM, "%d,800" % width).split()
                self.assertEqual((int(all_) > int(room), is_within), (is_narrow, "true"))
                self.assertEqual(rows, all_)
                if not is_narrow:
                    self.assertGreater(int(first), longest)
                    longest = int(first)
        self.assertEqual(self.title("granted_not_clear", ROOM, "1300,800").split()[-1], "false")
        self.assertEqual(self.title("granted_not_clear", ROOM, "2400,800").split()[-1], "true")

    def test_keys(self):
        """Each key goes where it says; a click selects; and the panel shows the entry and what holds after it."""
        title = self.title("columns_protected", PRESSED, "1280,800")
        seen, sentence, shown = title.split(" / ")
        self.assertEqual(seen.split(), "1 2 3 4 3 2 1 1 11 1 69 69 1 27 1 53".split())
        self.assertTrue(sentence.endswith("The name t, read at 12, serves command 4 without a scan."), sentence)
        self.assertEqual(shown, "backend 1 command lock table t in row share mode transaction since 9 locks AccessShare on t "
                         "since 13, clear since 14 RowShare on t since 53, not clear yet waits 2, for t keeps name t, read at 12 "
                         "row class(16384,t,r,-) descriptor of t, built at 16 to 26, out of date since 48 statistics 1:-1 2:-1 "
                         "now 1:100 2:-1 name t; columns a:int4 b:text; no fillfactor, defaults, constraints, referenced, "
                         "indexes, triggers | backend 2 has stopped")

    def test_eight_backends(self):
        """With eight backends all lanes and the beginning of each text are in sight, in a window of a laptop and in a narrow
        one; the boxes of others show what is stale alone, until one is opened."""
        for size in ("1400,800", "800,800"):
            with self.subTest(size):
                room, all_, lane, text, shown, opened = self.title("eight_backends", SIGHT, size).split()
                self.assertEqual(all_, room)
                self.assertLess(int(lane), int(text))
                self.assertLess(int(text), int(room) - 48 * 7)
                self.assertLess(int(shown), int(opened))


HEAD = "h 1 0 start\nh 1 1 look no\n"
FAULTY_OUTPUTS = (
    ("", "line 1: no output of catsync, which begins with an entry: the input is empty"),
    ("hello\n", "line 1: no output of catsync, which begins with an entry: 'hello'"),
    ("end\n", "line 1: no output of catsync, which begins with an entry: 'end'"),
    (HEAD + "h 1 1 lok no\nend\n", "line 3: not an entry: 'h 1 1 lok no'"),
    (HEAD + "h 1 1 look maybe\nend\n", "line 3: not an entry: 'h 1 1 look maybe'"),
    (HEAD + "h 1 1 lock 16384 xx ok\nend\n", "line 3: not an entry: 'h 1 1 lock 16384 xx ok'"),
    (HEAD + "h 1 1 fetch 33\nend\n", "line 3: not an entry: 'h 1 1 fetch 33'"),
    (HEAD + "h 1 1 write 1 +class(16384,t,x,-)\nend\n", "line 3: not an entry: 'h 1 1 write 1 +class(16384,t,x,-)'"),
    (HEAD + "h 65 0 start\nend\n", "line 3: not an entry: 'h 65 0 start'"),
    (HEAD + "h 1 1 caf\u00e9\nend\n", "line 3: not an entry: 'h 1 1 caf??'"),
    (HEAD + "x\nend\n", "line 3: neither an entry nor an answer: 'x'"),
    (HEAD + "l 1 1\nend\n", "line 3: neither an entry nor an answer: 'l 1 1'"),
    (HEAD + "l 2 1 ok\nend\n", "line 3: an answer of backend 2, which made no entry"),
    (HEAD, "line 3: the output ends without a line 'end'"),
    (HEAD + "end\nend\n", "line 4: nothing may follow the line 'end': 'end'"),
    ("h 1 1 look no\nend\n", "line 1: backend 1 hasn't started"),
    (HEAD + "h 1 0 start\nend\n", "line 3: backend 1 starts twice"),
    (HEAD + "h 1 2 stop\nh 1 2 look no\nend\n", "line 4: backend 1 has stopped"),
    (HEAD + "h 1 0 look no\nend\n", "line 3: command 0 of backend 1 is over"),
    (HEAD + "h 1 1 fetch 2\nend\n", "line 3: a fetch of 2 messages, but 0 wait for backend 1"),
    (HEAD + "h 1 1 unlock 16384 as\nend\n", "line 3: backend 1 doesn't hold as on 16384"),
    (HEAD + "h 1 1 lock 16384 as held 2 ax\nend\n", "line 3: backend 2 doesn't hold ax on 16384"),
    (HEAD + "h 1 1 visible 1\nend\n", "line 3: transaction 1 isn't backend 1's running one"),
    (HEAD + "h 1 1 publish 1\nend\n", "line 3: a publish of 1 messages, but backend 1 has 0 to send"),
    (HEAD + "h 1 1 write 1 =class(16384,t,r,-)\nend\n", "line 3: backend 1 sees no row of class to change"),
    (HEAD + "h 1 1 clash t running 1\nend\n", "line 3: transaction 1 isn't one that another backend runs"),
    (HEAD + "h 1 1 clash t row 16384\nend\n", "line 3: no write gave relation 16384 the name t"),
)


# Changes of examples/two_backends.script that its output can't be of.
TWICE = "2: show t\n2: show t\n"
OTHER_SCRIPTS = (
    (TWICE, "2: show t\n2: show u\n", "line 17 can't be of '2: show u': h 2 2 scan relname t rows 1"),
    (TWICE, "2: show t\n2: show t columns\n", "line 37 can't be of '2: show t columns': l 2 2 table 16384; "),
    (TWICE, "2: show t\n2: begin\n", "line 17 can't be of '2: begin'"),
    (TWICE, "2: show t\n", "line 14 of the output is of command 2 of backend 2, which the script hasn't"),
    (TWICE, TWICE + "2: show t\n", "backend 2 has 3 commands there, and stops in line 33 after 2"),
    ("(a int4)", "(b int4)", "line 3 can't be of '1: create table t .b int4.'"), ("(a int4)", "(a text)", "line 3 can't be of "),
)


class FaultyOutputs(unittest.TestCase):
    """What isn't an output is refused with one line, and nothing is drawn."""

    def test_faulty_outputs(self):
        """The line says what is wrong, and where."""
        for given, said in FAULTY_OUTPUTS:
            with self.subTest(said):
                with self.assertRaises(Exception) as raised:
                    picture_of(read_output(given.encode()), False, Span(1, 1))
                self.assertEqual(str(raised.exception), said)

    def test_large_numbers(self):
        """Commands are no more than have a line, however they are numbered."""
        begun = time.monotonic()
        for text in (HEAD + "h 1 999999999 stop\nend\n", HEAD + "h 1 2 stop\nl 1 999999999 ok\nend\n",
                     HEAD + "h 1 5 stop\nl 1 1 ok\nl 1 3 ok\nl 1 999999999 ok\nend\n"):
            self.assertIn("<svg", picture_of(read_output(text.encode()), False, Span(1, 3)))
        self.assertLess(time.monotonic() - begun, 60)

    def test_command(self):
        """A fault is one line on standard error, exit status 2, and nothing on standard output."""
        example_output = content_of(os.path.join(TOP, "examples", "two_backends.output"))
        long = (HEAD + "h 1 1 look no\n" * 4999 + "end\n").encode()
        with tempfile.TemporaryDirectory() as folder:
            scripts = {}
            for name, text in (("short", "backends 2\n1: show t\nend\n"), ("faulty", "backends 1\nsteps 1 to\nend\n")):
                scripts[name] = os.path.join(folder, name)
                with open(scripts[name], "w") as file:
                    file.write(text)
            for words, given, said in (
                    ([], HEAD.encode() + b"h 1 1 lok no\nend\n", "line 3: not an entry: 'h 1 1 lok no'"),
                    ([], b"", FAULTY_OUTPUTS[0][1]),
                    ([], long, "the history has 5001 entries, and a picture at most 5000: give --from and --to"),
                    (["--from", "0"], example_output, "no entries from 0 to "),
                    (["--from", "7", "--to", "6"], example_output, "no entries from 7 to 6: the history has "),
                    (["--from", "x"], example_output, "argument --from: invalid int value: 'x'; picture --help says more"),
                    (["--width", "399"], example_output, "--width: at least 400 pixels; picture --help says more"),
                    (["--script", scripts["short"]], example_output,
                     scripts["short"] + ": line 6 of the output is of command 1 of backend 2, which the script hasn't"),
                    (["--script", scripts["faulty"]], example_output, scripts["faulty"] + ": line 2: "),
                    (["--script", os.path.join(folder, "none")], example_output,
                     os.path.join(folder, "none") + ": reading failed: No such file or directory"),
                    (["--sideways"], example_output, "unrecognized arguments: --sideways; picture --help says more")):
                with self.subTest(said):
                    status, drawn, error = call("picture", *words, given=given)
                    self.assertEqual((status, drawn), (2, b""))
                    self.assertTrue(error.startswith("picture: " + said), error)
                    self.assertEqual(error.count("\n"), 1)
        self.assertEqual(call("picture", "--to", "5000", given=long)[0], 0)

    def test_script_of_another_output(self):
        """A script that can't be the output's is refused, and each example's own one isn't."""
        outputs = {path: read_output(content_of(path)) for path in OUTPUTS}
        sources = {path: read_source(content_of(path.replace(".output", ".script"))) for path in OUTPUTS
                   if os.path.exists(path.replace(".output", ".script"))}
        for path, source in sources.items():
            check_script("own", source, outputs[path])
        given = content_of(os.path.join(TOP, "examples", "two_backends.script")).decode()
        output = outputs[os.path.join(TOP, "examples", "two_backends.output")]
        for old, new, said in OTHER_SCRIPTS:
            with self.subTest(new):
                self.assertIn(old, given)
                with self.assertRaisesRegex(Fault, "^other: .*" + said):
                    check_script("other", read_source(given.replace(old, new, 1).encode()), output)

    def test_output_of_run(self):
        """Where all lines can be the script's and only their order can't, and all backends stop, it may be an output of `run`: it is
        drawn, and that is said. Where one doesn't stop it is no output of the script."""
        folder = os.path.join(TOP, "examples")
        given = content_of(os.path.join(folder, "two_backends.script"))
        data = content_of(os.path.join(folder, "two_backends.output"))
        early = b"\n".join(line for line in data.split(b"\n") if not line.endswith(b" stop"))
        turn = "not the script of this output: its steps have backend 1 in line 5, and not h 2 0 start"
        for script, shown, fault in (
                (given.replace(b"1*4 2*6", b"1*5 2*5"), data, None), (given.replace(b"steps 1*4 2*6 1*3 2*20 1\n", b""), data, None),
                (given.replace(b"2*20 1\n", b"2*19\n"), data, None), (given.replace(b"1*4 2*6", b"1*5 2*5"), early, turn),
                (given.replace(b"2*20 1\n", b"2*18\n"), early, "not the script of this output: its steps end before line 32"),
                (given.replace(b"(a int4)", b"(b int4)"), data, "not the script of this output: line 3 can't be of")):
            with self.subTest(script), tempfile.NamedTemporaryFile(suffix=".script") as file:
                file.write(script)
                file.flush()
                status, drawn, told = call("picture", "--html", "--script", file.name, given=shown)
                if fault:
                    self.assertEqual((status, drawn), (2, b""))
                    self.assertIn(fault, told)
                    continue
                self.assertEqual((status, told), (0, "picture: %s: the steps aren't in the order of its schedule: drawn as an output of "
                                                  "run or a trace of replay\n" % file.name))
                self.assertIn(b"create table t (a int4)", drawn)

    def test_looks_of_a_run(self):
        """A look of a run may miss what came since its backend's entry before."""
        lines = content_of(os.path.join(TOP, "examples", "two_backends.output")).decode().split("\n")
        at = next(at for at, line in enumerate(lines) if line.startswith("h 2 ") and line.endswith(" look yes"))
        lines[at:at + 2] = ["h 2 2 look no"]
        story = story_of(read_output("\n".join(lines[:at + 1] + ["end", ""]).encode()))
        self.assertRegex(plain(sentences_of(story)[at + 1]), "and sees none, as at its entry before: since then came [0-9]+ "
                         "messages? of ")

    def test_answers_of_commands(self):
        """Which answers a command can have."""
        for command, text, expected in (
                ("columns t", "columns a:int4", True), ("columns t", "ok", False), ("column t a", "column 1 int4", True),
                ("column t a", "columns a:int4", False), ("regclass 16384", "regclass t as of 4", True),
                ("regclass 16384", "error 25P02 the transaction block has failed", True), ("begin", "column 1 int4", False),
                ("show t columns", "columns a:int4", True), ("show t name", "columns a:int4", False)):
            with self.subTest((command, text)):
                self.assertEqual(answer_can_be_of(command.split(" "), text), expected)

    def test_closed_streams(self):
        """A standard stream that is closed is a fault too."""
        tool = os.path.join(TOOLS, "picture")
        for closed, said in (("<&-", "picture: reading failed: standard input is closed\n"),
                             (">&-", "picture: writing failed: standard output is closed\n"), ("2>&-", "")):
            with self.subTest(closed):
                given = "</dev/null" if closed == "2>&-" else "" if closed == "<&-" else "<" + OUTPUTS[0]
                done = subprocess.run(["bash", "-c", "%s %s %s %s" % (sys.executable, tool, given, closed)],
                                      stdout=subprocess.PIPE, stderr=subprocess.PIPE)
                self.assertEqual((done.returncode, done.stdout, done.stderr.decode()), (2, b"", said))


if __name__ == "__main__":
    unittest.main()
