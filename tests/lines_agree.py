#!/usr/bin/env python3
"""Compares what `layer_runs lines` answers of histories with a second reading of the rules: how many of their entries a
script allows, from the first on, and the answer lines by these. CATSYNC_ORACLE names the folder with that reading.

    tests/lines_agree.py [--seed N] [--walks N] [--changed N] [--program FILE] [--keep FILE]
    tests/lines_agree.py [--seed N] [--walks N] [--changed N] [--only CHANGES] --write NAME [OUTPUT..]

The scripts are random, half of them that reading's and half our own (random_scripts.py). Of each there is the walk's
history and one that was played by the rules without a schedule; and of these two, by turns, changed ones: entries that
go, come twice, or come elsewhere, other numbers and words in them, more looks and fetches, entries after a stop, other
new oids, other queues, other orders of the backends. Prints 'N walks, M changed: K differ'; the first cases that differ
go to the file of --keep, each with what was wanted of it. The exit status is 0 where none differs.

With --write nothing is compared: the cases go to NAME.cases, and what the rules say of them to NAME.expected. Where outputs
are named, FOLDER/NAME.output beside FOLDER/NAME.script, the histories are theirs in place of random scripts'. CHANGES are the names
of some of the changes below, with commas between: tests/lines/rebuild_orders is of order_builds,order_builds,order_builds,drop,double.
"""
import argparse
import functools
import itertools
import os
import random
import re
import subprocess
import sys
import tempfile
from typing import List, NamedTuple

sys.dont_write_bytecode = sys.pycache_prefix is None

from random_scripts import script_of

TOP = os.path.dirname(os.path.dirname(os.path.abspath(__file__)))
CRATE = os.path.join(TOP, "crates", "layer_runs")
ASKED = ["lines", "answers"]
FLAGS = re.search(r"--stage (\d+)", os.environ.get("CATSYNC_ORACLE_FLAGS", ""))
STAGE = int(FLAGS[1]) if FLAGS else 10      # of the second reading
SIZES = ("small", "small", "medium")
BATCH = 200                 # cases of one run of the program: its answers stay below a MiB
MOST_PLAYED = 300           # entries of a history that is played by the rules
MOST_KEPT = 20              # cases that differ
EACH_PLAYED = 4             # of so many scripts one has a played history too
MODES = ("as", "rs", "rx", "su", "sh", "sr", "ex", "ax")
BUILD_SCAN = re.compile(r" scan (?:class|attribute|attrdef|constraint|index|trigger|indexrow) (\d+) ")
WORDS = (MODES, ("yes", "no"), ("row", "running"), ("ok", "held 1 ax"), ("t", "u", "big", "w"), ("a", "b", "c", "z"),
         ("visible", "gone", "release", "publish", "fetch"), ("start", "stop", "fail", "look no"), ("unlock", "lock"))


class Case(NamedTuple):
    """A script and a history: its entries' lines, and whether they are changed."""
    name: str
    script: str
    lines: List[str]
    is_changed: bool


class Answer(NamedTuple):
    """How many entries are allowed of how many, and the answer lines by these."""
    count: str
    lines: List[str]


class Oracle:
    """The second reading of the rules."""

    def __init__(self, folder):
        sys.path.insert(0, os.path.join(folder, "oracle"))
        import definitions
        import fuzz_scripts
        import play_random
        from walker.main import run
        from walker.stage import Stage
        self.rules, self.scripts, self.players = definitions, fuzz_scripts, play_random
        self.run, self.stage = run, Stage(STAGE)
        self.entry = functools.lru_cache(maxsize=10000)(self.read_entry)

    def script(self, seed):
        """A random script, whose last line is `end` and nothing else."""
        script = script_of(seed) if seed // 4 % 2 else self.scripts.make(seed, STAGE, SIZES[seed % len(SIZES)])
        lines = script.rstrip("\n").split("\n")
        return "".join(line + "\n" for line in lines[:-1] + ["end"])

    def walked(self, script):
        """The lines of the entries of the script's walk."""
        output = self.run(["walk"], script.encode, self.stage)
        return [line for line in output.split("\n") if line.startswith("h ")]

    def played(self, script, draw):
        """The lines of a history that the rules allow, with looks that need not be and no schedule."""
        read = self.rules.read_script(script.encode())
        player = self.players.Player(read, "run", draw, 0, draw.choice((0, 0.1, 0.5)))
        player.play(MOST_PLAYED)
        return [self.rules.entry_text(entry) for entry in player.checker.history.entries]

    def entries(self, lines):
        """The entries at the head of an output."""
        return list(itertools.takewhile(lambda entry: entry is not None, map(self.entry, lines)))

    def read_entry(self, line):
        """The entry of a line, if it is one. For the program a number of more than 32 bits is none; one below 0 has a sign."""
        numbers = [int(number) for number in re.findall(r"(?<![a-z0-9_-])-?\d{10,}", line)]
        large = any(number >= 2 ** 32 or number < -2 ** 31 for number in numbers)
        return None if large else self.rules.read_entry(line)

    def checker(self, script):
        return self.rules.Checker(self.rules.read_script(script.encode()), "run")

    @staticmethod
    def may_come(checker, entry):
        """Whether the rules allow one more entry. They have no failures of memory yet: a `fail` is allowed nowhere."""
        return entry.event != "fail" and entry.backend in checker.sessions and checker.allowed(entry) is None

    def answer_after(self, checker, entries):
        """The answer where so many of the entries are allowed as the checker has taken."""
        lines = [self.rules.line_text(line) for line in checker.lines()]
        return Answer("%d of %d entries" % (len(checker.history), len(entries)), lines)

    def answer(self, case):
        """What the rules say of a case."""
        checker, entries = self.checker(case.script), self.entries(case.lines)
        for entry in entries:
            if entry.event == "fail" or checker.take(entry):
                break
        return self.answer_after(checker, entries)

    def answers(self, base, cases):
        """What the rules say of changed forms of a case, by name: each is asked where it leaves that case, and wholly
        only where it goes on."""
        checker, found = self.checker(base.script), {}
        entries, forms = self.entries(base.lines), {case.name: self.entries(case.lines) for case in cases}
        leaving = {}
        for case in cases:
            if case.script == base.script:
                at = min(len(os.path.commonprefix([base.lines, case.lines])), len(entries), len(forms[case.name]))
                leaving.setdefault(at, []).append(case.name)
        for at, entry in enumerate(entries + [None]):
            for name in leaving.get(at, ()):
                form = forms[name]
                if at == len(form) or not self.may_come(checker, form[at]):
                    found[name] = self.answer_after(checker, form)
            if entry is None or checker.take(entry):
                break
        return {case.name: found.get(case.name) or self.answer(case) for case in cases}


# ---------------------------------------------------------------- changes: of a history's lines, in place

def head_of(line):
    """The backend and the command of an entry."""
    _, backend, command, _ = line.split(" ", 3)
    return int(backend), int(command)


def command_at(lines, at, backend):
    """The number of the command in which the backend is before this place."""
    found = [command for b, command in map(head_of, lines[at:]) if b == backend]
    found += [command for b, command in reversed(list(map(head_of, lines[:at]))) if b == backend]
    return found[0] if found else 1


def put_in(draw, lines, event):
    """An event of some backend comes somewhere."""
    at = draw.randrange(len(lines) + 1)
    backend = head_of(draw.choice(lines))[0]
    lines.insert(at, "h %d %d %s" % (backend, command_at(lines, at, backend), event))


def drop(draw, lines):
    del lines[draw.randrange(len(lines))]


def double(draw, lines):
    at = draw.randrange(len(lines))
    lines.insert(at, lines[at])


def swap(draw, lines):
    at = draw.randrange(1, len(lines))
    lines[at - 1], lines[at] = lines[at], lines[at - 1]


def move(draw, lines):
    line = lines.pop(draw.randrange(len(lines)))
    lines.insert(draw.randrange(len(lines) + 1), line)


def mix(draw, lines):
    """Steps of different backends are swapped, again and again."""
    for _ in range(draw.choice((5, 30))):
        at = draw.randrange(1, len(lines))
        if head_of(lines[at - 1])[0] != head_of(lines[at])[0]:
            lines[at - 1], lines[at] = lines[at], lines[at - 1]


def put_look(draw, lines):
    put_in(draw, lines, draw.choice(("look yes", "look no")))


def put_fetch(draw, lines):
    put_in(draw, lines, "fetch %s" % draw.choice(("reset", "0", "1", "2", "32", "33")))


def put_other(draw, lines):
    """The event of some entry comes again, of some backend."""
    put_in(draw, lines, draw.choice(lines).split(" ", 3)[3])


def look_twice(draw, lines):
    """After a look that found nothing come more of them."""
    looks = [at for at, line in enumerate(lines) if line.endswith("look no")]
    if looks:
        at = draw.choice(looks)
        lines[at:at] = [lines[at]] * draw.choice((1, 1, 2, 3, 4))


def change_number(draw, lines):
    at = draw.randrange(len(lines))
    found = draw.choice(list(re.finditer(r"\d+", lines[at])))
    number = int(found.group())
    other = draw.choice((number - 1, number + 1, number + 2, 0, 1, 2 ** 32 - 1, 2 ** 32))
    lines[at] = lines[at][:found.start()] + str(max(other, 0)) + lines[at][found.end():]


def change_word(draw, lines):
    """A word becomes another one of its kind."""
    at = draw.randrange(len(lines))
    words = re.split(r"([ (,)])", lines[at])
    places = [(place, kind) for place, word in enumerate(words) for kind in WORDS if word in kind]
    if places:
        place, kind = draw.choice(places)
        words[place] = draw.choice(kind)
        lines[at] = "".join(words)


def change_command(draw, lines):
    at = draw.randrange(len(lines))
    backend, command = head_of(lines[at])
    other = draw.choice((command + 1, max(command - 1, 0), 0, 2 ** 32 - 1))
    lines[at] = "h %d %d %s" % (backend, other, lines[at].split(" ", 3)[3])


def change_backend(draw, lines):
    at = draw.randrange(len(lines))
    other = draw.choice((head_of(draw.choice(lines))[0], 0, 65))
    lines[at] = "h %d %s" % (other, lines[at].split(" ", 2)[2])


def change_oids(draw, lines):
    """A write draws other oids."""
    writes = [at for at, line in enumerate(lines) if "+class(" in line]
    if writes:
        at, by = draw.choice(writes), draw.choice((-1, 1, 2))
        lines[at] = re.sub(r"\((\d{5})", lambda found: "(%d" % (int(found[1]) + by), lines[at])


def change_items(draw, lines):
    """A write loses a change, or makes one twice, or two the other way round."""
    writes = [at for at, line in enumerate(lines) if " write " in line]
    if writes:
        at = draw.choice(writes)
        words = lines[at].split(" ")
        items = words[5:]
        draw.choice((drop, double, swap) if len(items) > 1 else (double,))(draw, items)
        lines[at] = " ".join(words[:5] + items)


def go_on(draw, lines):
    """Entries come after a stop."""
    stops = [at for at, line in enumerate(lines) if line.endswith(" stop")]
    if stops:
        at = draw.choice(stops)
        backend, command = head_of(lines[at])
        own = [line.split(" ", 3)[3] for line in lines if head_of(line)[0] == backend]
        event = draw.choice(own + ["look no", "look yes", "fetch 1", "fetch reset", "stop", "start"])
        lines.insert(draw.randrange(at, len(lines)) + 1, "h %d %d %s" % (backend, command, event))


def stretches(lines):
    """Lists of places: of the scans of several descriptors that one backend makes in one command with nothing but looks between."""
    found = []
    for _, group in itertools.groupby(enumerate(lines), lambda numbered: (
            head_of(numbered[1]) if BUILD_SCAN.search(numbered[1]) or numbered[1].endswith(" look no") else None)):
        places = [at for at, line in group if BUILD_SCAN.search(line)]
        if len({BUILD_SCAN.search(lines[at])[1] for at in places}) > 1:
            found.append(places)
    return found


def order_builds(draw, lines):
    """Descriptors that are built one after another are built in another order, or by turns; each one's scans stay in theirs."""
    found = stretches(lines)
    if not found:
        return
    places, wholly, left, relation = draw.choice(found), draw.random() < 0.5, {}, None
    for at in places:
        left.setdefault(BUILD_SCAN.search(lines[at])[1], []).append(lines[at])
    for at in places:
        if not (wholly and left.get(relation)):
            relation = draw.choice([rel for rel, scans in left.items() if scans])
        lines[at] = left[relation].pop(0)


def cut(draw, lines):
    del lines[draw.randrange(len(lines) + 1):]


def two(draw, lines):
    for _ in range(2):
        if len(lines) > 1:
            draw.choice(CHANGES)(draw, lines)


CHANGES = (drop, double, swap, move, mix, put_look, put_fetch, put_other, look_twice, change_number, change_word,
           change_command, change_backend, change_oids, change_items, order_builds, go_on, cut, two)


def other_queue(draw, script):
    """The script with a queue of another size."""
    lines = [line for line in script.split("\n") if not re.match(r"\s*ring\b", line, re.IGNORECASE)]
    return "\n".join(["ring %d" % draw.choice((64, 128, 256, 4096))] + lines)


def changed(draw, case, name, changes=CHANGES):
    """A case with one change."""
    lines, script = list(case.lines), case.script
    if draw.random() < 0.05:
        script = other_queue(draw, script)
    elif len(lines) > 1:
        draw.choice(changes)(draw, lines)
    return Case(name, script, lines, True)


# ---------------------------------------------------------------- cases and their comparison

def groups_of(oracle, options):
    """Lists of cases: a history that the rules allow, and changed forms of it."""
    made = 0
    for number in range(options.walks):
        seed = options.seed + number
        draw = random.Random(seed)
        script = oracle.script(seed)
        bases = [Case("%d walked" % seed, script, oracle.walked(script), False)]
        if number % EACH_PLAYED == 0:
            bases.append(Case("%d played" % seed, script, oracle.played(script, draw), False))
        wanted = options.changed * (number + 1) // options.walks - made
        made += wanted
        for turn, base in enumerate(bases):
            names = ["%s %d" % (base.name, of_base) for of_base in range(turn, wanted, len(bases))]
            yield [base] + [changed(draw, base, name) for name in names]


def given_groups(options):
    """The same of outputs that are given, each with as many changed forms."""
    changes = tuple(globals()[name] for name in options.only.split(",")) if options.only else CHANGES
    for number, path in enumerate(options.outputs):
        with open(path[:-len("output")] + "script", encoding="latin-1") as script, open(path, encoding="latin-1") as output:
            text, lines = script.read(), [line for line in output.read().split("\n") if line.startswith("h ")]
        if text.endswith("\nend\n"):
            base = Case(os.path.basename(path), text, lines, False)
            draw = random.Random(options.seed + number)
            yield [base] + [changed(draw, base, "%s %d" % (base.name, of_base), changes)
                            for of_base in range(options.changed // len(options.outputs))]


def batches(groups):
    """Lists of groups, of so many cases."""
    batch = []
    for group in groups:
        batch.append(group)
        if sum(map(len, batch)) >= BATCH:
            yield batch
            batch = []
    if batch:
        yield batch


def text_of(batch):
    """What the program reads."""
    return "".join(case.script + "".join(line + "\n" for line in case.lines) + "end\n" for group in batch for case in group)


def answers_in(said):
    """What the program answered."""
    answers = []
    for line in said.split("\n")[:-1]:
        if line.startswith("l "):
            answers[-1].lines.append(line)
        else:
            answers.append(Answer(line, []))
    return answers


def run_tried(folder, texts):
    """What the program, built without proof, says of each text."""
    for number, text in enumerate(texts):
        with open(os.path.join(folder, "b%05d" % number), "w", encoding="latin-1") as file:
            file.write(text)
    done = subprocess.run(["rt", "try", "--cases", folder, "--", *ASKED], cwd=CRATE, capture_output=True, encoding="latin-1", check=False)
    parts = re.split(r"^== (b\d{5})\n", done.stdout, flags=re.MULTILINE)
    said = dict(zip(parts[1::2], parts[2::2]))
    if not said:
        sys.exit("lines_agree: the program gave no answer: %s" % done.stderr[-500:])
    return [said.get("b%05d" % number, "") for number in range(len(texts))]


def run_built(program, texts):
    """What an executable says of each text."""
    for text in texts:
        done = subprocess.run([program, *ASKED], input=text, capture_output=True, encoding="latin-1", check=False)
        yield done.stdout if done.returncode == 0 else done.stdout + "status %d\n" % done.returncode


def shown(case, wanted, found):
    """A case that differs, as it is kept."""
    return "".join(["-- %s\n" % case.name, case.script, "".join(line + "\n" for line in case.lines), "end\n",
                    "-- wanted: %s\n" % wanted.count, "".join(line + "\n" for line in wanted.lines),
                    "-- found: %s\n" % found.count, "".join(line + "\n" for line in found.lines)])


class Tally:
    """What was compared, and which cases differ."""

    def __init__(self, oracle, kept):
        self.oracle, self.kept = oracle, kept
        self.walks = self.changed = self.differ = 0

    def compare(self, batch, said):
        """Compares the program's answers with those of the rules."""
        answers = iter(answers_in(said))
        for group in batch:
            wanted = self.oracle.answers(group[0], group)
            for case in group:
                found = next(answers, Answer("no answer", []))
                self.changed += case.is_changed
                self.walks += not case.is_changed
                if found != wanted[case.name]:
                    self.note(case, wanted[case.name], found)
        print("%s so far" % self, file=sys.stderr, flush=True)

    def __str__(self):
        return "%d walks, %d changed: %d differ" % (self.walks, self.changed, self.differ)

    def note(self, case, wanted, found):
        """A case differs."""
        self.differ += 1
        what = "other lines" if found.count == wanted.count else "%s, and not %s" % (found.count, wanted.count)
        if self.differ <= MOST_KEPT:
            print("%s: %s" % (case.name, what), flush=True)
            self.kept.write(shown(case, wanted, found))
            self.kept.flush()


def main():
    parser = argparse.ArgumentParser(description=__doc__, formatter_class=argparse.RawDescriptionHelpFormatter)
    parser.add_argument("--seed", type=int, default=1, help="the first script's")
    parser.add_argument("--walks", type=int, default=50, help="scripts, each with one walk and one played history")
    parser.add_argument("--changed", type=int, default=500, help="changed histories")
    parser.add_argument("--program", help="an executable of layer_runs, in place of one that is built without proof")
    parser.add_argument("--keep", default=os.path.join(tempfile.gettempdir(), "lines_agree.cases"), help="the file for cases that differ")
    parser.add_argument("--write", metavar="NAME", help="write the cases and what the rules say of them, and compare nothing")
    parser.add_argument("--only", metavar="CHANGES", help="names of changes, with commas between; of outputs that are given")
    parser.add_argument("outputs", nargs="*", help="outputs whose histories are written")
    options = parser.parse_args()
    if not os.environ.get("CATSYNC_ORACLE"):
        print("lines_agree: skipped: CATSYNC_ORACLE isn't set")
        return 0
    oracle = Oracle(os.environ["CATSYNC_ORACLE"])
    if options.write:
        write_all(oracle, given_groups(options) if options.outputs else groups_of(oracle, options), options.write)
        return 0
    with open(options.keep, "w", encoding="latin-1") as kept:
        tally = Tally(oracle, kept)
        compare_all(tally, batches(groups_of(oracle, options)), options.program)
    print(tally)
    return 1 if tally.differ else 0


def write_all(oracle, groups, name):
    """Writes cases, and what the rules say of them."""
    with open(name + ".cases", "w", encoding="latin-1") as cases, open(name + ".expected", "w", encoding="latin-1") as expected:
        for group in groups:
            cases.write(text_of([group]))
            wanted = oracle.answers(group[0], group)
            for case in group:
                answer = wanted[case.name]
                expected.write("".join(line + "\n" for line in [answer.count] + answer.lines))


def compare_all(tally, found, program):
    """Compares batch by batch; or all at once where the program has to be built first."""
    if program:
        for batch in found:
            tally.compare(batch, next(run_built(program, [text_of(batch)])))
        return
    found = list(found)
    with tempfile.TemporaryDirectory(prefix="lines_agree.") as folder:
        for batch, said in zip(found, run_tried(folder, list(map(text_of, found)))):
            tally.compare(batch, said)


if __name__ == "__main__":
    sys.exit(main())
