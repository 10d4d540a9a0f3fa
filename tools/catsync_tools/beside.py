"""A script's commands one after the other, in the program and in a server, and where the answers differ.

After a difference both are made alike, so that what follows can be compared. Where one of them has done a command and the other
refused it, it counts as refused where it was done: here it is left out of the script, in the server it is taken back.
"""
import re
from typing import Dict, List, NamedTuple, Optional, Tuple

from .counting import counted_script
from .documented import Case, words_of
from .faults import Fault
from .known import Facts
from .outputs import PLACE
from .runner import Runner
from .sources import COMMAND
from .sql import FIELDS, OTHER_FIELDS, Answer, Asked, referred_in, statement_of, tokens_of

Command = Tuple[int, int]       # a backend, and the number of a command of it

# The fields with oids in their values, and where these stand.
OIDS = {"table": "[0-9]+", "index": "[0-9]+", "of": "^[0-9]+", "indexes": r"(?<!\S)[0-9]+",
        "referenced": r"(?<!\S)[0-9]+|(?<=:)[0-9]+(?=:)", "constraints": r"(?<=:)[0-9]+(?=:[0-9]+(?: |$))"}


class Compared(NamedTuple):
    """A command, what it was answered here and in the server, in which parts these differ, each with the words of
    docs/PROFILE.md that say so, or None; and what isn't compared: parts of fields, by name."""
    command: Command
    text: str
    here: str
    server: Answer
    differences: Dict[str, Optional[str]]
    left_out: List[str]


def order_of(commands, steps) -> List[Command]:
    """The commands in the order in which they ended in a run; one without an entry comes right after the one before it."""
    ends: Dict[Command, int] = {}
    for at, (backend, command, _) in enumerate(steps):
        ends[backend, command] = at
    latest: Dict[int, int] = {}
    places = []
    for backend, number in sorted(commands):
        latest[backend] = ends.get((backend, number), latest.get(backend, -1))
        places.append((latest[backend], backend, number))
    return [(backend, number) for _, backend, number in sorted(places)]


class Pairs:
    """Which oids here are which in the server: each that is met first with another is its pair."""

    def __init__(self):
        self.here: Dict[str, str] = {}
        self.server: Dict[str, str] = {}

    def are_same(self, here, server):
        """Whether two oids can be of one relation."""
        return self.here.setdefault(here, server) == server and self.server.setdefault(server, here) == here


def parts_of(text):
    """An answer that shows a table or an index, by fields; None where it shows none."""
    parts = [part.split(" ", 1) for part in text.split("; ")]
    if parts[0][0] not in ("table", "index") + FIELDS + OTHER_FIELDS or any(len(part) != 2 for part in parts):
        return None
    return dict(parts)


def differences(here, server: Answer, pairs: Pairs):
    """What differs between two answers: `answer`, `error`, a field, or `warning`."""
    found = ["warning"] if server.warnings else []
    errors = [re.match("error ([0-9A-Z]{5}) ", text) for text in (here, server.text)]
    if any(errors):
        if not all(errors):
            return ["answer"] + found
        return (["error"] if errors[0].group(1) != errors[1].group(1) else []) + found
    ours, theirs = parts_of(here), parts_of(server.text)
    if ours is None or theirs is None:
        return (["answer"] if here != server.text else []) + found
    if ours.keys() != theirs.keys():
        return ["answer"] + found
    return [field for field in ours if not is_same(field, ours[field], theirs[field], pairs)] + found


def is_same(field, here, server, pairs: Pairs):
    """Whether a field has one value here and in the server; oids needn't be the same numbers."""
    if field not in OIDS:
        return here == server
    (ours, left), (theirs, other) = oids_in(field, here), oids_in(field, server)
    return left == other and len(ours) == len(theirs) and all([pairs.are_same(*pair) for pair in zip(ours, theirs)])


def oids_in(field, value):
    """The oids in the value of a field, and the value without them."""
    found: List[str] = []

    def note(oid):
        found.append(oid[0])
        return "-"
    return found, re.sub(OIDS[field], note, value)


class Here:
    """A script whose commands are made one after the other here, some of them left out."""

    def __init__(self, source, program):
        self.source, self.program = source, program
        self.turns: List[Tuple[int, int]] = []
        self.steps: List[tuple] = []            # of the latest command
        self.made = 0
        self.runner = Runner(source, program)

    def make(self, backend, number, is_last):
        """The answer of a session's next command; after the last one the session goes on to its stop."""
        others = [other for other in self.runner.backends if other != backend]
        run = self.runner.run([each for each, count in self.turns for _ in range(count)], [backend] + others)
        self.steps = []
        for whose, command, text in run.steps[self.made:]:
            if whose != backend or (command > number and not is_last):
                break
            self.steps.append((whose, command, text))
        words = (line.split(" ", 3) for line in run.answers)
        return next(text for _, whose, command, text in words if (int(whose), int(command)) == (backend, number))

    def leave_out(self, backend, number, in_block):
        """The latest command is left out: one that does nothing stands in its place."""
        count, lines = 0, []
        for line in self.source.lines:
            found = re.match(rb"[ \t]*([0-9]{1,9})[ \t]*:", line.text) if line.kind == COMMAND else None
            count += found is not None and int(found.group(1)) == backend
            if found and (int(found.group(1)), count) == (backend, number):
                line = line._replace(text=b"%d: %s" % (backend, b"begin" if in_block else b"commit"))
            lines.append(line)
        self.source = self.source._replace(lines=lines)
        self.runner = Runner(self.source, self.program)

    def keep(self):
        """The latest command's steps are made."""
        if self.steps:
            self.turns.append((self.steps[0][0], len(self.steps)))
        self.made += len(self.steps)


class There:
    """The sessions of a server, in a database of its own."""

    def __init__(self, server):
        self.server, self.database = server, server.new_database()
        self.sessions: Dict[int, Asked] = {}
        self.oids: Dict[int, int] = {}

    def session(self, backend) -> Asked:
        """The session of a backend."""
        if backend not in self.sessions:
            self.sessions[backend] = Asked(self.server.session(self.database), self.oids)
        return self.sessions[backend]

    def end(self):
        """All sessions end, and the database goes."""
        for asked in self.sessions.values():
            asked.end()
        self.server.drop_database(self.database)


def compare(source, program, server, order: Optional[List[Command]] = None) -> List[Compared]:
    """Runs a script's commands one after the other here and in a server, in this order, or that in which its own schedule
    ends them."""
    commands = source.script.commands()
    referred = referred_in(commands.values())
    statements = {command: statement_of(text, referred) for command, text in commands.items()}
    for (backend, number), statement in sorted(statements.items()):
        if statement is None:
            raise Fault("command %d of backend %d isn't compared with a server: %s" % (
                number, backend, commands[backend, number]))
    if order is None:
        order = order_of(commands, program.run(counted_script(source, lambda: program)).steps)
    both = Both(Here(source._replace(setup=[]), program), There(server), Facts(referred))    # the set-up is made with the others
    last = {backend: number for backend, number in sorted(order)}
    try:
        return [both.compared((backend, number), commands[backend, number], statements[backend, number], number == last[backend])
                for backend, number in order]
    finally:
        both.there.end()


class Both:
    """What was done so far on both sides, which is the same."""

    def __init__(self, here: Here, there: There, facts: Facts):
        self.here, self.there, self.facts, self.pairs = here, there, facts, Pairs()

    def compared(self, command: Command, text, statement, is_last) -> Compared:
        """The next command, after which both are alike again."""
        backend, number = command
        tokens, asked = tokens_of(text), self.there.session(backend)
        in_block = backend in self.facts.blocks
        here, server = self.here.make(backend, number, is_last), asked.try_out(statement)
        case = Case(backend, tokens, here, server.text, self.facts)
        shown, checks, is_early = PLACE.sub("", here), self.moved_checks(case), self.facts.is_asked_early(backend, tokens)
        found = differences(without(shown, checks), server._replace(text=without(server.text, checks)), self.pairs)
        left_out = ["the check %s, which follows its columns in the server" % check for check in checks]
        if is_early and found == ["answer"]:
            found, left_out = [], ["the name, of an oid that the block asked for before a relation had it"]
        compared = Compared(command, text, shown, server, {part: words_of(case, part, server.warnings) for part in found}, left_out)
        done = not here.startswith("error "), not server.text.startswith("error ")
        if done == (True, False) and (asked.guard or not in_block):
            self.here.leave_out(backend, number, in_block)
            self.here.make(backend, number, is_last)
        asked.end_try(all(done), not done[0])
        self.keep(command, tokens, here if done[0] == done[1] or not done[0] else "error", asked)
        if is_last:
            self.there.sessions.pop(backend).end()
        return compared

    def moved_checks(self, case: Case):
        """The checks of the table that a command shows which follow their columns in the server."""
        shows = re.match("(?:show|peek) ", case.text)
        return sorted(self.facts.moved_checks(case.rel)) if shows and case.rel and ":check:" in case.here + case.server else []

    def keep(self, command: Command, tokens, answer, asked: Asked):
        """The command has ended on both sides; relations that it has made are pairs."""
        self.facts.end(command[0], tokens, answer)
        for backend, number, text in self.here.steps:
            self.facts.take(backend, number, text)
            for oid, name in re.findall(r"\+class\(([0-9]+),([^,]+),", text) if not answer.startswith("error") else ():
                self.there.oids[int(oid)] = asked.oid_of(name)
        self.here.keep()


def without(text, names):
    """An answer without the constraints of these names."""
    for name in names:
        text = re.sub(r"(?<=[ ])%s:check:[^ ;]+ ?" % name, "", text)
    return re.sub(r"\bconstraints *(?=;|$)", "constraints -", re.sub(r" +(?=;|$)", "", text))
