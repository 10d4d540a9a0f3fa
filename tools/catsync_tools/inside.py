"""What lies between the permutations of whole statements: all orders of the steps inside them, as tools/explore runs them.

A lock that is refused here is waited for in a server, and a wait is a step that is made later: so the orders in which a lock is
refused are left out, and the others are all that a server can do.
"""
import itertools
from typing import Dict, List, NamedTuple, Set, Tuple

from .findings import Answers, without_places
from .isolation import Session, Spec, all_permutations
from .permutation import SET_UP
from .progress import Progress
from .refused import Claim, refusals
from .scripts import steps_line
from .search import MOST_SERIAL, Exploration, Settings
from .sentences import counted
from .sources import read_source
from .waits import Play, Walker

REFUSED = (" error 55P03 relation ", " error 55P03 name ")


class Part(NamedTuple):
    """A step's commands, and which of them wait for no lock; the defaults and checks that a server reads."""
    name: str
    session: int
    commands: Tuple[str, ...]
    nowait: Tuple[bool, ...]
    claims: Tuple[Claim, ...] = ()


class Plan(NamedTuple):
    """The steps of each session that are made, in whatever order; the commands of the set-up, each with its backend; and what of that
    a server reads, each with its backend."""
    setup: List[Tuple[int, str]]
    parts: List[List[Part]]
    claims: List[Tuple[int, Claim]]

    @property
    def title(self):
        """The names of the steps, session by session."""
        return " | ".join(" ".join(part.name for part in parts) for parts in self.parts if parts)

    @property
    def script(self):
        """The script with all commands."""
        sessions = [(part.session, command) for parts in self.parts for part in parts for command in part.commands]
        lines = ["backends %d" % (len(self.parts) + 1)] + ["setup %d: %s" % each for each in self.setup]
        return lines + ["%d: %s" % each for each in sessions]

    def named(self):
        """Of each backend's commands, the step that it is of."""
        found: Dict[Tuple[int, int], str] = {}
        for number, parts in enumerate(self.parts, 1):
            first = sum(backend == number for backend, _ in self.setup)
            names = [part.name for part in parts for _ in part.commands]
            found.update({(number, first + at): name for at, name in enumerate(names, 1)})
        return found


def commands_of(sayer, sql, in_block):
    """The commands of SQL, each with whether it waits for no lock, whether a block is open after it, and what a server reads of it.
    What isn't in a block and is several commands, or needs one, is in one of its own."""
    said = [statement for statement in sayer.step(sql) if statement.commands and statement.reason is None]
    flat = [(command, statement.nowait) for statement in said for command in statement.commands]
    words = [command for command, _ in flat]
    has_own = any(word in ("begin", "commit", "rollback") for word in words)
    if not in_block and not has_own and (len(flat) > 1 or any(word.split(" ")[0] in ("lock", "open") for word in words)):
        flat = [("begin", False)] + flat + [("commit", False)]
    for word in words:
        in_block = word == "begin" or in_block and word not in ("commit", "rollback")
    return flat, in_block, tuple(claim for statement in said for claim in statement.claims)


def plan_of(whole, sequences) -> Plan:
    """The plan of these steps of each session."""
    spec: Spec = whole.spec
    setup, in_block, read = [], {}, []
    control = len(spec.sessions) + 1
    for backend, sql in [(control, sql) for sql in spec.setup] + [
            (number, sql) for number, session in enumerate(spec.sessions, 1) for sql in session.setup]:
        commands, in_block[backend], claims = commands_of(whole.sayer, sql, in_block.get(backend, False))
        setup += [(backend, command) for command, _ in commands]
        read += [(backend, claim) for claim in claims]
    parts: List[List[Part]] = []
    for number, steps in enumerate(sequences, 1):
        parts.append([])
        for step in steps:
            commands, in_block[number], claims = commands_of(whole.sayer, step.sql, in_block.get(number, False))
            if commands:
                parts[-1].append(Part(step.name, number, *map(tuple, zip(*commands)), claims))
    return Plan(setup, parts, read)


def plans_of(whole) -> List[Plan]:
    """The plans of a spec: permutations that have the same steps of each session are of one."""
    spec: Spec = whole.spec
    if not spec.permutations:
        return [plan_of(whole, [session.steps for session in spec.sessions])]
    found = {}
    for placed in spec.permutations:
        sequences = tuple(tuple(each.step for each in placed if each.step.session == number)
                          for number in range(1, len(spec.sessions) + 1))
        found.setdefault(sequences, plan_of(whole, sequences))
    return list(found.values())


class Wholes:
    """The answers of all permutations of a plan's whole statements, with their waits; and how a server refuses what was done there,
    each with the places."""

    def __init__(self, plan: Plan, walker: Walker):
        self.plan, self.walker = plan, walker
        self.answers: Set[Answers] = set()
        self.differs: Dict[str, Dict[str, None]] = {}
        self.is_over = True

    def run(self, progress):
        """Runs the permutations, so many at most."""
        sessions = [Session("", parts, [], []) for parts in self.plan.parts]
        orders = all_permutations(Spec([], [], sessions, []))
        for number, order in enumerate(itertools.islice(orders, MOST_SERIAL), 1):
            progress.show(0, 1, counted(number, "permutation") + " of whole statements")
            self.take([placed.step for placed in order])
        self.is_over = next(orders, None) is None

    def take(self, order: List[Part]):
        """One permutation; one in which a session would begin a step while it waits is another's."""
        play, left = Play(self.walker), {}
        for backend, command in self.plan.setup:
            play.command(backend, command)
        for backend, claim in self.plan.claims:
            self.judge(play, SET_UP, backend, [claim])
        for part in order:
            if left.get(part.session):
                return
            left[part.session] = list(zip(part.commands, part.nowait))
            self.go_on(play, left, part.session)
            if not left[part.session] and not play.answer(part.session).startswith("error "):
                self.judge(play, "step " + part.name, part.session, part.claims)
            ended = play.settle()
            while ended:
                for backend in ended:
                    left[backend].pop(0)
                    self.go_on(play, left, backend)
                ended = play.settle()
        if not play.waits:
            self.answers.add(without_places(self.walker.run(play.commands, play.turns).answers))

    def judge(self, play: Play, place, backend, claims):
        """Takes down how a server refuses what a backend has just done."""
        for how in refusals(play.steps, backend, claims):
            self.differs.setdefault(how, {})[place] = None

    def go_on(self, play: Play, left, backend):
        """A backend makes what is left of its step, up to where it waits."""
        while left[backend] and play.command(backend, *left[backend][0]):
            left[backend].pop(0)


def explored(whole, most, jobs):
    """What all orders of the steps inside the statements lead to, beyond what permutations do; and how a server refuses what is done
    here, each with the places."""
    lines, differs = [], {}
    for plan in plans_of(whole):
        wholes = Wholes(plan, whole.walker)
        lines += explored_plan(plan, wholes, most, jobs)
        for how, places in wholes.differs.items():
            differs.setdefault(how, []).extend(places)
    return "\n".join(lines), differs


def explored_plan(plan: Plan, wholes: Wholes, most, jobs):
    """The lines about one plan."""
    source = read_source("\n".join(plan.script + ["end", ""]).encode())
    exploration = Exploration(Settings(jobs=jobs), source, wholes.walker.program.path, Progress("spec"))
    exploration.run_serial()
    if not exploration.run_orders(most):
        exploration.run_random(most)
    wholes.run(exploration.progress)
    exploration.progress.clear()
    sets = [(key, found) for key, found in exploration.findings.sorted() if not is_refused(plan, key)]
    new = [(key, found) for key, found in sets if key not in wholes.answers and found.turns]
    ran = counted(exploration.schedules, "random schedule" if exploration.is_random else "order")
    head = "%s of the steps inside %s: %s of answers with no lock refused, %s that no permutation of whole statements has" % (
        ran if exploration.is_random else "all " + ran, plan.title, counted(len(sets), "set"), len(new) or "none")
    lines = [head + ("" if wholes.is_over else ", as far as was tried")]
    if new:
        lines += ["", "the script, for tools/explore and tools/picture:"] + plan.script + ["end"]
    for number, (key, found) in enumerate(new, 1):
        run = exploration.runner.with_turns(found.turns)
        lines += ["", "set %d: %d of %s" % (number, found.count, ran), steps_line(found.turns)] + answers_shown(plan, run.answers)
    return lines + [""]


def is_refused(plan: Plan, answers: Answers):
    """Whether a lock was refused that a server waits for."""
    nowait = {(part.session, part.name) for parts in plan.parts for part in parts if any(part.nowait)}
    named = plan.named()
    for answer in answers:
        if any(text in answer for text in REFUSED):
            _, backend, command, _ = answer.split(" ", 3)
            if (int(backend), named.get((int(backend), int(command)))) not in nowait:
                return True
    return False


def answers_shown(plan: Plan, answers):
    """The answers of steps, each with the step's name."""
    named, lines = plan.named(), []
    for answer in answers:
        _, backend, command, text = answer.split(" ", 3)
        if (int(backend), int(command)) in named and text != "ok":
            lines.append("  %s: %s" % (named[int(backend), int(command)], text))
    return lines
