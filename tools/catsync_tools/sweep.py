"""A sweep: a command is held at each of its points in turn, and another one made there, from its beginning to its end; then what
backends keep is looked at. It needs no schedule."""
from typing import Dict, List, NamedTuple, Tuple

from .audit import Audit, Stale, audit_of_all
from .counting import counted_script
from .faults import Fault
from .kinds import KINDS
from .play import Play, Sessions
from .sentences import counted
from .sources import read_source
from .stage import ended

Command = Tuple[int, int]
Item = Tuple[str, ...]          # the words of an entry here, by which a line of steps names it
LOOK: Item = ("look",)          # looks are no items of their own, as a server makes more; one may come after what is


class Point:
    """The place of a backend in a command at which something is noted for the kth time."""

    def __init__(self, command, number):
        self.command, self.left, self.phase, self.event = command, number, "", None

    def text(self, shown):
        """The point in words."""
        return "%s '%s'" % (self.phase, shown(self.event)) if self.event else "a point"

    def key(self):
        """The event, as far as it is known."""
        return self.event or ("a point",)

    def is_met(self, command, phase, event):
        """Whether an event is the point."""
        if command != self.command or self.event:
            return False
        self.left -= 1
        if self.left == 0:
            self.phase, self.event = phase, event
        return self.left == 0


class Swept(NamedTuple):
    """A point: where it is, why nothing was held there, what both commands were answered, what was looked at afterwards, by which
    items of a schedule it comes right after an entry here; and why it couldn't be played, if so, and whether the command had come
    to it."""
    place: str
    not_held: str = ""
    answers: Tuple[str, ...] = ()
    audit: Audit = Audit([], [])
    items: Tuple[Item, ...] = ()
    fault: str = ""
    is_met: bool = True

    @property
    def stale(self) -> List[Stale]:
        """What is stale for good."""
        return self.audit.stale


class AllSwept(NamedTuple):
    """What a sweep has found: its points, and scripts that show those which are stale for good, each with which points it shows."""
    points: List[Swept]
    scripts: List[Tuple[List[int], str]]
    without: List[int]          # points that no script here shows


class Sweep:
    """A sweep of a script: `held` is held at each point, and `made` made there. All commands before them come first, and those after
    them last."""

    def __init__(self, source, held: Command, made: Command):
        self.source, self.held, self.made = source, held, made
        self.commands = list(source.commands)
        for command in (held, made):
            if command not in source.commands:
                raise Fault("there is no command %d of backend %d" % (command[1], command[0]))
        if held[0] == made[0]:
            raise Fault("a command is held for one of another backend")
        first = min(map(self.commands.index, (held, made)))
        own = dict((held, made))
        self.before = [each for at, each in enumerate(self.commands) if each[1] < own.get(each[0], 0) or at < first]
        self.after = [each for each in self.commands if each not in self.before + [held, made]]

    def run(self, stage, program) -> AllSwept:
        """Sweeps all points. What comes before a point and can't be played keeps the sweep from those after it, too: it ends there."""
        run, points = program.run(self.source.script.without_steps()), []
        while not points or points[-1].is_met:
            point = self.at(stage, run, len(points) + 1)
            if point is None:
                break
            points.append(point)
        return AllSwept(points, *Shortest(self, stage, program).of(points))

    def at(self, stage, run, number):
        """What comes of a point; None where the command has fewer. A Fault where not even the first one can be come to."""
        point, sessions = Point(self.held[1], number), None
        try:
            with ended():
                sessions = Sessions(stage, self.source, run)
                return self.played(sessions, point)
        except Fault as fault:
            if number == 1 and point.event is None:
                raise
            return Swept(point.text(sessions.shown if sessions else str), fault=str(fault), is_met=point.event is not None)

    def played(self, sessions, point):
        """What comes of a point in these sessions."""
        try:
            for backend in sorted({backend for backend, _ in self.commands}):
                sessions.serve(sessions.backend(backend))
            for command in self.before:
                self.make(sessions, command)
            backend = sessions.backend(self.held[0])
            backend.place = point
            is_answered = self.make(sessions, self.held)
            if point.event is None:
                return None
            events = [made.event for made in backend.made if made.command == self.held[1]]
            backend.place = None
            self.make(sessions, self.made)
            if not is_answered:
                sessions.advance(backend)
                sessions.serve(backend)
            for command in self.after:
                self.make(sessions, command)
            return Swept(point.text(sessions.shown), backend.not_held or "", self.answers(sessions), audit_of_all(sessions),
                         items_of(sessions, events))
        finally:
            sessions.end()

    def make(self, sessions, command: Command):
        """Makes a command: whether it is answered."""
        backend = sessions.backend(command[0])
        sessions.send(backend)
        is_answered = sessions.advance(backend)
        if is_answered:
            sessions.serve(backend)
        return is_answered

    def answers(self, sessions):
        """What both commands were answered."""
        return tuple(sessions.answers[command].text for command in (self.held, self.made))


def items_of(sessions, events) -> Tuple[Item, ...]:
    """The items of a schedule up to the last of these events that is an entry here; as many as come to it."""
    words = {name: kind.words for name, kind in KINDS.items() if kind.words}
    names = [tuple(sessions.shown(event[:words[event[0]]]).split()) for event in events if event[0] in words and event[-1] != "again"]
    return tuple(name for name in names if name == names[-1]) if names and not any("~" in word for word in names[-1]) else ()


class Shortest:
    """Scripts that show what a sweep has found: with the same commands, or fewer."""

    def __init__(self, sweep: Sweep, stage, program):
        self.sweep, self.stage, self.program = sweep, stage, program

    def of(self, points: List[Swept]):
        """A script for each place here at which points are stale for good; and points that none shows."""
        places: Dict[Tuple[Item, ...], List[int]] = {}
        for number, point in enumerate(points, 1):
            if point.stale:
                places.setdefault(point.items, []).append(number)
        scripts, without = [], []
        for items, numbers in places.items():
            tried = (items, items + (LOOK,)) if items else ()
            stale = next((each for each in tried if self.is_stale(self.sweep.before, self.sweep.after, each)), ())
            scripts += [(numbers, self.shortest(stale))] if stale else []
            without += numbers * (not stale)
        return scripts, without

    def shortest(self, items):
        """The script from which nothing can be left out."""
        before, after = list(self.sweep.before), list(self.sweep.after)
        for commands in (after, before):
            for command in list(reversed(commands)):
                commands.remove(command)
                if not self.is_stale(before, after, items):
                    commands.append(command)
                    commands.sort(key=self.sweep.commands.index)
        return self.script(before, after, items)

    def script(self, before, after, items):
        """The script of these commands with the schedule of these items."""
        held, made = self.sweep.held, self.sweep.made
        text = {command: "%d: %s" % (command[0], self.sweep.source.commands[command]) for command in self.sweep.commands}
        numbers = {each[0]: 1 + sum(command[0] == each[0] for command in before) for each in (held, made)}
        others = [backend for backend in sorted({command[0] for command in after}) if backend not in (held[0], made[0])]
        steps = ["%d to %s" % (held[0], " ".join(item)) for item in items] + ["%d to %d" % (made[0], numbers[made[0]])] + [
            "%d to end" % backend for backend in [held[0], made[0]] + others]
        lines = ["backends %d" % max(command[0] for command in self.sweep.commands)]
        lines += ["setup " + text[command] for command in before] + [text[command] for command in [made, held] + after]
        return "\n".join(lines + ["steps " + ", ".join(steps), "end", ""])

    def is_stale(self, before, after, items):
        """Whether such a script's play ends stale for good."""
        try:
            source = read_source(self.script(before, after, items).encode("ascii"))
            run = self.program.run(counted_script(source, lambda: self.program))
            with ended():
                return bool(Play(self.stage, source, run).play().stale)
        except Fault:
            return False


def sweep_text(stage, sweep: Sweep, found: AllSwept):
    """The table of points, and the scripts."""
    stale, unplayed = sum(bool(point.stale) for point in found.points), sum(bool(point.fault) for point in found.points)
    held, made = "%d.%d" % sweep.held, "%d.%d" % sweep.made
    lines = ["PostgreSQL %s: %s held at %s, and %s made there; stale for good at %s%s" % (
        stage.version, held, counted(len(found.points), "point"), made, stale or "none",
        "; %d can't be played" % unplayed if unplayed else "")]
    width = max([len(point.place) for point in found.points] + [0])
    for number, point in enumerate(found.points, 1):
        said = ["%s: %s" % (name, text) for name, text in zip((held, made), point.answers) if text != "ok"]
        said += ["not held: " + point.not_held] if point.not_held else []
        said += ["can't be played: " + point.fault] if point.fault else []
        said += [each.text for each in point.audit.stale + point.audit.unread]
        lines.append(("%4d  %-*s  %s" % (number, width, point.place, "; ".join(said))).rstrip())
    for numbers, script in found.scripts:
        lines += ["", "shown at %s:" % points_text(numbers), script.rstrip("\n")]
    if found.without:
        lines += ["", "no schedule here has %s" % points_text(found.without)]
    return "\n".join(lines) + "\n"


def points_text(numbers):
    """`point 3`, `points 3 to 5, 7`."""
    spans: List[List[int]] = []
    for number in numbers:
        if spans and spans[-1][1] == number - 1:
            spans[-1][1] = number
        else:
            spans.append([number, number])
    return "point%s %s" % ("s" * (len(numbers) > 1), ", ".join(
        str(first) if first == last else "%d to %d" % (first, last) for first, last in spans))


