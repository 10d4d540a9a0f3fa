"""Schedules by name turned into counts, by running the program.

How many steps an item takes is known only from a run in which all items before it are made. But one run tells of many
items. Their counts are guessed from the steps that each backend made in the run before, and tried all at once. What comes
before the first count that turns out to be wrong is right for good, since the same turns always lead to the same steps; from
there on the run gives better guesses. So a schedule takes as many runs as there were guesses that the backends' meetings
made wrong, and at most two for each item.
"""
from typing import Dict, List, Optional

from .faults import Fault
from .items import NO_ENTRY, Count, Item, Own, Stopped, comma_wanted
from .outputs import PLACE
from .runs import Runs
from .scripts import Turns, steps_line
from .sources import STEPS, Line, Source

Counts = List[Optional[int]]        # of items: how many steps each takes, None where that isn't known


def steps_of_backends(steps):
    """The steps of each backend, in its order."""
    own: Dict[int, Own] = {}
    for backend, command, text in steps:
        own.setdefault(backend, []).append((command, text))
    return own


def counts_in(items: List[Item], run) -> Counts:
    """The counts of items, were each backend's steps those of a run."""
    own, places, counts = steps_of_backends(run.steps), {}, []
    for item in items:
        steps, at = own.get(item.backend, []), places.get(item.backend, 0)
        count = item.until.steps(steps, at)
        places[item.backend] = len(steps) if count is None else min(len(steps), at + count)
        counts.append(count)
    return counts


def refuse(items: List[Item], at, run):
    """Says why an item can't be reached, after those before it in a run."""
    item = items[at]
    own = steps_of_backends(run.steps)[item.backend]
    place = sum(count for other, count in zip(items[:at], counts_in(items, run)) if other.backend == item.backend)
    why = comma_wanted(item.text.split(" "))
    if not why:
        why = item.until.missing(own, min(place, len(own)))
    if why == NO_ENTRY:
        why += refused_from(own[place:], item.backend, run)
    raise Fault("line %d: '%s' can't be reached: %s" % (item.line, item.text, why))


def refused_from(own: Own, backend, run):
    """The first command that is refused of those in which these steps of a backend are."""
    commands = {command for command, _ in own}
    for line in run.answers:
        _, whose, number, answer = line.split(" ", 3)
        if int(whose) == backend and int(number) in commands and answer.startswith("error "):
            return "; %s.%s is answered '%s'" % (whose, number, PLACE.sub("", answer))
    return ""


def counts_of(items: List[Item], runs: Runs) -> Counts:
    """The counts of items. A Fault names the first that can't be reached."""
    tried = counts_in(items, runs.first)
    while True:
        run = runs.run([(item.backend, count) for item, count in zip(items, tried) if count != 0], runs.backends)
        found = counts_in(items, run)
        wrong = [at for at, count in enumerate(found) if count is None or count != tried[at]]
        if not wrong:
            return found
        first = wrong[0]
        if tried[first] is None and found[first] is None:
            refuse(items, first, run)
        if tried[first] is not None and (found[first] is None or found[first] > tried[first]):
            found[first] = None         # its turn was too short to tell: the next one goes on to the stop
        tried = found


def setup_items(source: Source):
    """The items of a set-up: its commands one after the other, and the stops of those backends that have no other command."""
    last = {item.backend: item for item in source.setup}
    others = {backend for backend, number in source.commands
              if backend in last and number > last[backend].until.command}
    return source.setup + [item._replace(until=Stopped()) for item in last.values() if item.backend not in others]


def turns_with(items: List[Item], counts) -> Turns:
    """The turns of items with these counts; those of one backend that follow each other are one."""
    turns: Turns = []
    for item, count in zip(items, counts):
        if turns and turns[-1][0] == item.backend:
            turns[-1] = (item.backend, turns[-1][1] + count)
        elif count:
            turns.append((item.backend, count))
    return turns


def setup_turns(source: Source, runs: Runs) -> Turns:
    """The turns of a script's set-up."""
    items = setup_items(source)
    return turns_with(items, counts_of(items, runs)) if items else []


def scheduled(source: Source, backends) -> List[Line]:
    """A script's lines, with a line of steps for its set-up before its own ones. Where a script with a set-up has none of its
    own the backends go on to their stop."""
    at = next((at for at, line in enumerate(source.lines) if line.kind == STEPS), None)
    if not source.setup:
        return source.lines
    setup = Line(STEPS, b"setup", tuple(setup_items(source)))
    if at is not None:
        return source.lines[:at] + [setup] + source.lines[at:]
    number = len(source.lines) + 1
    rest = tuple(Item(number, "end", backend, Stopped()) for backend in backends)
    return source.lines + [setup, Line(STEPS, b"all to end", rest)]


def counted_line(line: Line, counts):
    """What the program is given in place of a line of steps, with the counts of its items."""
    if all(isinstance(item.until, Count) for item in line.items):
        return [line.text]
    turns = turns_with(line.items, counts)
    return [b"-- " + line.text.strip()] + ([steps_line(turns).encode("ascii")] if turns else [])


def counted_script(source: Source, program):
    """The script for the program, with its schedule in counts. What isn't in its grammar is a comment there. `program` is a
    function that gives the program; it is called only where something has to be counted."""
    lines, counts = source.lines, []
    if source.has_names:
        runs = Runs(program(), source.script)
        lines = scheduled(source, runs.backends)
        counts = counts_of([item for line in lines for item in line.items], runs)
    written, place = [], 0
    for line in lines:
        written += counted_line(line, counts[place:place + len(line.items)]) if line.kind == STEPS else [line.text]
        place += len(line.items)
    return b"\n".join(written + source.tail)
