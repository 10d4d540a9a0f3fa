"""What holds at each entry, for a page to show: as things that hold from one entry to another, and as the log with each
backend's place in it. So a state is found at any entry, and none is kept.

A thing holds after its first entry and no more after its last. Numbers of entries in texts stand in braces.
"""
import bisect
from typing import Dict, List, NamedTuple, Optional

from .layout import CHAR, Layout, Wanted
from .sentences import MODE_NAMES, listed
from .story import Story
from .values import shown, values_of
from .why import Why, at

COMMAND, TRANSACTION, LOCK, KEPT, UNSENT = range(5)


class Thing(NamedTuple):
    """What holds of a backend from an entry to another, or to the end of the history."""
    backend: int
    sort: int
    first: int
    last: Optional[int]
    text: str
    kept: Optional[int] = None          # which one of all that is kept


def phases(backend, sort, first, last, changes):
    """A thing whose text changes: entries with the text from there on, some of which may be None; without empty ones."""
    known = [(entry, text) for entry, text in changes if entry is not None]
    for (begin, text), (end, _) in zip(known, known[1:] + [(last, "")]):
        if end is None or begin < end:
            yield Thing(backend, sort, begin, end, text)


def transaction_things(story: Story):
    """The transactions that run."""
    for transaction in story.transactions:
        since = "since " + at(transaction.first)
        yield from phases(transaction.backend, TRANSACTION, transaction.first, transaction.last, (
            (transaction.first, since), (transaction.wrote, "%s %s" % (transaction.xid, since)),
            (transaction.visible, "%s %s, visible since %s" % (transaction.xid, since, at(transaction.visible or 0)))))


def lock_things(story: Story):
    """The locks that are held."""
    for lock in story.locks:
        text = "%s on %s since %s" % (MODE_NAMES[lock.mode], story.called(lock.rel, lock.name), at(lock.first))
        clear = text + (", clear" if lock.clear == lock.first else ", clear since %s" % at(lock.clear or 0))
        yield from phases(lock.backend, LOCK, lock.first, lock.last, (
            (lock.first, text + ", not clear yet"), (lock.clear, clear)))


def kept_things(story: Story):
    """What is kept."""
    why = Why(story)
    for index, kept in enumerate(story.kept):
        building, built = why.kept(kept, kept.first, ""), why.kept(kept, None, "")
        outdated = ", out of date since %s" % at(kept.outdated or 0)
        changes = [(kept.first, building), (kept.built, built), (kept.outdated, built + outdated)]
        if kept.outdated and (kept.built is None or kept.outdated < kept.built):
            changes = [(kept.first, building), (kept.outdated, building + outdated), (kept.built, built + outdated)]
        for thing in phases(kept.backend, KEPT, kept.first, kept.last, changes):
            yield thing._replace(text=thing.text.strip(), kept=index)


def values_shown(reads):
    """The values of some scans, each with its entry and its field."""
    return [[read.entry, field, shown(value)] for read in reads for field, value in values_of(read.datum, read.rows)]


def kept_values(story: Story, things):
    """What is read and what is true of the things that are kept, by their numbers."""
    return {str(thing.kept): [values_shown(story.kept[thing.kept].read), values_shown(story.kept[thing.kept].true)]
            for thing in things if thing.kept is not None}


def unsent_things(story: Story):
    """What a commit has yet to send."""
    for facts in story.facts:
        transaction = facts.transaction
        if facts.entry.event.kind not in ("visible", "publish") or facts.following is None and transaction.last is None:
            continue
        published = facts.published if facts.entry.event.kind == "publish" else 0
        messages = transaction.messages[published:]
        if messages:
            rels = dict.fromkeys(story.called(message.rel, message.name) for message in messages)
            yield Thing(facts.entry.backend, UNSENT, facts.entry.number, facts.following.number if facts.following else None,
                        "%s, for %s" % (len(messages), listed(rels)))


def command_things(story: Story, wanted: Wanted):
    """The commands, with their answers once they have them: up to the first entry of the next one."""
    begins: Dict[int, List[int]] = {}
    numbers: Dict[int, List[int]] = {}
    for entry in story.entries:
        own = numbers.setdefault(entry.backend, [])
        if not own or own[-1] < entry.command:
            own.append(entry.command)
            begins.setdefault(entry.backend, []).append(entry.number)
    answers = {(answer.backend, answer.command): (number, answer.text)
               for number, some in story.answers.items() for answer in some}
    places = set(answers) | {(backend, number) for backend, own in numbers.items() for number in own}
    for backend, number in sorted(places):
        ended, answer = answers.get((backend, number), (None, ""))
        at_own = bisect.bisect_left(numbers[backend], number)
        is_own = at_own < len(numbers[backend]) and numbers[backend][at_own] == number
        first = begins[backend][at_own] if is_own else ended
        after = begins[backend][at_own + is_own:]
        text = wanted.commands.get((backend, number), "command %d" % number if (backend, number) in answers or number else "")
        if text:
            yield from phases(backend, COMMAND, first, after[0] if after else None,
                              ((first, text), (ended, "%s \u2192 %s" % (text, answer))) if ended != first
                              else ((first, "%s \u2192 %s" % (text, answer)),))


def things_of(story: Story, wanted: Wanted):
    """All things that hold at some entry which is drawn."""
    span = wanted.span
    for things in (command_things(story, wanted), transaction_things(story), lock_things(story), kept_things(story),
                   unsent_things(story)):
        yield from (thing for thing in things if thing.first <= span.last and (thing.last is None or thing.last > span.first))


def part_of_log(story: Story, span):
    """The log as far as a state that is drawn needs it: the names of relations, for each message the index of its own, the
    place of the first, and for each publish how long the log is then."""
    before = [[place for entry, place in own if entry <= span.first] for own in story.log.places.values()]
    start = min([places[-1] for places in before if places] or [0])
    lengths = [(entry, length) for entry, length in story.log.lengths if entry <= span.last]
    names: Dict[str, int] = {}
    indexes = [names.setdefault(story.called(logged.message.rel, logged.message.name), len(names))
               for logged in story.log.all[start:lengths[-1][1] if lengths else 0]]
    return {"names": list(names), "log": indexes, "start": start, "lengths": lengths}


def is_plain_look(facts):
    """Whether it is a look that finds no message, and by which nothing ends and nothing is served."""
    return facts.entry.line.endswith(" look no") and not facts.cleared and not facts.serves


def state_of(story: Story, wanted: Wanted, layout: Layout, sentences):
    """All that a page needs beside its picture."""
    span = wanted.span
    entries = [[facts.entry.backend, facts.entry.line, sentences[facts.entry.number], int(is_plain_look(facts))]
               for facts in story.facts[span.first - 1:span.last]]
    things = list(things_of(story, wanted))
    rows = [[row.content.first, row.content.last, round(row.y - layout.rows[0].y, 1), row.height]
            for row in layout.rows if row.kind == "entry"]
    return {
        "first": span.first, "entries": entries, "rows": rows,
        "things": [list(thing) for thing in things], "kept": kept_values(story, things),
        "lives": [[life.backend, life.first, life.last] for life in story.lives],
        "places": {str(backend): own for backend, own in story.log.places.items()},
        "lanes": {str(lane.backend): [lane.left, lane.right] for lane in layout.lanes.values()},
        "text": layout.text, "char": CHAR, "width": layout.width,
        **part_of_log(story, span),
    }
