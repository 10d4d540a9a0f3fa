"""Reading what `catsync walk` prints: entries, answers, and the line `end`."""
import re
from typing import List, NamedTuple

from .events import NUMBER, Event, read_event
from .faults import Fault

_LINE = re.compile("([hl]) (%s) (%s) (.+)" % (NUMBER, NUMBER))
PLACE = re.compile(r" as of (?:[0-9]+|_)")      # the entry that an answer names
MOST_BACKENDS = 64


class Entry(NamedTuple):
    """A step of a backend: its number in the history, its line, and what it is."""
    number: int
    line: str
    backend: int
    command: int
    event: Event


class Answer(NamedTuple):
    """The answer of a finished command."""
    line: str
    backend: int
    command: int
    text: str


class Output(NamedTuple):
    """A history and the answers of its commands."""
    entries: List[Entry]
    answers: List[Answer]


def fault_at(entry, text, *parts):
    """A Fault of an entry that can't follow those before it."""
    return Fault("line %d: %s" % (entry.number, text % parts))


def shown(line):
    """A line as a message quotes it."""
    return repr(line if len(line) <= 60 else line[:57] + "...")


def lines_of(data):
    """The lines of an output's bytes. What isn't ASCII becomes `?`, which no entry and no answer holds."""
    text = data.decode("ascii", "replace").replace("\ufffd", "?")
    lines = text.split("\n")
    if lines[-1] == "":
        lines.pop()
    return lines


def entry_of(number, line):
    """The entry of a line, or None where the line isn't one."""
    found = _LINE.fullmatch(line)
    if not found or found.group(1) != "h" or not 1 <= int(found.group(2)) <= MOST_BACKENDS:
        return None
    event = read_event(found.group(4))
    if event is None:
        return None
    return Entry(number, line, int(found.group(2)), int(found.group(3)), event)


def answer_of(line):
    """The answer of a line, or None where the line isn't one."""
    found = _LINE.fullmatch(line)
    if not found or found.group(1) != "l" or not line.isprintable() or "?" in line:
        return None
    return Answer(line, int(found.group(2)), int(found.group(3)), found.group(4))


def _read_entries(lines):
    """The entries at the head of an output."""
    entries = []
    for number, line in enumerate(lines, 1):
        if not line.startswith("h "):
            break
        entry = entry_of(number, line)
        if entry is None:
            raise Fault("line %d: not an entry: %s" % (number, shown(line)))
        entries.append(entry)
    return entries


def _read_answers(lines, first):
    """The answers from a line of this number on, up to the line `end`."""
    answers = []
    for number, line in enumerate(lines[first - 1:], first):
        if line == "end":
            if number < len(lines):
                raise Fault("line %d: nothing may follow the line 'end': %s" % (number + 1, shown(lines[number])))
            return answers
        answer = answer_of(line)
        if answer is None:
            raise Fault("line %d: neither an entry nor an answer: %s" % (number, shown(line)))
        answers.append(answer)
    raise Fault("line %d: the output ends without a line 'end'" % (len(lines) + 1))


def read_output(data):
    """The entries and answers of an output's bytes; a Fault names the first line that is wrong."""
    lines = lines_of(data)
    entries = _read_entries(lines)
    if not entries:
        raise Fault("line 1: no output of catsync, which begins with an entry: %s" % (
            shown(lines[0]) if data.strip() else "the input is empty"))
    return Output(entries, _read_answers(lines, len(entries) + 1))
