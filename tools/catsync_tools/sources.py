"""Scripts as people write them: the grammar of scripts (docs/SCRIPT.md), and beside it set-up lines, schedules by name,
expectations, comments behind a command, and PostgreSQL's usual spellings (docs/TOOLS.md).

    backends 2
    setup 1: create table t (a int4)
    1: alter table t add b text     -- the column is new
    2: show t columns
    steps 1 to visible, 2 to 1, 1 to end, 2 to end
    expect 2.1 error 55P03
    end

A script by the grammar is one of these, and what the program is given of it is the script itself, byte for byte.
"""
import re
from difflib import get_close_matches
from typing import Dict, List, NamedTuple, Tuple

from .expected import Expectation, check_expectation, read_expectation
from .faults import Fault
from .items import Answered, Count, Item, check_item, read_items
from .scripts import Script
from .spellings import refused, respelled, tokens_of, without_comment, words_of

MOST_BYTES = 1048576
OTHER, COMMAND, STEPS, EXPECT, SERVER = "other", "command", "steps", "expect", "server"

FIRST_WORDS = ("expect", "server", "setup", "steps")

_COMMAND = re.compile(r"([ \t]*([0-9]{1,9})[ \t]*:)(.*)", re.DOTALL)
_NUMBER = re.compile("[0-9]{1,9}")
_OTHER_BYTE = re.compile("[^\t -~]")
_SETUP = re.compile(r"[ \t]*setup(?=[ \t])[ \t]*", re.IGNORECASE)
_SERVER = re.compile(r"[ \t]*server[ \t]+([0-9]{1,9})[ \t]*\.[ \t]*([0-9]{1,9})[ \t]*:[ \t]*(.*\S)[ \t]*", re.IGNORECASE)


class Line(NamedTuple):
    """A line up to `end`: its kind, how the grammar has it, and of a line of steps its items."""
    kind: str
    text: bytes
    items: Tuple[Item, ...] = ()


class Source(NamedTuple):
    """A script as it is written: its lines, and from `end` on those of its tail. A command is known by its backend and its
    number there."""
    lines: List[Line]
    tail: List[bytes]
    commands: Dict[Tuple[int, int], str]
    setup: List[Item]
    expected: List[Expectation]
    served: Dict[Tuple[int, int], List[str]]        # what tools/replay asks the server alone, after which command

    @property
    def script(self):
        """Its commands, at their lines, without a schedule."""
        return Script([line.text for line in self.lines if line.kind != STEPS])

    @property
    def items(self):
        """The items of its schedule."""
        return [item for line in self.lines for item in line.items]

    @property
    def has_names(self):
        """Whether the program has to be run to know the schedule in counts."""
        return bool(self.setup) or any(not isinstance(item.until, Count) for item in self.items)


def named(text):
    """What the first byte of a text is, where it has a name or begins a character of UTF-8."""
    known = {"\r": " (a carriage return that no line feed follows)", "\0": " (NUL)"}
    for count in (2, 3, 4) if text[:1] >= "\x80" else ():
        try:
            code = ord(text[:count].encode("latin-1").decode("utf-8"))
        except (UnicodeDecodeError, TypeError):
            continue
        return " (a byte order mark)" if code == 0xFEFF else " (of the character U+%04X)" % code
    return known.get(text[:1], "")


def no_backends(number):
    """The fault of a script without a line of backends, where another line stands in place of it."""
    return Fault("line %d: NoBackends: the first line, but for a ring line, must read 'backends N'" % number)


class Reader:
    """Reads the lines of a script one after the other."""

    def __init__(self):
        self.source = Source([], [], {}, [], [], {})
        self.backends = 0
        self.counts: Dict[int, int] = {}
        self.latest = OTHER
        self.has_none = True            # no line yet but blank ones, comments, a ring and what is expected

    def read(self, line):
        """One more line, without its line feed."""
        written = line.decode("latin-1")
        written = written[:-1] if written.endswith("\r") else written
        text = written if written.lstrip(" \t").startswith("--") else without_comment(written)
        words = words_of(text)
        if text != written:
            line = text.encode("latin-1")
        if self.source.tail:
            if words and not words[0].startswith("--"):
                raise Fault("line %d: AfterEnd: only blank lines and comments may follow the 'end' line" % self.number)
            self.source.tail.append(line)
        elif words == ["end"]:
            self.source.tail.append(line)
        elif not words or words[0].startswith("--"):
            self.put(OTHER, line)
        else:
            self.take(line, text, words)

    @property
    def number(self):
        """The number of the line that is read."""
        return len(self.source.lines) + len(self.source.tail) + 1

    def put(self, kind, line, items=()):
        """The line's form for the program."""
        self.source.lines.append(Line(kind, line, tuple(items)))

    def take(self, line, text, words):
        """A line that counts, before `end`."""
        other = _OTHER_BYTE.search(text)
        if other:
            raise Fault("line %d: BadByte: the byte 0x%02X in column %d%s is neither printable ASCII nor a tab" % (
                self.number, ord(other.group()), other.start() + 1, named(text[other.start():])))
        first = tokens_of(text)[0]
        if self.has_none and first not in ("ring", "expect", "server"):
            if first != "backends":
                raise no_backends(self.number)
            self.has_none = False
        if first == "end":
            raise Fault("line %d: UnknownBackend: the line 'end' has that word alone, without a semicolon" % self.number)
        if words[0] == "steps":
            self.put(STEPS, line, read_items(self.number, text))
            self.latest = STEPS
        elif words[0] == "expect":
            self.source.expected.append(read_expectation(self.number, text))
            self.put(EXPECT, b"-- " + line)
        elif words[0] == "server":
            self.take_served(line, text)
        elif words[0] == "setup":
            self.take_setup(line, text)
        elif _COMMAND.fullmatch(text):
            self.latest = COMMAND if self.latest != STEPS else STEPS
            self.take_command(line, text)
        else:
            near = get_close_matches(first, FIRST_WORDS, 1, 0.75) if first not in (*FIRST_WORDS, "backends", "ring") else []
            if near:
                raise Fault("line %d: UnknownBackend: no line begins with '%s'; is '%s' meant?" % (self.number, first, near[0]))
            if words[0] == "backends" and len(words) == 2 and _NUMBER.fullmatch(words[1]):
                self.backends = int(words[1])
            self.put(OTHER, line)

    def take_setup(self, line, text):
        """A set-up line: a command, which has to come before all others."""
        if self.latest != OTHER:
            raise Fault("line %d: a set-up line must come before all other commands" % self.number)
        command = text[_SETUP.match(text).end():] if _SETUP.match(text) else ""
        if not _COMMAND.fullmatch(command):
            raise Fault("line %d: a set-up line must read 'setup B: COMMAND'" % self.number)
        number = self.number
        backend = self.take_command(command.encode("latin-1"), command)
        self.source.setup.append(Item(number, " ".join(text.split()), backend, Answered(self.counts[backend])))

    def take_served(self, line, text):
        """What the server alone is asked after a command; 0 stands for before the first."""
        found = _SERVER.fullmatch(text)
        if not found:
            raise Fault("line %d: a line for the server must read 'server B.C: SQL'" % self.number)
        self.source.served.setdefault((int(found.group(1)), int(found.group(2))), []).append(found.group(3))
        self.put(SERVER, b"-- " + line)

    def take_command(self, line, text):
        """A command line; its backend."""
        place, backend, command = _COMMAND.fullmatch(text).groups()
        if self.latest == STEPS:
            raise Fault("line %d: LateCommand: no command may follow a steps line" % self.number)
        if refused(command):
            raise Fault("line %d: %s" % (self.number, refused(command)))
        spelled = respelled(command)
        self.counts[int(backend)] = self.counts.get(int(backend), 0) + 1
        self.source.commands[int(backend), self.counts[int(backend)]] = command.strip()
        self.put(COMMAND, line if spelled == command else (place + spelled).encode("latin-1"))
        return int(backend)

    def checked(self):
        """The whole script, once all lines are read. What the grammar says of the lines themselves the program tells."""
        if not self.source.tail:
            # what follows the last line feed is a line only where there is something
            number = self.number - 1 + (self.source.lines[-1].text != b"")
            raise no_backends(number) if self.has_none else Fault("line %d: NoEnd: the input ends without an 'end' line" % number)
        if self.backends:
            for item in self.source.items:
                check_item(item, self.backends, self.counts)
        for expectation in self.source.expected:
            check_expectation(expectation, self.counts)
        for backend, command in self.source.served:
            if backend not in self.counts or command > self.counts[backend]:
                raise Fault("there is no command %d of backend %d, after which the server is asked" % (command, backend))
        return self.source


def read_source(data):
    """The script of an input; a Fault names the line that has none of its forms."""
    if len(data) > MOST_BYTES:
        raise Fault("the input has more than %d bytes, or 268435456 for check" % MOST_BYTES)
    reader = Reader()
    for line in data.split(b"\n"):
        reader.read(line)
    return reader.checked()
