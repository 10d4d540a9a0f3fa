"""Where everything of a picture is: rows for entries and answers, lanes for backends, columns in lanes for bars.

All lengths are in pixels of the picture.
"""
from typing import Dict, List, NamedTuple, Tuple

from .locks import Lock
from .steps import steps_of
from .story import Story

CHAR = 7.23             # the width of a character of the texts
ROW, LINE = 18, 15      # the height of a row with one line of text, and of each further line
HEADER = 22
HEADER_EVERY = 40       # rows of entries between two headers
LEAST_BELOW = 10        # entries below a header
WIDTH = 1340            # what a laptop shows beside a page's edge
WIDEST = 10000          # of a window, which a page's rows fill
LEAST_CHARS, MOST_CHARS = 48, 100
MOST_LINES = 3          # of an entry's text, before it is cut
MOST_ANSWER_LINES = 6
NUMBERS_WIDTH = 46
BRIEF_NUMBERS_WIDTH = 84
LEAST_LANE = 84
MOST_WIDE_LANES = 12    # with more lanes each may be half as wide
BAND = 18               # the width of a transaction's bar
FOLDED, FOLDED_BAR = 28, 5      # of a lane that is folded: its width without bars, and the least distance of bars
NAMED_LANE = 72         # a lane that is as wide has its name and not the number alone
KEPT, LOCK = 14, 14     # the distance of two bars of what is kept, and of locks
WIDEST_BARS = 98        # more bars of a kind than this is wide are drawn narrower


Commands = Dict[Tuple[int, int], str]       # the texts of commands, by backend and number


class Span(NamedTuple):
    """The numbers of the first and the last entry that are drawn."""
    first: int
    last: int

    def holds(self, number):
        """Whether an entry is drawn."""
        return self.first <= number <= self.last

    def meets(self, bar):
        """Whether something from one entry to another, or to none yet, is drawn."""
        return bar.first <= self.last and (bar.last is None or bar.last >= self.first)


class Wanted(NamedTuple):
    """What a picture is to have: which entries, the texts of which commands, whether in brief, how wide it may be, and
    whether it is part of a page, which itself has the names of the lanes and the sentences of entries, and fills its window."""
    span: Span
    commands: Commands = {}
    brief: bool = False
    width: int = WIDTH
    in_page: bool = False


class Command(NamedTuple):
    """A command of the script, before its first entry."""
    backend: int
    number: int
    text: str


class Row(NamedTuple):
    """A row: `entry`, `answer`, `command` or `header`; what it is about, its lines of text, and whether more was cut."""
    kind: str
    content: object
    y: float
    height: float
    lines: List[str]
    cut: bool

    @property
    def middle(self):
        """The height of its first line's middle."""
        return self.y + ROW / 2


class Lane(NamedTuple):
    """The lane of a backend: the lines at which messages wait, its marks, and the columns of its bars."""
    backend: int
    left: float
    right: float
    gutter: float
    mark: float
    kept: float
    kept_width: float
    locks: float
    lock_width: float


class Layout(NamedTuple):
    """Where everything is. Rows go to the right edge, in a page to that of the window."""
    span: Span
    rows: List[Row]
    headers: List[Row]
    middles: Dict[int, float]
    lanes: Dict[int, Lane]
    columns: Dict[object, int]
    numbers: float
    top: float
    bottom: float
    text: float
    width: float
    right: float
    height: float

    def middle(self, number):
        """The height of an entry; of one that isn't drawn, the edge of the picture that it lies beyond."""
        if number < self.span.first:
            return self.top
        return self.middles.get(number, self.bottom)


def wrapped(text, chars):
    """A text as lines of so many characters at most, which joined give the text; broken after blanks where that can be."""
    lines = []
    while len(text) > chars:
        at = text.rfind(" ", 1, chars) + 1
        at = at if at > chars // 3 else chars
        lines.append(text[:at])
        text = text[at:]
    return lines + [text]


def cut_lines(lines, most):
    """At most so many lines, and whether some were cut."""
    if len(lines) <= most:
        return lines, False
    return lines[:most - 1] + [lines[most - 1].rstrip()[:-4] + " ..."], True


def placed_in_columns(bars):
    """Columns for bars, so that no two in one column meet; by bar, and how many columns there are."""
    ends, columns = [], {}
    for bar in sorted(bars, key=lambda bar: bar.first):
        last = float("inf") if bar.last is None else bar.last
        at = next((at for at, end in enumerate(ends) if end < bar.first), len(ends))
        ends[at:at + 1] = [last]
        columns[bar] = at
    return columns, len(ends)


class Rows:
    """Makes rows, one below the other."""

    def __init__(self, y, chars):
        self.y, self.chars, self.rows = y, chars, []

    def add(self, kind, content, text, most):
        """One more row, with a text."""
        lines, cut = cut_lines(wrapped(text, self.chars), most)
        height = HEADER if kind == "header" else ROW + LINE * (len(lines) - 1)
        self.rows.append(Row(kind, content, self.y, height, lines, cut))
        self.y += height

    def add_commands(self, commands: Commands, backend, numbers):
        """The rows of some commands of a backend, as far as they have a text."""
        for number in numbers:
            if (backend, number) in commands:
                text = "%d: %s" % (backend, commands[backend, number])
                self.add("command", Command(backend, number, text), text, MOST_LINES)

    @property
    def longest(self):
        """How many characters its longest line has."""
        return max(len(line) for row in self.rows for line in row.lines)


def has_header(at, count):
    """Whether a header is above the row of this index."""
    return at == 0 or (at % HEADER_EVERY == 0 and count - at > LEAST_BELOW)


def rows_of(story: Story, wanted: Wanted, y, chars):
    """The rows of the entries that are drawn, with each command before its first entry, or, where it has none, before its
    answer; the answers; and a header from time to time."""
    rows, begun, last = Rows(y, chars), {}, dict(sorted(wanted.commands))
    for entry in story.entries[:wanted.span.first - 1]:
        begun[entry.backend] = entry.command
    steps = steps_of(story.entries[wanted.span.first - 1:wanted.span.last], wanted.brief)
    for at, step in enumerate(steps):
        if not wanted.in_page and has_header(at, len(steps)):
            rows.add("header", None, "", 1)
        backend, command = step.main.backend, step.main.command
        if begun.get(backend, 0) < command:
            rows.add_commands(wanted.commands, backend, [command])
            begun[backend] = command
        rows.add("entry", step, step.text, MOST_LINES)
        for answer in (answer for entry in step.entries for answer in story.answers.get(entry.number, ())):
            until = min(answer.command, last.get(backend, 0))
            rows.add_commands(wanted.commands, backend, range(begun.get(backend, 0) + 1, until + 1))
            begun[backend] = max(begun.get(backend, 0), answer.command)
            rows.add("answer", answer, answer.line, MOST_ANSWER_LINES)
    return rows


def lanes_of(story: Story, wanted: Wanted, x) -> Tuple[Dict[int, Lane], Dict[object, int], float]:
    """The lanes from a place on, the columns of bars in them, and where the last lane ends. In a page lanes are folded where
    no room would be left for texts."""
    columns, counts = {}, {}
    for backend in (life.backend for life in story.lives):
        kept, kept_count = placed_in_columns(_own(story.kept, backend, wanted.span))
        locks, lock_count = placed_in_columns(_own(story.locks, backend, wanted.span))
        columns.update(kept)
        columns.update(locks)
        counts[backend] = (kept_count, lock_count)
    lanes = wide_lanes(counts, x, 34 if story.log.waiting else 10)
    most = wanted.width - LEAST_CHARS * CHAR - 24
    right = max(lane.right for lane in lanes.values())
    if wanted.in_page and right > most:
        lanes, columns = folded_lanes(counts, columns, x, most)
    return lanes, columns, max(lane.right for lane in lanes.values())


def wide_lanes(counts, x, gutter):
    """Lanes with all their bars side by side."""
    lanes = {}
    least = LEAST_LANE if len(counts) <= MOST_WIDE_LANES else LEAST_LANE / 2
    for backend, (kept_count, lock_count) in counts.items():
        kept_width = min(KEPT, WIDEST_BARS / max(kept_count, 1))
        lock_width = min(LOCK, WIDEST_BARS / max(lock_count, 1))
        mark = x + gutter + BAND / 2
        at_kept = mark + BAND / 2 + 5
        at_locks = at_kept + kept_count * kept_width + 2
        right = max(at_locks + lock_count * lock_width + 8, x + least)
        lanes[backend] = Lane(backend, x, right, x + gutter - 8, mark, at_kept, kept_width, at_locks, lock_width)
        x = right
    return lanes


def folded_lanes(counts, columns, x, most):
    """Lanes up to a place, as far as that is wide enough for their marks; bars share the room that is left, and columns where
    there are more of them."""
    lanes, placed = {}, dict(columns)
    wanted = sum(kept + locks for kept, locks in counts.values())
    bars = max((most - x - FOLDED * len(counts)) / max(wanted, 1), 0)
    for backend, own in counts.items():
        width = max(min(bars, KEPT), FOLDED_BAR)
        fitting = [max(int(bars * count / width), 1) for count in own]
        for bar, column in columns.items():
            if bar.backend == backend:
                placed[bar] = column % fitting[isinstance(bar, Lock)]
        mark = x + FOLDED - BAND / 2 - 4
        at_kept = mark + BAND / 2 + 2
        at_locks = at_kept + fitting[0] * width
        right = at_locks + fitting[1] * width + 2
        lanes[backend] = Lane(backend, x, right, mark - BAND / 2 - 2, mark, at_kept, width, at_locks, width)
        x = right
    return lanes, placed


def _own(bars, backend, span):
    """The bars of a backend that are drawn."""
    return [bar for bar in bars if bar.backend == backend and span.meets(bar)]


def layout_of(story: Story, wanted: Wanted, top, least_width):
    """Where everything of these entries is, below a height that is taken already."""
    numbers = BRIEF_NUMBERS_WIDTH if wanted.brief else NUMBERS_WIDTH
    lanes, columns, right = lanes_of(story, wanted, numbers)
    text = right + 14
    rows = rows_of(story, wanted, top, max(LEAST_CHARS, min(MOST_CHARS, int((wanted.width - text - 10) / CHAR))))
    middles = {entry.number: row.middle for row in rows.rows if row.kind == "entry" for entry in row.content.entries}
    headers = [row for row in rows.rows if row.kind == "header"]
    width = max(text + rows.longest * CHAR + 10, least_width)
    return Layout(wanted.span, rows.rows, headers, middles, lanes, columns, numbers, headers[0].y + HEADER if headers else top,
                  rows.y, text, width, WIDEST if wanted.in_page else width, rows.y + 8)
