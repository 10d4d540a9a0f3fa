"""What tools/explore prints."""
from html import escape
from typing import List, NamedTuple, Optional

from .faults import Fault
from .findings import Answers, Found, without_places
from .program import Run
from .scripts import Turns, steps_line
from .search import COMMANDS, TRANSACTIONS, lines_of
from .sentences import counted, estimate


class Shown(NamedTuple):
    """A set of answers as it is shown: with places, and the run that led to it where it was run again."""
    answers: Answers
    found: Found
    run: Optional[Run]


class Extent(NamedTuple):
    """What was run: how many schedules, of which kind, and whether that is all there is to run."""
    schedules: int
    is_random: bool
    seed: str
    most_orders: Optional[int]      # where there are more orders than this, so that schedules were drawn
    is_over: bool
    parts: str                      # of which parts, or nothing
    guess: Optional[int] = None     # about how many orders there are, where schedules were drawn
    is_guessed: bool = False        # whether it is by this alone that there are more orders

    @property
    def ran(self):
        """How many schedules."""
        return counted(self.schedules, "random schedule" if self.is_random else "order")

    @property
    def text(self):
        """What was run, and whether that is all."""
        ran = self.ran
        if self.is_random:
            ran += " from seed %s" % self.seed
            if self.most_orders is not None:
                ran += ", as there %s more than %s" % ("seem to be" if self.is_guessed else "are", counted(self.most_orders, "order"))
        elif self.is_over:
            ran = "all " + ran
        ran += self.parts
        return ran if self.is_over else "stopped after " + ran

    @property
    def guessed(self):
        """Lines of about how many orders there are."""
        return [] if self.guess is None else ["there are %s" % estimate(self.guess, self.most_orders)]


class Serial(NamedTuple):
    """The answers of serial orders, each with the first kind of order that has them, and whether all were run."""
    kinds: dict
    is_over: bool

    def is_interleaved(self, answers):
        """Whether no serial order of commands has these answers."""
        return without_places(answers) not in self.kinds

    def is_of_commands(self, answers):
        """Whether a serial order of commands has these answers, and none of transactions."""
        return self.kinds.get(without_places(answers)) == COMMANDS

    def mark(self, answers):
        """What is said of a set of answers."""
        kind = self.kinds.get(without_places(answers))
        if kind == TRANSACTIONS:
            return ""
        mark = ", only when transactions are interleaved" if kind == COMMANDS else ", only when interleaved"
        return mark if self.is_over else mark + ", as far as was tried"


def run_again(exploration, answers: Answers, turns: Turns):
    """The run of the schedule that stands for a set of answers."""
    run = exploration.runner.with_turns(turns)
    if exploration.findings.key(run.answers) != answers:
        raise Fault("two schedules of one order have other answers, so it isn't one: %s" % steps_line(turns))
    return run


def shown_sets(exploration) -> List[Shown]:
    """All sets of answers, each run again."""
    sets = exploration.findings.sorted()
    runs = [run_again(exploration, answers, found.turns) for answers, found in sets]
    return [Shown(run.answers, found, run) for (_, found), run in zip(sets, runs)]


def led_to(found: Found, all_schedules):
    """How many schedules led to a set of answers; and where it isn't sure that the shortest is known, what is known."""
    count = "%d of %s" % (found.count, all_schedules)
    if found.count == 0:
        count = "none of the %s, but an order that was run before them" % all_schedules.split(" ", 1)[1]
    if found.is_shortest:
        return count
    return "%s (%d turns; the fewest are %d or more)" % (count, found.size[0], found.least[0])


def head_of(extent: Extent, serial: Serial, sets: List[Shown]):
    """What was run, and how many sets there are; where no set comes only when commands are interleaved, also how many come only when
    transactions are."""
    interleaved, of_commands = (sum(which(shown.answers) for shown in sets) for which in (serial.is_interleaved, serial.is_of_commands))
    more = ", %d only when transactions are interleaved" % of_commands if of_commands and not interleaved else ""
    return ["%s: %s of answers, %s only when interleaved%s" % (extent.text, counted(len(sets), "set"), interleaved or "none", more)
            ] + extent.guessed


def lines_of_set(extent: Extent, serial: Serial, number, shown: Shown):
    """A set of answers, with how many schedules led to it, and the shortest of these."""
    return ["set %d: %s%s" % (number, led_to(shown.found, extent.ran), serial.mark(shown.answers)),
            steps_line(shown.found.turns)] + list(shown.answers)


def report(extent: Extent, serial: Serial, sets: List[Shown]):
    """All sets of answers."""
    lines = head_of(extent, serial, sets)
    for number, shown in enumerate(sets, 1):
        lines += [""] + lines_of_set(extent, serial, number, shown)
    return "\n".join(lines) + "\n"


INDEX = """<!DOCTYPE html>
<html lang="en">
<meta charset="utf-8">
<meta name="viewport" content="width=device-width">
<title>%(title)s</title>
<style>
body { font: 15px/1.5 sans-serif; margin: 1.5em; max-width: 90em }
img { max-width: 100%% }
iframe { width: 100%%; height: 40em; border: 1px solid #bbb }
pre { white-space: pre-wrap }
</style>
%(body)s
</html>
"""


def index_page(extent: Extent, serial: Serial, sets: List[Shown], are_pages):
    """A page of all sets, each with its picture, which lies beside it."""
    head = head_of(extent, serial, sets)
    body = ["<p>%s</p>" % escape(line) for line in head]
    for number, shown in enumerate(sets, 1):
        first, *lines = lines_of_set(extent, serial, number, shown)
        name = "set%d.%s" % (number, "html" if are_pages else "svg")
        picture = '<iframe src="%s" loading="lazy" title="set %d"></iframe>' if are_pages else '<img src="%s" loading="lazy" alt="set %d">'
        body += ['<h2 id="set%d"><a href="%s">%s</a></h2>' % (number, name, escape(first)),
                 "<pre>%s</pre>" % escape("\n".join(lines)), picture % (name, number)]
    return INDEX % {"title": escape(head[0]), "body": "\n".join(body)}


def found_text(extent: Extent, wanted, turns: Turns, run: Run):
    """The schedule that was looked for, with what has the texts."""
    lines = [line for line, bare in zip(run.output.decode("ascii").splitlines(), lines_of(run))
             if any(pattern.search(bare) for pattern in wanted)]
    where = "found after %s:" % extent.ran if extent.schedules else "found in a serial order:"
    return "\n".join([where, steps_line(turns)] + lines) + "\n"


def not_found(extent: Extent, texts):
    """That no schedule has the texts."""
    none = "no answer and no entry has the text " if len(texts) == 1 else "none has all of these texts: "
    return "\n".join(["%s: %s%s" % (extent.text, none, ", ".join(texts))] + extent.guessed) + "\n"
