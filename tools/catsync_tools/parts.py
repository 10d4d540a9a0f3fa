"""Parts of a search, as files: what one part found, and all parts put together."""
import json
from typing import Dict, List, NamedTuple, Optional, Tuple

from .faults import Fault
from .findings import Answers, Findings, Found
from .report import Extent, Serial, Shown
from .search import COMMANDS, TRANSACTIONS
from .sentences import counted, listed

FORM = "catsync explore part, form 1"
MOST_PARTS = 4096
SAME = ("script", "places", "random", "seed", "parts")      # what all parts of a search have in common


class Part(NamedTuple):
    """What one part of a search found."""
    script: str
    places: bool
    random: Optional[int]               # how many schedules are drawn in all parts; all orders are run where there is none
    seed: str
    part: int
    parts: int
    is_over: bool
    schedules: int
    serial: Optional[Dict[str, str]]    # of the first part: kinds of serial orders by their answers, joined by line feeds
    is_serial_over: bool
    sets: List[Tuple[Answers, Found]]   # answers with places


def part_text(part: Part):
    """The file of a part."""
    sets = [{"answers": list(answers), "count": found.count, "turns": found.turns, "size": found.size, "least": found.least}
            for answers, found in part.sets]
    fields = dict(part._asdict(), form=FORM, sets=sets)
    return json.dumps(fields, indent=1, sort_keys=True) + "\n"


def _is_count(value):
    """Whether it is a number, which true and false are not."""
    return type(value) is int and value >= 0


def _is_pair(value):
    """Whether it is a turn or a size."""
    return isinstance(value, list) and len(value) == 2 and all(_is_count(number) for number in value)


def _is_text(value):
    """Whether it is a text that can be printed again."""
    return isinstance(value, str) and value.encode("utf-8", "surrogateescape") is not None


def _is_serial(value):
    """Whether it is the kinds of serial orders by their answers."""
    return isinstance(value, dict) and all(
        _is_text(key) and kind in (TRANSACTIONS, COMMANDS) for key, kind in value.items())


def _is_set(value):
    """Whether it is a set of answers, with what is known of it."""
    answers, turns = value["answers"], value["turns"]
    return (isinstance(answers, list) and all(_is_text(answer) for answer in answers)
            and isinstance(turns, list) and all(_is_pair(turn) for turn in turns)
            and _is_count(value["count"]) and _is_pair(value["size"]) and _is_pair(value["least"]))


CHECKS = {
    "script": _is_text, "places": lambda value: isinstance(value, bool),
    "random": lambda value: value is None or _is_count(value), "seed": _is_text, "part": _is_count, "parts": _is_count, "is_over": lambda value: isinstance(value, bool),
    "schedules": _is_count, "serial": lambda value: value is None or _is_serial(value),
    "is_serial_over": lambda value: isinstance(value, bool),
    "sets": lambda value: isinstance(value, list) and all(_is_set(one) for one in value),
}


def read_part(path, data):
    """The part of a file."""
    try:
        fields = json.loads(data.decode("utf-8"))
        if fields.pop("form") != FORM or not all(is_right(fields[name]) for name, is_right in CHECKS.items()):
            raise ValueError
        sets = [(tuple(one["answers"]), Found(one["count"], [tuple(turn) for turn in one["turns"]], tuple(one["size"]),
                                              tuple(one["least"]))) for one in fields.pop("sets")]
        part = Part(sets=sets, **fields)
        if not 1 <= part.part <= part.parts <= MOST_PARTS:
            raise ValueError
        return part
    except (ValueError, KeyError, TypeError, AttributeError, RecursionError):
        raise Fault("%s: not what 'explore --part' prints" % path)


def check_same(paths, parts: List[Part]):
    """A Fault where two files aren't different parts of one search."""
    seen: Dict[int, str] = {}
    for path, part in zip(paths, parts):
        for name in SAME:
            if getattr(part, name) != getattr(parts[0], name):
                raise Fault("%s: of another search than %s: %s differs" % (path, paths[0], name))
        if part.part in seen:
            raise Fault("%s: part %d of %d, as is %s" % (path, part.part, part.parts, seen[part.part]))
        seen[part.part] = path


def merged(parts: List[Part]):
    """What all parts have found: what was run, the serial orders, and the sets of answers."""
    findings, answers = Findings(parts[0].places), {}
    for part in sorted(parts, key=lambda part: part.part):
        for with_places, found in part.sets:
            key = findings.key(with_places)
            findings.merge({key: found})
            if findings.sets[key].turns == found.turns:
                answers[key] = with_places
    firsts = [part for part in parts if part.serial is not None]
    kinds = {tuple(key.split("\n")): kind for part in firsts for key, kind in part.serial.items()}
    return (extent_of(parts), Serial(kinds, bool(firsts) and firsts[0].is_serial_over),
            [Shown(answers[key], found, None) for key, found in findings.sorted()])


def extent_of(parts: List[Part]):
    """What was run in all parts, and which parts are missing or were stopped."""
    first = parts[0]
    found = {part.part for part in parts}
    missing = [str(part) for part in range(1, first.parts + 1) if part not in found]
    stopped = [str(part.part) for part in sorted(parts, key=lambda part: part.part) if not part.is_over]
    said = [word + listed(numbers) for word, numbers in (("without ", missing), ("not to the end of ", stopped)) if numbers]
    return Extent(sum(part.schedules for part in parts), first.random is not None, first.seed, None, not said,
                  " of %s, %s" % (counted(first.parts, "part"), " and ".join(said)) if said else "")
