"""Events as the lines of a history write them. docs/HISTORY.md says what each is.

docs/GROWING.md has what else a new event, scan or row needs beside its pattern here.
"""
import functools
import re
from typing import NamedTuple

MODES = ("as", "rs", "rx", "su", "sh", "sr", "ex", "ax")

NUMBER = r"(?:0|[1-9][0-9]{0,9})"
NAME = r"[a-z_][a-z0-9_]{0,62}"
DROPPED = r"\.{8}pg\.dropped\.[0-9]+\.{8}"
WORD = r"[a-z0-9_-]{1,63}"
TEXT = r"[a-z0-9_<>=+*-]{1,63}"
MODE = "(?:%s)" % "|".join(MODES)
TYPE = "(?:bool|int2|int4|int8|text|bytea|date|timestamptz)"


class Event(NamedTuple):
    """What a backend did in one step."""
    kind: str
    parts: dict


class Change(NamedTuple):
    """One change of a write: its sign, the catalog's word, and the columns of the row or key."""
    sign: str
    catalog: str
    columns: tuple


def _columns(*patterns):
    """The pattern of columns between parentheses."""
    return r"\((%s)\)" % ",".join(patterns)


# The rows of each catalog, and their keys.
ROWS = {
    "class": (_columns(NUMBER, NAME, "[ri]", "(?:-|%s)" % NUMBER),),
    "att": (_columns(NUMBER, NUMBER, "(?:%s|%s)" % (NAME, DROPPED), TYPE, "-?" + NUMBER, "[ld]"),),
    "def": (_columns(NUMBER, NUMBER, NUMBER, WORD),),
    "ind": (_columns(NUMBER, NUMBER, "[vn]", r"%s(?:\+%s)*" % (NUMBER, NUMBER)),),
    "con": (_columns(NUMBER, NUMBER, NAME, "c", "[vn]", TEXT),
            _columns(NUMBER, NUMBER, NAME, "f", "[vn]", NUMBER, NUMBER, NUMBER)),
    "trg": (_columns(NUMBER, NUMBER, NAME, "[ed]"),),
}
KEYS = {"class": 1, "att": 2, "def": 1, "ind": 1, "con": 1, "trg": 1}

SCANS = {
    "relname": "(?P<name>%s)" % NAME,
    "reloid": "(?P<rel>%s)" % NUMBER,
    "attname": "(?P<rel>%s) (?P<name>%s)" % (NUMBER, "(?:%s|%s)" % (NAME, DROPPED)),
    "attlist": "(?P<rel>%s)" % NUMBER,
    "class": "(?P<rel>%s)" % NUMBER,
    "attribute": "(?P<rel>%s)" % NUMBER,
    "attrdef": "(?P<rel>%s)" % NUMBER,
    "constraint": "(?P<rel>%s)" % NUMBER,
    "index": "(?P<rel>%s)" % NUMBER,
    "trigger": "(?P<rel>%s)" % NUMBER,
    "indexrow": "(?P<rel>%s)" % NUMBER,
}

# The forms of events by their first word: the kind, and the pattern of what follows the word.
FORMS = {
    "start": (("start", ""),),
    "look": (("look", " (?P<answer>yes|no)"),),
    "fetch": (("fetch", " (?P<count>[1-9]|[12][0-9]|3[0-2])"), ("fetch reset", " reset")),
    "lock": (("lock ok", " (?P<rel>%s) (?P<mode>%s) ok" % (NUMBER, MODE)),
             ("lock held", " (?P<rel>%s) (?P<mode>%s) held (?P<holder>%s) (?P<held>%s)" % (NUMBER, MODE, NUMBER, MODE))),
    "unlock": (("unlock", " (?P<rel>%s) (?P<mode>%s)" % (NUMBER, MODE)),),
    "scan": tuple(("scan", " (?P<purpose>%s) %s rows (?P<rows>%s)" % (word, key, NUMBER)) for word, key in SCANS.items()),
    "write": (("write", " (?P<xid>%s)(?P<changes>(?: [^ ]+)+)" % NUMBER),),
    "clash": (("clash row", " (?P<name>%s) row (?P<rel>%s)" % (NAME, NUMBER)),
              ("clash running", " (?P<name>%s) running (?P<xid>%s)" % (NAME, NUMBER))),
    "visible": (("visible", " (?P<xid>%s)" % NUMBER),),
    "publish": (("publish", " (?P<count>[1-9]|[1-5][0-9]|6[0-4])"),),
    "release": (("release", " (?P<from>%s)" % NUMBER),),
    "gone": (("gone", " (?P<from>%s)" % NUMBER),),
    "fail": (("fail", ""),),
    "stop": (("stop", ""),),
}
NUMBERS = ("count", "rel", "holder", "rows", "xid", "from")


def _compiled(forms):
    """The same forms with compiled patterns."""
    return {word: tuple((kind, re.compile(pattern)) for kind, pattern in kinds) for word, kinds in forms.items()}


_FORMS = _compiled(FORMS)
_ADDED = {word: re.compile("|".join("(?:%s)" % row for row in rows)) for word, rows in ROWS.items()}
_REMOVED = {word: re.compile(_columns(*[NUMBER] * count)) for word, count in KEYS.items()}
_FORCED = re.compile("!(%s)" % NUMBER)
_CHANGE = re.compile(r"([+=-])([a-z]+)(\(.*\))")


def read_change(text):
    """One change of a write, or None where the text is none."""
    forced = _FORCED.fullmatch(text)
    if forced:
        return Change("!", "", (forced.group(1),))
    found = _CHANGE.fullmatch(text)
    if not found or found.group(2) not in ROWS:
        return None
    sign, catalog, columns = found.groups()
    pattern = (_REMOVED if sign == "-" else _ADDED)[catalog]
    if not pattern.fullmatch(columns):
        return None
    return Change(sign, catalog, tuple(columns[1:-1].split(",")))


def _parts(groups):
    """The named parts of an event, numbers as numbers; None where a write's changes aren't changes."""
    parts = {name: int(text) if name in NUMBERS else text for name, text in groups.items()}
    if "changes" in parts:
        parts["changes"] = [read_change(text) for text in parts["changes"].split()]
        if None in parts["changes"]:
            return None
    return parts


@functools.lru_cache(maxsize=65536)
def read_event(text):
    """The event of a text, or None where no event has that text."""
    word = text.split(" ", 1)[0]
    for kind, pattern in _FORMS.get(word, ()):
        found = pattern.fullmatch(text, len(word))
        if found:
            parts = _parts(found.groupdict())
            return None if parts is None else Event(kind, parts)
    return None
