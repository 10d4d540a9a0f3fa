"""Expectations of what no answer can have, as no command of the script asks for it or as it contradicts itself. One that says that
this never comes says nothing, and another can't be met."""
import itertools
import re
from typing import List, NamedTuple, Optional

from .expected import CODES, MORE, NEVER, NONE, Part
from .matching import ANSWERED_BY_WORD, MODES, SHOWS_FIELDS, TYPES
from .spellings import respelled, tokens_of

FIELDS = ("columns", "defaults", "statistics", "fillfactor", "constraints", "referenced", "indexes", "triggers", "of", "valid")
CODES_OF_SHOW = ("25p02", "42809", "42p01", "53200", "55p03")
TYPE_NAMES = ("bool", "int2", "int4", "int8", "text", "bytea", "date", "timestamptz")
# The words of answers (docs/HISTORY.md) beside names.
WORDS = frozenset("""
    ok rolled back table index name column as of none no answer error check fk v n e d
    the transaction block has failed savepoint does not exist is open relation constraint trigger locked by backend in use already
    exists a an field this session other objects depend on used or value out range too many columns want memory
    """.split()) | frozenset(FIELDS) | frozenset(MODES.values()) | frozenset(TYPE_NAMES)

_ATOM = re.compile("(?<![a-z0-9_])[a-z_][a-z0-9_]*")
_CHECK = re.compile(r"check[ \t]*\((.*)\)")
_CODE = re.compile("(?:^|(?<= ))error ([0-9a-z]+)")
_BACKEND = re.compile("(?:^|(?<= ))backend ([0-9]{1,9})(?![^ ;])")
_FILLFACTOR, _STATISTICS = re.compile("fillfactor = ([0-9]+)"), re.compile("set statistics (-?[0-9]+)")
MOST_STATISTICS = 10000     # what is set above it is written so
ITEMS = {"columns": "a:int4", "statistics": "1:100"}        # as an item may read
ORDERS = (("name",) + FIELDS[:8], ("name",) + FIELDS[8:])   # of the fields of a table, and of an index
WHOLE = ("ok", "rolled back", NONE)                         # answers that are no more than these words


class Value(NamedTuple):
    """What a text says of a field: its value, or, where it goes on, how that begins."""
    field: str
    text: str
    goes_on: bool


def is_empty(expectation, source, is_broken):
    """Whether an expectation that something never comes says nothing, as no answer can have that."""
    return expectation.runs == NEVER and not is_broken and doubt_of(expectation, source) is not None


def said_of(expectation, source, is_met, is_broken) -> List[str]:
    """What is said of an expectation of which no answer can have the text, by whether that was met or broken."""
    doubt = doubt_of(expectation, source)
    if doubt is None or (is_broken if expectation.runs == NEVER else is_met):
        return []
    return ["%s: %s" % ("says nothing" if expectation.runs == NEVER else "can't be met", doubt)]


def doubt_of(expectation, source) -> Optional[str]:
    """Why no answer can have what an expectation says, where that can be seen from the script."""
    doubts = (doubt_of_part(part, source) for part in expectation.parts)
    return next((doubt for doubt in doubts if doubt), None) or doubt_of_pairs(expectation.parts)


def doubt_of_part(part: Part, source):
    """The same of one of its texts."""
    text = text_of(part)
    command = " ".join(source.commands[part.backend, part.command].split())
    words, called = tokens(command), "%d.%d, '%s'," % (part.backend, part.command, command)
    return (doubt_of_names(text, source) or doubt_of_code(text, words, called) or doubt_of_fields(text, words, called)
            or doubt_of_items(text, words, source) or doubt_of_order(text))


def text_of(part: Part):
    """A text in small letters, without what says that its field goes on."""
    text = part.text.lower()
    return text[:-len(MORE)] if text.endswith(MORE) else text


def tokens(command):
    """The tokens of a command in the grammar's form."""
    return [token for token in tokens_of(respelled(" ".join(command.split()))) if token != ";"]


def doubt_of_pairs(parts):
    """Two texts of one command that no answer has both."""
    for one, other in itertools.combinations(parts, 2):
        texts = one.text.lower(), other.text.lower()
        if one[:2] == other[:2] and (exclude(*texts) or exclude(*reversed(texts))):
            return "no answer of %d.%d has both '%s' and '%s'" % (one[:2] + (one.text, other.text))
    return None


def exclude(text, other):
    """Whether an answer that has a text can't have the other one. An error's text has no `:`, no `=` and no field; it may begin with
    `name`, as a field does."""
    code, found = _CODE.match(text), _CODE.match(other)
    values, others = values_in(text), values_in(other)
    if text.rstrip("; .") in WHOLE:
        return re.search("(?:^| )%s(?: |$)" % re.escape(other.rstrip("; .")), text) is None
    if code:
        is_field = any(value.field != "name" for value in others)
        return found.group(1) != code.group(1) if found else ":" in other or "=" in other or is_field
    return any(one.field == two.field and not can_be_one(one, two) for one in values for two in others)


def values_in(text) -> List[Value]:
    """What a text says of fields. What begins amid a field says nothing of it."""
    goes_on = text.endswith(MORE)
    parts = [part.split() for part in (text[:-len(MORE)] if goes_on else text).split(";")]
    return [Value(part[0], " ".join(part[1:]), goes_on and part is parts[-1]) for part in parts
            if len(part) > 1 and (part[0] in FIELDS and (part[0] != "of" or ":" in part[1]) or part[0] == "name" and len(part) == 2)]


def can_be_one(one: Value, other: Value):
    """Whether one value can be as both say."""
    texts = sorted((one.text.split(), other.text.split()), key=len)
    may_go_on = [value.goes_on for value in sorted((one, other), key=lambda value: len(value.text.split()))]
    return texts[0] == texts[1][:len(texts[0])] and (may_go_on[0] or len(texts[0]) == len(texts[1]))


def doubt_of_order(text):
    """Two fields that don't come one after the other in an answer."""
    fields = [part.split()[0] for part in text.split(";") if part.strip()]
    for first, second in zip(fields, fields[1:]):
        if not {first, second} <= set(FIELDS + ("name",)):
            continue
        if not any((first, second) in zip(order, order[1:]) for order in ORDERS):
            return "no answer has '%s' right after '%s': join texts of one answer by 'and'" % (second, first)
    return None


def doubt_of_names(text, source):
    """A name that no command has."""
    named = "\n".join(source.commands.values()).lower()
    known = WORDS | set(_ATOM.findall(named))
    checks = re.sub("[ \t]", "", " ".join(_CHECK.findall(named)))        # their blanks are dropped
    for atom in _ATOM.findall(text):
        if atom not in known and atom not in checks:
            return "no command names '%s'" % atom
    for backend in _BACKEND.findall(text):
        if int(backend) not in {own for own, _ in source.commands}:
            return "backend %s has no command" % backend
    return None


def doubt_of_code(text, words, command):
    """A code that no error has, or none of this command."""
    found = _CODE.search(text)
    if found and found.group(1) not in CODES:
        return "no command is refused with %s" % found.group(1).upper()
    if found and words[:1] == ["show"] and found.group(1) not in CODES_OF_SHOW:
        return "%s is never refused with %s" % (command, found.group(1).upper())
    return None


def doubt_of_fields(text, words, command):
    """A field that its command doesn't show, or an answer that it never has."""
    word = words[0] if words else ""
    if text.rstrip("; ") == "ok" and word in SHOWS_FIELDS + ANSWERED_BY_WORD:
        return "%s is never answered 'ok'" % command
    shown = (words[2:] or FIELDS) if word in SHOWS_FIELDS else [word]
    for field in (part.split()[0] for part in text.split(";") if part.strip()):
        if field in FIELDS and field not in shown:
            return "%s shows no field '%s'" % (command, field)
    return None


def doubt_of_items(text, words, source):
    """An item that its field never has: of another form, of a type that no command names, or a number that none sets."""
    if words[:1] not in [[word] for word in SHOWS_FIELDS + ("columns",)]:
        return None
    commands = [tokens(command) for command in source.commands.values()]
    values = {"columns": {TYPES.get(token, token) for command in commands for token in command} & set(TYPE_NAMES),
              "statistics": numbers_of(_STATISTICS, commands, MOST_STATISTICS) | {"-1"}, "fillfactor": numbers_of(_FILLFACTOR, commands)}
    for field, *items in (part.split() for part in text.split(";") if part.strip()):
        for item in items if field in values else ():
            if item == "-":
                continue
            if field in ITEMS and item.count(":") != 1:
                return "an item of '%s' reads %s" % (field, ITEMS[field])
            value = item.split(":")[-1]
            if value not in values[field]:
                return "no command names the type '%s'" % value if field == "columns" else "no command sets %s %s" % (field, value)
    return None


def numbers_of(pattern, commands, most=None):
    """The numbers that commands set, as answers have them: at most so much."""
    found = [int(number) for command in commands for number in pattern.findall(" ".join(command))]
    return {str(number if most is None else min(number, most)) for number in found}
