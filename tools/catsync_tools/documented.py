"""The rows of docs/PROFILE.md by which an answer may differ from the server's, each with the condition under which it does.

A row holds where the part that differs, the command, and the SQLSTATEs of both answers (`ok` where one is none) are its own and
its condition is true of what holds here.
"""
import re
from typing import Callable, NamedTuple, Optional, Pattern, Tuple

from .known import Facts
from .sql import tokens_of

NAME = "[a-z_][a-z0-9_]*"
SYSTEM_COLUMNS = ("ctid", "xmin", "xmax", "cmin", "cmax", "tableoid")
NUMERIC = ("int2", "int4", "int8")
_PLACE = re.compile(r"(?:^|; )(?P<field>[a-z]+) [^;]* as of (?P<place>[0-9]+)")
_REFUSED = re.compile("error ([0-9A-Z]{5}) ")


class Case(NamedTuple):
    """A command and its two answers, and what held here before it."""
    backend: int
    text: str
    here: str
    server: str
    facts: Facts

    @property
    def rel(self):
        """The oid of the relation that the command names first, or None."""
        return self.facts.named(self.backend, self.name) if self.name else None

    @property
    def name(self):
        """The name of that relation."""
        found = _NAMED.match(self.text)
        return found.group(1) if found else None

    @property
    def kind(self):
        """Whether it is a table or an index."""
        return self.facts.kind(self.backend, self.name)

    def is_open(self, rel):
        """Whether the session has a relation open."""
        return rel is not None and self.facts.is_open(self.backend, rel)

    def columns(self):
        """The live columns of that table."""
        return self.facts.columns(self.backend, self.rel) if self.rel else {}


_NAMED = re.compile("(?:(?:create index %s|create trigger %s) on|(?:alter|drop|lock) (?:table|index)|show|peek|open|close|columns?) "
                    "(%s)" % (NAME, NAME, NAME))


def code_of(answer):
    """The SQLSTATE of an error, or `ok`."""
    found = _REFUSED.match(answer)
    return found.group(1) if found else "ok"


Condition = Callable[[Case, tuple], bool]


class Row(NamedTuple):
    """A row: the part that differs, the command, the SQLSTATEs here and in the server, the words of the page, and the condition, which
    has the case and the groups of the command."""
    part: str
    command: Pattern
    here: Tuple[str, ...]
    server: Tuple[str, ...]
    words: str
    holds: Condition


def in_block(case, _groups):
    """Whether the session is in a block."""
    return case.backend in case.facts.blocks


def opened(case, _groups):
    """The session has the relation open."""
    return case.is_open(case.rel)


def index_of_open(case, _groups):
    """The session has the index's table open, and not the index."""
    return case.rel is not None and case.is_open(case.facts.table_of(case.backend, case.rel)) and not case.is_open(case.rel)


def refers_to_open(case, _groups):
    """The session has a table open that a key of this one refers to, and not this one or an index of it."""
    if case.rel is None or case.is_open(case.rel):
        return False
    return any(case.is_open(rel) for rel in case.facts.refers_to(case.backend, case.rel))


def own_index_open(case, _groups):
    """The session has an index of the table open."""
    return case.rel is not None and any(case.is_open(int(row.columns[0])) for row in case.facts.indexes(case.backend, case.rel))


def open_and_referred(case, _groups):
    """The session has the table, or what it locks further, open, and another table's key refers to it."""
    return case.rel is not None and case.facts.is_referred(case.backend, case.rel) and (
        opened(case, ()) or own_index_open(case, ()))


def of_other_kind(case, groups):
    """`alter table` of an index, or `alter index` of a table."""
    return case.kind == ("i" if groups[0] == "table" else "r")


def kind_and_locked(case, groups):
    """The relation is of the other kind, and another holds a lock of it."""
    return of_other_kind(case, groups) and case.facts.is_held(case.backend, case.rel)


def system_column(case, groups):
    """A column that the command names is called as one of the system's."""
    names = [word for group in groups if group for word in re.findall(NAME, group)]
    return any(name in SYSTEM_COLUMNS for name in names)


def taken_name(case, groups):
    """Another's running transaction has taken the new name from a relation, or written it anew under it."""
    return case.facts.in_use(case.backend, groups[0])


def column_used(case, groups):
    """An index, or a foreign key of the table or of another, uses the column."""
    facts, column = case.facts, case.columns().get(groups[0])
    if column is None:
        return False
    if any(column[1] in row.columns[3].split("+") for row in facts.indexes(case.backend, case.rel)):
        return True
    return any(row.columns[3] == "f" and (str(case.rel), column[1]) in (row.columns[1:2] + row.columns[5:6], row.columns[6:8])
               for row in facts.constraints(case.backend, case.rel))


def no_value(case, groups):
    """The word isn't a value of the column's type."""
    column, word = case.columns().get(groups[0]), groups[1]
    if column is None:
        return groups[0] in SYSTEM_COLUMNS
    if column[3] in NUMERIC:
        return re.fullmatch("-?[0-9]+", word) is None
    if column[3] == "bool":
        return word not in ("t", "f", "y", "n", "true", "false", "yes", "no", "on", "off", "1", "0")
    return column[3] in ("date", "timestamptz") and re.fullmatch("now|today|tomorrow|yesterday|epoch|infinity|-infinity", word) is None


def no_condition(case, groups):
    """The check names what is no column, or compares a column of a type that has no such operator, or isn't a condition."""
    columns = case.columns()
    names = [name for name in re.findall(NAME, groups[0])]
    numbers = all(columns[name][3] in NUMERIC for name in names if name in columns)
    return any(name not in columns for name in names) or not numbers or not re.search("[<>=]", groups[0])


def moved_check(case, groups):
    """The constraint is a check whose columns have gone or have other names."""
    return case.rel is not None and groups[0] in case.facts.moved_checks(case.rel)


def has_moved_check(case, _groups):
    """The table has such a check."""
    return case.rel is not None and bool(case.facts.moved_checks(case.rel))


def other_table_locked(case, groups):
    """The table that the key refers to is locked by another against RowShare."""
    facts = case.facts
    return case.rel is not None and any(
        row.columns[3] == "f" and int(row.columns[1]) == case.rel and row.columns[2] == groups[0]
        and facts.is_locked(case.backend, int(row.columns[6]), "rs") for row in facts.constraints(case.backend, case.rel))


def key_not_unique(case, groups):
    """The columns' types differ, or the one referred to isn't unique in the server."""
    facts, referred = case.facts, case.facts.named(case.backend, groups[1])
    own, other = case.columns().get(groups[0]), facts.columns(case.backend, referred).get(groups[2]) if referred else None
    return own is not None and other is not None and (own[3] != other[3] or (referred, other[1]) not in facts.unique)


def other_table_first(case, groups):
    """The key's own column isn't there, and the other table is missing, an index, or locked by another."""
    facts, referred = case.facts, case.facts.named(case.backend, groups[1])
    return groups[0] not in case.columns() and (
        referred is None or facts.kind(case.backend, groups[1]) == "i" or facts.is_locked(case.backend, referred, "sr"))


def many_columns(case, groups):
    """More than 32 columns of an index on an index."""
    return case.kind == "i" and len(groups[0].split(",")) > 32


def read_before(field):
    """The field was read before another's change of the relation became visible."""
    def holds(case, _groups):
        """Whether its place is an entry before that."""
        places = {found.group("field"): int(found.group("place")) for found in _PLACE.finditer(case.here)}
        rel = case.rel or next(iter(case.facts.open.get(case.backend, [])), None)
        latest = max([case.facts.changed.get(rel, 0)] + [case.facts.changed.get(opened, 0) for opened in case.facts.open.get(
            case.backend, ())])
        return field in places and places[field] < latest
    return holds


def lowered(_case, groups):
    """A statistics target above 10,000."""
    return int(groups[0]) > 10000


def own_name(case, groups):
    """A relation is renamed to its own name."""
    return groups[0] == groups[1] and case.rel is not None


_COLUMN = ("alter table (?:%s) (?:add column|drop column|alter column|rename column) (%s)(?: to (%s))?(?: .*)?" % (NAME, NAME, NAME),
           r"create table (?:%s) \( (.*) \)" % NAME, r"create index (?:%s) on (?:%s) \( (.*) \)" % (NAME, NAME),
           r"alter table (?:%s) add constraint .* foreign key \( (%s) \) references (?:%s) \( (%s) \).*" % (NAME, NAME, NAME, NAME))
_KEY = r"alter table (?:%s) add constraint (?:%s) foreign key \( (%s) \) references (%s) \( (%s) \)(?: not valid)?" % ((NAME,) * 5)
_RENAME = "alter (table|index) (?:%s) rename .*" % NAME


def _rows(*rows):
    """Rows, whose commands are patterns."""
    return tuple(Row(part, re.compile(command), here.split(), server.split(), words, holds)
                 for part, command, here, server, words, holds in rows)


ROWS = _rows(
    ("warning", "begin", "ok", "25001", "with a warning (25001, 25P01)", in_block),
    ("warning", "(commit|rollback)", "ok", "25P01", "with a warning (25001, 25P01)", lambda case, groups: not in_block(case, groups)),
    ("warning", ".* set statistics ([0-9]+)", "ok 42703 42P01 42809 55P03 55006", "22023", "lowered to 10,000", lowered),
    ("answer", r"alter (?:table|index) (\S+) rename to (\S+)", "ok", "42P07", "own is 42P07", own_name),
    ("answer", _RENAME, "55006", "ok", "renames what is open", opened),
    ("error", _RENAME, "55006", "42P07 42701 42703 0A000 42809", "renames what is open", opened),
    ("answer", "create trigger .*", "55006", "ok", "makes triggers on it", opened),
    ("error", "create trigger .*", "55006", "42710 42809", "makes triggers on it", opened),
    ("answer", "drop index .*", "55006", "ok", "an index whose table is open", index_of_open),
    ("answer", "drop table .*", "55006", "ok", "has a table open that a key of the dropped one refers to", refers_to_open),
    ("error", "drop table .*", "55006", "2BP01", "55006 comes before 2BP01", open_and_referred),
    ("answer", r"alter (table|index) (?:\S+) (?:rename|set \().*", "42809", "ok", "take an index too", of_other_kind),
    ("error", r"alter (table|index) (?:\S+) (?:rename|set \(|alter column \S+ set statistics).*", "42809",
     "0A000 22023 42703 42701 42P07", "take an index too", of_other_kind),
    ("error", "(?:drop|lock) (table|index) .*", "55P03", "42809", "the kind is tested before the lock", kind_and_locked),
    ("error", r"create index .* \( (.*) \)", "42809", "54011", "before the table's kind is tested", many_columns),
    ("error", "create table (%s) .*" % NAME, "55P03", "42P07", "is 42P07 at once", taken_name),
    ("error", "create index (%s) .*" % NAME, "55P03", "42P07", "is 42P07 at once", taken_name),
    ("error", "alter (?:table|index) (?:%s) rename to (%s)" % (NAME, NAME), "55P03", "42P07", "is 42P07 at once", taken_name),
    ("error", "alter table .* drop column (.*)", "0A000", "2BP01", "is refused with 0A000", column_used),
    ("answer", "alter table .* drop column (.*)", "0A000", "ok", "is refused with 0A000", column_used),
    ("answer", "alter table .* alter column (.*) set default (.*)", "ok", "22P02 22007 42804 0A000", "a default is a word", no_value),
    ("answer", r"alter table .* add constraint .* check \( (.*) \)(?: not valid)?", "ok", "42703 42883 42804 42601 22P02 42P10",
     "the text of a check", no_condition),
    ("error", r"alter table .* add constraint .* check \( (.*) \)(?: not valid)?", "42710", "42703 42883 42804 42601 22P02 42P10",
     "the text of a check", no_condition),
    ("answer", "alter table .* (?:drop|validate|add) constraint (%s)(?: .*)?" % NAME, "ok 42710", "ok 42704",
     "dropped with any column that it names", moved_check),
    ("answer", "alter table .* validate constraint (.*)", "ok", "55P03", "locks the table that the key refers to", other_table_locked),
    ("answer", _KEY, "ok", "42804 42830", "have to be unique", key_not_unique),
    ("error", _KEY, "42703", "42P01 42809 55P03", "before the columns are looked up", other_table_first),
) + tuple(row for command in _COLUMN for row in _rows(
    ("answer", command, "ok", "42701 0A000 42703", "names of system columns", system_column),
    ("error", command, "42701 42703 42704 42P07 55P03 0A000", "0A000 42701 42703", "names of system columns", system_column),
)) + tuple(row for field in ("statistics", "fillfactor", "constraints", "referenced", "indexes", "triggers", "name") for row in _rows(
    (field, r"(?:peek|show) .*", "ok", "ok", "a query accepts first", read_before(field)),
))


def words_of(case: Case, part, warnings) -> Optional[str]:
    """The words of the row that holds of a difference, or None."""
    servers = [warning.split(" ", 1)[0] for warning in warnings] if part == "warning" else [code_of(case.server)]
    for row in ROWS:
        found = row.command.fullmatch(case.text) if row.part == part else None
        if found and code_of(case.here) in row.here and all(code in row.server for code in servers) and row.holds(case, found.groups()):
            return row.words
    return None
