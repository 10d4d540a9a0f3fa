"""A script's commands as a PostgreSQL server takes them, and its replies as `catsync walk` writes answers."""
import re
from typing import Dict, List, NamedTuple, Optional, Tuple

from .faults import Fault
from .session import Reply, Session

FIELDS = ("name", "columns", "defaults", "statistics", "fillfactor", "constraints", "referenced", "indexes", "triggers")
OTHER_FIELDS = ("of", "valid")          # of an index

_TOKEN = re.compile(r"[a-z0-9_-]+|[(),=:*;]")
_CHECK = re.compile(r"(.* check *\()([^()]*)\)(.*)")
_NAME = r"([a-z_][a-z0-9_]{0,62})"
_MODE = "(access share|row share|row exclusive|share update exclusive|share|share row exclusive|exclusive|access exclusive)"

# The forms of commands, tokens joined by one blank each, and their SQL. Names are quoted: some are SQL's own words.
FORMS = [(re.compile(pattern), sql) for pattern, sql in (
    ("(begin|commit|rollback)", r"\1"),
    ("savepoint %s" % _NAME, r'savepoint "\1"'),
    ("release(?: savepoint)? %s" % _NAME, r'release savepoint "\1"'),
    ("rollback to(?: savepoint)? %s" % _NAME, r'rollback to savepoint "\1"'),
    ("lock table %s in %s mode" % (_NAME, _MODE), r'lock table "\1" in \2 mode'),
    ("drop table %s" % _NAME, r'drop table "\1"'),
    ("alter table %s rename to %s" % (_NAME, _NAME), r'alter table "\1" rename to "\2"'),
    ("alter table %s add column %s ([a-z0-9]+)" % (_NAME, _NAME), r'alter table "\1" add column "\2" \3'),
    ("alter table %s drop column %s" % (_NAME, _NAME), r'alter table "\1" drop column "\2"'),
    ("alter table %s rename column %s to %s" % (_NAME, _NAME, _NAME), r'alter table "\1" rename column "\2" to "\3"'),
    ("alter table %s alter column %s set statistics (-?[0-9]+)" % (_NAME, _NAME),
     r'alter table "\1" alter column "\2" set statistics \3'),
    (r"alter table %s set \( fillfactor = ([0-9]+) \)" % _NAME, r'alter table "\1" set (fillfactor = \2)'),
    ("alter table %s alter column %s set default ([a-z0-9_-]+)" % (_NAME, _NAME),
     r"""alter table "\1" alter column "\2" set default '\3'"""),
    (r"alter table %s add constraint %s check \( (.*) \)( not valid)?" % (_NAME, _NAME),
     r'alter table "\1" add constraint "\2" check (\3)\4'),
    (r"alter table %s add constraint %s foreign key \( %s \) references %s \( %s \)( not valid)?" % ((_NAME,) * 5),
     r'alter table "\1" add constraint "\2" foreign key ("\3") references "\4" ("\5")\6'),
    ("alter table %s (validate|drop) constraint %s" % (_NAME, _NAME), r'alter table "\1" \2 constraint "\3"'),
    ("alter table %s (enable|disable) trigger %s" % (_NAME, _NAME), r'alter table "\1" \2 trigger "\3"'),
    ("create trigger %s on %s" % (_NAME, _NAME),
     r'create trigger "\1" before update on "\2" for each row execute function suppress_redundant_updates_trigger()'),
    ("drop index %s" % _NAME, r'drop index "\1"'),
    ("alter index %s rename to %s" % (_NAME, _NAME), r'alter index "\1" rename to "\2"'),
)]
_TABLE = re.compile(r"create table %s \( (?:(.*) )?\)" % _NAME)
_INDEX = re.compile(r"create index %s on %s \( (.*) \)" % (_NAME, _NAME))
_LEVEL = re.compile('(savepoint|release savepoint|rollback to savepoint) "(.*)"')
_ADDED = re.compile('alter table "(.*)" add column "(.*)" [a-z0-9]+')
_REFERENCES = re.compile(r"alter table .* references %s \( %s \).*" % (_NAME, _NAME))
_COLUMN = re.compile("%s ([a-z0-9]+)" % _NAME)
_SHOW = re.compile("show %s(?: (%s))?" % (_NAME, "|".join(FIELDS + OTHER_FIELDS)))
_OPENED = re.compile("(open|close) %s" % _NAME)
_PEEKED = re.compile("peek %s(?: (%s))?" % (_NAME, "|".join(FIELDS + OTHER_FIELDS)))
_LISTED = re.compile("(?:columns %s|column %s %s)" % (_NAME, _NAME, _NAME))
_REGCLASS = re.compile("regclass ([0-9]+)")
GUARD = "catsync guard"     # a savepoint that no script can name
NO_OID = 2 ** 32 - 1    # which no relation of a new database has

# Each field of the table `T`, as one row with one value, in the words of an answer here.
_COLUMNS_OF = ("from pg_attribute join pg_type on pg_type.oid = atttypid where attrelid = T and attnum > 0 and not "
               "attisdropped")
_VALID = "case when %s then 'v' else 'n' end"
_CHECKED = ("concat_ws(':', conname, 'check', %s, regexp_replace(regexp_replace(pg_get_constraintdef(oid), ' NOT VALID$', ''), "
            "'^CHECK|[() ]', '', 'g'))") % (_VALID % "convalidated")
_REFERRED = "concat_ws(':', conname, 'fk', %s, conkey[1], confrelid, confkey[1])" % (_VALID % "convalidated")
QUERIES = {
    "name": "select relname from pg_class where oid = T",
    "columns": "select string_agg(concat_ws(':', attname, typname), ' ' order by attnum) " + _COLUMNS_OF,
    "defaults": "select string_agg(concat_ws('=', adnum, regexp_replace(pg_get_expr(adbin, adrelid), '^''(.*)''::.*$', '\\1')), ' ' "
                "order by adnum) from pg_attrdef where adrelid = T",
    "statistics": "select string_agg(concat_ws(':', attnum, coalesce(attstattarget, -1)), ' ' order by attnum) from "
                  "pg_attribute where attrelid = T and attnum > 0 and not attisdropped",
    "fillfactor": "select option_value from pg_class, pg_options_to_table(reloptions) where pg_class.oid = T and "
                  "option_name = 'fillfactor'",
    "constraints": "select string_agg(case contype when 'c' then %s else %s end, ' ' order by oid) from pg_constraint where "
                   "conrelid = T and contype in ('c', 'f')" % (_CHECKED, _REFERRED),
    "referenced": "select string_agg(concat_ws(':', oid, conrelid, confkey[1]), ' ' order by oid) from pg_constraint where "
                  "confrelid = T",
    "indexes": "select string_agg(concat_ws(':', indexrelid, %s, replace(indkey::text, ' ', '+')), ' ' order by indexrelid) from "
               "pg_index where indrelid = T and not indisunique" % (_VALID % "indisvalid"),
    "triggers": "select string_agg(concat_ws(':', tgname, case tgenabled when 'D' then 'd' else 'e' end), ' ' order by tgname) "
                "from pg_trigger where tgrelid = T and not tgisinternal",
}
# The same of an index.
INDEX_QUERIES = {
    "name": QUERIES["name"],
    "of": "select concat_ws(':', indrelid, replace(indkey::text, ' ', '+')) from pg_index where indexrelid = T",
    "valid": "select %s from pg_index where indexrelid = T" % (_VALID % "indisvalid"),
}
IS_INDEX = "select relkind from pg_class where %s and relkind = 'i'"
TABLE_OF = "select relname from pg_class, pg_index where pg_class.oid = indrelid and indexrelid = T"
LOCK_OF_INDEX = "select pg_relation_size('\"%s\"'::regclass)"


LIST = "select string_agg(concat_ws(':', attname, typname), ' ' order by attname) " + _COLUMNS_OF
COLUMN = "select concat_ws(' ', attnum, typname) " + _COLUMNS_OF + " and attname = '%s'"


class Shown(NamedTuple):
    """A `show` of a table or an index, or of a field of it."""
    table: str
    field: Optional[str]


class Opened(NamedTuple):
    """An `open` of a table or an index."""
    table: str


class Peeked(NamedTuple):
    """A `peek` at a table that is open, or at a field of it."""
    table: str
    field: Optional[str]


class Closed(NamedTuple):
    """A `close` of a table that is open."""
    table: str


class Listed(NamedTuple):
    """A `columns` of a table, or a `column` of it."""
    table: str
    column: Optional[str]


class Regclass(NamedTuple):
    """A `regclass` of an oid here."""
    oid: int


class Answer(NamedTuple):
    """What the server answered, in the words of `catsync walk`, and the SQLSTATEs and texts of its warnings."""
    text: str
    warnings: List[str]


def tokens_of(command):
    """A command's tokens, joined by one blank each, without the `;` at its end; the text of a check is one of them."""
    check = _CHECK.fullmatch(command.lower())
    if check:
        parts = tokens_of(check.group(1)), "".join(check.group(2).split()), ")", tokens_of(check.group(3))
        return " ".join(part for part in parts if part)
    text = " ".join(_TOKEN.findall(command.lower()))
    return text[:-1].rstrip() if text.endswith(";") else text


def referred_in(commands):
    """The columns to which foreign keys of these commands refer, each with its table. In a server they have to be unique."""
    found = (_REFERENCES.fullmatch(tokens_of(command)) for command in commands)
    return {each.groups() for each in found if each}


def listed_names(text):
    """Names between commas, quoted."""
    return ", ".join('"%s"' % name for name in text.split(" , "))


def statement_of(command, referred=frozenset()):
    """A command as SQL, or as what shows something; None where there is no such command. Columns that a foreign key of the
    script refers to are made unique."""
    text = tokens_of(command)
    shown, table, index = _SHOW.fullmatch(text), _TABLE.fullmatch(text), _INDEX.fullmatch(text)
    listed, regclass = _LISTED.fullmatch(text), _REGCLASS.fullmatch(text)
    opened, peeked = _OPENED.fullmatch(text), _PEEKED.fullmatch(text)
    if shown:
        return Shown(shown.group(1), shown.group(2))
    if opened:
        return (Opened if opened.group(1) == "open" else Closed)(opened.group(2))
    if peeked:
        return Peeked(peeked.group(1), peeked.group(2))
    if listed:
        return Listed(listed.group(1) or listed.group(2), listed.group(3))
    if regclass:
        return Regclass(int(regclass.group(1)))
    if index:
        return 'create index "%s" on "%s" (%s)' % (index.group(1), index.group(2), listed_names(index.group(3)))
    if table:
        columns = [_COLUMN.fullmatch(column) for column in (table.group(2) or "").split(" , ") if column]
        if None in columns:
            return None
        return 'create table "%s" (%s)' % (table.group(1), ", ".join(
            '"%s" %s%s' % (column.groups() + (unique(table.group(1), column.group(1), referred),)) for column in columns))
    for pattern, sql in FORMS:
        found = pattern.fullmatch(text)
        if found:
            statement = found.expand(sql)
            added = _ADDED.fullmatch(statement)
            return statement + (unique(*added.groups(), referred) if added else "")
    return None


def unique(table, column, referred):
    """The word that makes a new column unique, where a foreign key refers to it."""
    return " unique" if (table, column) in referred else ""


class Asked:
    """A session that is asked for commands of a script. `oids` has which oids here are which in the server. For a relation that
    is open it has a cursor, which holds the descriptor as `open` does here, and of an index that of its table; the latest is the
    last one."""

    def __init__(self, session: Session, oids: Dict[int, int]):
        self.session, self.oids = session, oids
        self.in_block = False
        self.cursors: List[Tuple[str, str, int]] = []       # names, each with that of its cursor and the relation's oid
        self.levels: List[Tuple[str, List[Tuple[str, str, int]]]] = []      # savepoints, each with the cursors there were
        self.opened = 0
        self.has_failed = False                 # whether the block has
        self.guard = ""                         # how the latest command can be taken back: its block, or its level in one
        self.before: List[Tuple[str, str, int]] = []        # the cursors there were before it

    def try_out(self, statement):
        """The answer to a command, which `end_try` lets stand or takes back. What begins and ends blocks and levels isn't taken back,
        nor what needs a block and has none."""
        needs_block = isinstance(statement, (Opened, Peeked, Closed)) or str(statement).startswith("lock table ")
        self.guard, self.before = "", list(self.cursors)
        if statement in ("begin", "commit", "rollback") or _LEVEL.fullmatch(str(statement)) or not self.in_block and needs_block:
            self.has_failed = self.has_failed and not str(statement).startswith(("begin", "commit", "rollback"))
            return self.ask(statement)
        if not self.in_block:
            self.guard, self.in_block = "block", True
            self.session.ask("begin")
        elif not self.has_failed:
            self.guard = "level"
            self.session.ask('savepoint "%s"' % GUARD)
        return self.ask(statement)

    def end_try(self, stands, fails):
        """The latest command stands or is taken back, and with it, where it fails, the level that it is in."""
        if self.guard == "block":
            self.session.ask("commit" if stands else "rollback")
            self.in_block, self.cursors = False, []
        elif self.guard == "level":
            if not stands:
                self.session.ask('rollback to savepoint "%s"' % GUARD)
                self.cursors = self.before
            self.session.ask('release savepoint "%s"' % GUARD)
            if fails:
                self.refuse("P0001", "as here")
        self.has_failed = self.has_failed or fails and self.guard != "block" and self.in_block

    def ask(self, statement):
        """The answer to a command."""
        if isinstance(statement, (Shown, Listed)):
            return self.show(statement)
        if isinstance(statement, Regclass):
            return self.name_of(statement.oid)
        if isinstance(statement, Opened):
            return self.open(statement.table)
        if isinstance(statement, (Peeked, Closed)):
            return self.go_to(statement)
        reply = self.session.ask(statement)
        if statement in ("begin", "commit", "rollback"):
            self.in_block = statement == "begin"
            self.cursors, self.levels = self.cursors if statement == "begin" else [], []
        level = _LEVEL.fullmatch(statement)
        if level and not reply.error:
            self.go_to_level(*level.groups())
        if reply.error is None and statement == "commit" and reply.tag == "ROLLBACK":
            return Answer("rolled back", warnings_of(reply))
        return answer_of(reply, "ok")

    def go_to_level(self, word, name):
        """A savepoint is made, released or gone back to: then what was opened after it is closed."""
        if word == "savepoint":
            self.levels.append((name, list(self.cursors)))
            return
        at = next(at for at in reversed(range(len(self.levels))) if self.levels[at][0] == name)
        if word == "rollback to savepoint":
            self.cursors = [cursor for cursor in self.cursors if cursor in self.levels[at][1]]
            at += 1
        del self.levels[at:]

    def show(self, shown):
        """The answer to what shows a relation: a lock as it takes one, and then what the catalogs say. Outside a block it is a
        transaction of its own."""
        if not self.in_block:
            self.session.ask("begin")
        reply = self.lock(shown.table, isinstance(shown, Shown))
        text = None if reply.error else self.listed(shown) if isinstance(shown, Listed) else self.fields(shown)
        if text is None and not reply.error:
            reply = self.refuse("42703", "no column " + shown.column) if isinstance(shown, Listed) else self.lacks(shown)
        if not self.in_block:
            self.session.ask("rollback")
        return answer_of(reply, text)

    def refuse(self, code, text):
        """The reply to what raises an error of this code."""
        return self.session.ask("do $$ begin raise exception using errcode = '%s', message = '%s'; end $$" % (code, text))

    def lacks(self, shown):
        """The reply to who asks for a field that the relation lacks."""
        return self.refuse("42809", "%s has no field %s" % (shown.table, shown.field))

    def is_index(self, which):
        """Whether the relation of this name, or of this oid, is an index."""
        where = "oid = %d" if isinstance(which, int) else "relname = '%s' and relnamespace = 'public'::regnamespace"
        return bool(self.session.ask(IS_INDEX % (where % which)).rows)

    def lock(self, name, may_be_index):
        """The reply to a lock in AccessShare. An index can't be locked by itself: it is opened for a moment, in that mode."""
        is_index = may_be_index and self.is_index(name)
        return self.session.ask(LOCK_OF_INDEX % name if is_index else 'lock table "%s" in access share mode' % name)

    def open(self, name):
        """The answer to an `open`: the relation is locked, and has one cursor more. A query locks all indexes of its table."""
        reply = self.lock(name, True)
        if not reply.error:
            self.opened += 1
            self.cursors.append((name, "%s %d" % (name, self.opened), self.oid_of(name)))
            table = self.value(TABLE_OF, name) if self.is_index(name) else name
            reply = self.session.ask('declare "%s" cursor for select from "%s"' % (self.cursors[-1][1], table))
        return answer_of(reply, "ok")

    def go_to(self, statement):
        """The answer to what asks for the latest cursor of a name: a `close`, or a `peek`, which is answered by queries."""
        cursor = next((each for each in reversed(self.cursors) if each[0] == statement.table), None)
        if cursor is None:
            return answer_of(self.refuse(*("55000", "not open") if self.in_block else ("25P01", "no block")), "ok")
        if isinstance(statement, Closed):
            self.cursors.remove(cursor)
            return answer_of(self.session.ask('close "%s"' % cursor[1]), "ok")
        reply = self.session.ask('move 0 in "%s"' % cursor[1])
        text = None if reply.error else self.fields(statement, cursor[2])
        return answer_of(self.lacks(statement) if text is None and not reply.error else reply, text)

    def fields(self, shown, oid=None):
        """The values of the fields that are asked for, or None where the relation has no such field. What is open is told by its
        oid: an index may have another name by now."""
        which = oid or shown.table
        kind, queries = ("index", INDEX_QUERIES) if self.is_index(which) else ("table", QUERIES)
        if shown.field and shown.field not in queries:
            return None
        if shown.field:
            return "%s %s" % (shown.field, self.value(queries[shown.field], which))
        values = [(field, self.value(query, which)) for field, query in queries.items()]
        return "; ".join("%s %s" % pair for pair in [(kind, str(self.oid_of(which)))] + values)

    def listed(self, listed: Listed):
        """The columns of a table, or one of them, or None where there is no such column."""
        if not listed.column:
            return "columns " + self.value(LIST, listed.table)
        column = self.value(COLUMN.replace("%s", listed.column), listed.table)
        return None if column == "-" else "column " + column

    def name_of(self, oid):
        """The answer to a `regclass`: of an oid here that no table of the server has, as of none."""
        there = self.oids.get(oid, NO_OID)
        reply = self.session.ask("select %d::regclass::text" % there)
        name = (reply.rows[0][0] or "").strip('"') if reply.rows else ""
        return answer_of(reply, "regclass %d none" % oid if name == str(there) else "regclass " + name)

    def oid_of(self, which):
        """The oid of a relation in the server."""
        return int(self.value("select T::oid", which))

    def value(self, query, which):
        """The only value of a query about the relation of this name, or of this oid, or `-`."""
        query = re.sub(r"\bT\b", ("%d::regclass" if isinstance(which, int) else "'\"%s\"'::regclass") % which, query)
        reply = self.session.ask(query)
        if reply.error:
            raise Fault("the server: %s: %s" % (reply.error[1], query))
        return (reply.rows[0][0] if reply.rows else None) or "-"

    def end(self):
        """Ends the session; a block that is open is rolled back first."""
        if self.in_block:
            self.session.ask("rollback")
        self.session.close()


def warnings_of(reply: Reply):
    """The warnings of a reply, each with its SQLSTATE."""
    return ["%s %s" % said for said in reply.warnings]


def answer_of(reply: Reply, text):
    """An answer: this text, or the error."""
    if reply.error:
        return Answer("error %s %s" % reply.error, warnings_of(reply))
    return Answer(text, warnings_of(reply))
