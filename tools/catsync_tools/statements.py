"""SQL statements of isolationtester's steps as commands of a script (docs/SCRIPT.md).

What reads a table is a `show` of it, what changes rows or reads them for update is the lock that it takes, and so is what has a
lock and no command of its own (TRUNCATE, VACUUM). What can't be said has a reason.
"""
import re
from typing import Dict, List, NamedTuple, Optional, Set, Tuple

from .refused import Claim
from .spellings import respelled

NAME = "[a-z_][a-z0-9_]{0,62}"
TYPES = {"bool": "bool", "boolean": "bool", "int2": "int2", "smallint": "int2", "int4": "int4", "integer": "int4", "int": "int4",
         "serial": "int4", "int8": "int8", "bigint": "int8", "bigserial": "int8", "text": "text", "bytea": "bytea", "date": "date",
         "timestamptz": "timestamptz"}
ENDS = ("where", "on", "group", "order", "for", "select", "limit", "set", "when", "returning", ")")      # of a list of tables
SECONDS = {"us": 1e-6, "ms": 1e-3, None: 1e-3, "s": 1, "min": 60, "h": 3600}
OF_ROWS = "rows, and waits for them"
OTHER_TYPE = "text"     # stands for any other
OWN_TRIGGERS = ("suppress_redundant_updates_trigger", "tsvector_update_trigger", "tsvector_update_trigger_column",
                "unique_key_recheck")      # the server's own functions of triggers
NO_FUNCTION = "there the trigger's function has to exist (42883); here a trigger has none, as docs/PROFILE.md says"
KEY_STAYS = "there the index of a key isn't dropped by itself (2BP01); here it is like any other"

_SQL = re.compile(r"--[^\n]*|/\*.*?\*/|(?P<text>[eE]?'(?:[^'\\]|''|\\.)*'|\$(?P<tag>[A-Za-z_]*)\$.*?\$(?P=tag)\$)"
                  r'|"(?P<quoted>(?:[^"]|"")*)"|(?P<word>[A-Za-z_\x80-\U0010ffff][\w$]*)|(?P<number>[0-9][0-9.]*)'
                  r"|(?P<sign>::|<=|>=|<>|!=|\S)", re.DOTALL)


_PART = re.compile(r"(?:with|recursive|,) (%s)(?: \( [^()]* \))? as \(" % NAME)      # of a query, that `with` names


class Rows(NamedTuple):
    """What a statement's result shows where its table has no rows: these columns, or all, or a count."""
    table: str
    columns: Tuple[str, ...]


class Statement(NamedTuple):
    """A statement: its words, the commands that say it, or why it can't be said; what of it isn't said; whether it has a
    result, and which; whether a lock that it doesn't get at once is an error; the deadlock_timeout that it sets; the table
    that it may add rows to; how the server differs where it is done here; and the defaults and checks that a server reads."""
    text: str
    commands: Tuple[str, ...] = ()
    reason: Optional[str] = None
    unsaid: Optional[str] = None
    shows: bool = False
    rows: Optional[Rows] = None
    nowait: bool = False
    timeout: Optional[float] = None
    fills: Optional[str] = None
    differs: Optional[str] = None
    claims: Tuple[Claim, ...] = ()


def tokens_of(sql) -> List[str]:
    """The tokens of SQL, words in small letters, without comments and `public.`; what is no plain name in quotes keeps them."""
    found = []
    for token in _SQL.finditer(sql):
        kind = token.lastgroup if token.lastgroup != "tag" else "text"
        if kind == "quoted":
            name = token.group(kind)
            found.append(name if re.fullmatch(NAME, name) else token.group())
        elif kind:
            found.append(token.group(kind).lower() if kind == "word" else token.group(kind))
    while "public" in found and found[found.index("public") + 1:][:1] == ["."]:
        at = found.index("public")
        del found[at:at + 2]
    return found


def is_silent(statements):
    """Whether none of some statements can be said."""
    return bool(statements) and all(statement.reason for statement in statements)


def split(tokens, sign) -> List[List[str]]:
    """Tokens between these signs, which aren't within parentheses."""
    parts: List[List[str]] = [[]]
    depth = 0
    for token in tokens:
        depth += (token in "([") - (token in ")]")
        if token == sign and depth == 0:
            parts.append([])
        else:
            parts[-1].append(token)
    return parts


def statements_in(sql) -> List[List[str]]:
    """The statements of SQL, each as its tokens."""
    return [part for part in split(tokens_of(sql), ";") if part]


def seconds_of(text):
    """The seconds of a setting as '10ms', or None."""
    found = re.fullmatch(r"'?\s*([0-9]+)\s*(us|ms|s|min|h)?\s*'?", text)
    return int(found.group(1)) * SECONDS[found.group(2)] if found else None


def word_of(tokens):
    """A default as one word."""
    text = tokens[0].strip("'") if tokens else ""
    return text if re.fullmatch("[a-z0-9_-]{1,63}", text) else "x"


def check_of(tokens):
    """A check's condition with the bytes that one may have."""
    text = "".join(token for token in tokens if token not in ("(", ")"))
    return text if re.fullmatch(r"[a-z0-9_<>=+*-]{1,63}", text) else "x"


def after(tokens, word):
    """What follows a word, or None."""
    return tokens[tokens.index(word) + 1:] if word in tokens else None


# What has no command of its own and is said by its lock: the pattern of the statement, the mode, and what isn't said of it.
LOCKS = tuple((re.compile(pattern), mode, unsaid) for pattern, mode, unsaid in (
    ("truncate (?:table )?(?:only )?(.+?)(?: (?:restart|continue) identity)?(?: cascade| restrict)?", "access exclusive",
     "that it empties"),
    ("cluster (?:verbose )?(%s) using .+" % NAME, "access exclusive", "the new file"),
    ("vacuum full (?:verbose |analyze |freeze )*(.+)", "access exclusive", "the new file"),
    (r"vacuum \( .*full(?! (?:false|off|0)).* \) (.+)", "access exclusive", "the new file"),
    (r"vacuum (?:\( .* \) |verbose |analyze |freeze )*(.+)", "share update exclusive", "the statistics"),
    (r"analyze (?:\( .* \) |verbose )*(.+)", "share update exclusive", "the statistics"),
    (r"reindex (?:\( .* \) )?table (%s)" % NAME, "share", "the locks on its indexes"),
    ("comment on (?:table|column) (%s)(?: .*)?" % NAME, "share update exclusive", "the comment"),
    ("comment on (?:constraint|trigger) .* on (%s)(?: .*)?" % NAME, "access share", "the comment"),
    (r"drop trigger (?:if exists )?%s on (%s)(?: cascade| restrict)?" % (NAME, NAME), "access exclusive", "that the trigger goes"),
))
CHANGES = tuple(map(re.compile, (
    "insert into (%s)(?: .*)?" % NAME, "update (?:only )?(%s)(?: .*)?" % NAME, "delete from (?:only )?(%s)(?: .*)?" % NAME,
    "merge into (?:only )?(%s)(?: .*)?" % NAME, r"copy (%s) (?:\( .* \) )?from .*" % NAME)))

# Actions of ALTER TABLE that are said by their lock.
ACTIONS = tuple((re.compile(pattern), mode) for pattern, mode in (
    ("alter (?:column )?%s (?:type|set data type) .*" % NAME, "access exclusive"),
    ("alter (?:column )?%s (?:set|drop) not null" % NAME, "access exclusive"),
    ("alter (?:column )?%s drop default" % NAME, "access exclusive"),
    ("alter (?:column )?%s (?:set storage|set compression|add generated|drop identity|drop expression).*" % NAME,
     "access exclusive"),
    (r"alter (?:column )?%s (?:set|reset) \(.*" % NAME, "share update exclusive"),
    (r"(?:set|reset) \( .*user_catalog_table.*", "access exclusive"),
    (r"(?:set|reset) \( (?!fillfactor = ).*", "share update exclusive"), (r"reset \( fillfactor \)", "share update exclusive"),
    ("cluster on .*|set without cluster", "share update exclusive"),
    ("(?:enable|disable) (?:replica |always )?trigger (?:all|user)|enable (?:replica|always) trigger .*", "share row exclusive"),
    ("(?:set logged|set unlogged|set tablespace .*|replica identity .*|(?:enable|disable|force|no force) row level security|"
     "(?:enable|disable) .*rule .*|rename constraint .*|alter constraint .*|"
     "add (?:constraint %s )?(?:primary key|unique) using index .*)" % NAME, "access exclusive"),
))

# The alterations that have a form here, and those that take less than AccessExclusive.
GRAMMAR = re.compile((r"alter table N (?:rename to N|drop column N|rename column N to N|alter column N set statistics -?[0-9]+|"
                      r"set \(fillfactor = [0-9]+\)|validate constraint N|drop constraint N|(?:enable|disable) trigger N)"
                      ).replace("N", NAME))
WEAK = re.compile(r" set statistics | set \(| validate | trigger ")

# What can't be said, and why.
REASONS = tuple((re.compile(pattern), reason) for pattern, reason in (
    ("(?:create|drop|reindex) .*concurrently.*", "a concurrent build"),
    (".*pg_(?:try_)?advisory_.*", "an advisory lock"),
    ("(?:prepare transaction|commit prepared|rollback prepared).*", "a prepared transaction"),
    ("(?:prepare|execute|deallocate) .*", "a prepared statement"),
    ("(?:notify|listen|unlisten).*", "a notification"),
    ("(?:do|call) .*", "code of its own"),
    ("set .*(?<![a-z])(?:lock|statement)_timeout.*", "a time-out"),
    ("create (?:global |local )?temp(?:orary)? .*", "a temporary table"),
    ("create table .* partition (?:of|by) .*|alter table .* (?:attach|detach) partition .*", "a partition"),
    (r"create table .*\binherits? .*|alter table .* (?:no )?inherit .*|create table .* \( like .*", "inheritance"),
    ("create (?:unlogged )?table .* as .*|select .* into .*", "a table that is made of a query"),
))
NOTHING = re.compile("(?:set|reset|show|values|fetch|move|discard|checkpoint|analyze|vacuum|explain)(?: .*)?|(?:create|drop|alter) "
                     "(?:or replace )?(?:function|procedure|sequence|extension|role|user|operator|cast|aggregate|schema|database) .*|"
                     "grant .*|revoke .*")
MAKES = re.compile("(?:create|alter) (?:or replace )?(?:(?:global|local|temp|temporary|unlogged|materialized|unique|constraint|"
                   "event|foreign|recursive) )*(?P<kind>[a-z]+) (?:if not exists )?(?P<name>%s).*" % NAME)


def places_of_tables(tokens):
    """Where names of tables follow: not the `from` of a function's arguments, nor that of `is distinct from`."""
    inside = [True]
    for at, token in enumerate(tokens):
        if token == "(":
            inside.append(tokens[at + 1:at + 2] in (["select"], ["with"], ["table"]))
        elif token == ")" and len(inside) > 1:
            inside.pop()
        elif token in ("from", "join", "using", "table") and inside[-1] and tokens[at - 1:at] != ["distinct"]:
            yield at


def locks(tables, mode):
    """The commands that lock tables."""
    return tuple("lock table %s in %s mode" % (table, mode) for table in tables)


class Sayer:
    """Says statements one after the other. It knows the tables and indexes that the spec makes, those of the set-up that are
    there for `if exists`, and what is made by what can't be said."""

    def __init__(self):
        self.known: Set[str] = set()
        self.renames = False                    # whether a relation gets another name
        self.unsaid: Dict[str, str] = {}        # names, each with why what makes it can't be said
        self.keys: Dict[str, str] = {}          # of tables: the column of the primary key
        self.of_keys: Set[str] = set()          # the indexes of keys
        self.types: Dict[str, Dict[str, str]] = {}      # of tables and their columns, in the spec's words
        self.retypes = False                    # whether a column gets another type
        self.claims: List[Claim] = []           # of the statement that is said

    def note(self, sql):
        """Takes down what SQL makes and fills, before any of it is said."""
        for tokens in statements_in(sql):
            text = " ".join(tokens)
            made = MAKES.fullmatch(text)
            reason = next((reason for pattern, reason in REASONS if pattern.fullmatch(text)), None)
            if made and tokens[0] == "create":
                if reason or made.group("kind") not in ("table", "index", "trigger"):
                    self.unsaid.setdefault(made.group("name"), reason or "a " + made.group("kind"))
                elif made.group("kind") == "table":
                    self.known.add(made.group("name"))
            renamed = re.fullmatch("alter (?:table|index) .* rename to (%s)" % NAME, text)
            self.known |= {renamed.group(1)} if renamed else set()
            self.renames |= renamed is not None
            self.retypes |= re.match("alter table .* (?:type|set data type) ", text) is not None

    def step(self, sql) -> List[Statement]:
        """The statements of a step."""
        return [self.said(tokens) for tokens in statements_in(sql)]

    def said(self, tokens) -> Statement:
        """A statement."""
        text = " ".join(tokens)
        reason = next((reason for pattern, reason in REASONS if pattern.fullmatch(text)), None)
        own = MAKES.fullmatch(text)
        for token in tokens:
            is_own = own is not None and own.group("name") == token and NOTHING.fullmatch(text)
            if token in self.unsaid and reason is None and not is_own and tokens[:2] != ["create", "trigger"]:
                reason = self.unsaid[token]
        if reason:
            return Statement(text, reason="%s isn't modelled here" % reason)
        self.claims = []
        for say in (self.transaction, self.lock, self.change, self.definition, self.query):
            found = say(text, tokens)
            if found is not None:
                return found._replace(claims=tuple(self.claims))
        if NOTHING.fullmatch(text):
            timeout = re.fullmatch("set (?:local |session )?deadlock_timeout (?:to|=) (.*)", text)
            return Statement(text, timeout=seconds_of(timeout.group(1)) if timeout else None,
                             shows=tokens[0] in ("show", "values", "fetch", "explain"))
        return Statement(text, reason="no command says it")

    def transaction(self, text, _tokens):
        """What begins and ends transactions and levels."""
        if re.fullmatch("(?:begin|start transaction)(?: work| transaction)?(?: (?:isolation|read|not|deferrable).*)?", text):
            return Statement(text, ("begin",))
        if re.fullmatch("(?:commit|end|rollback|abort)(?: work| transaction)?(?: and no chain)?", text):
            return Statement(text, ("commit" if text[:3] in ("com", "end") else "rollback",))
        level = re.fullmatch("(?:(savepoint)|(release)(?: savepoint)?|(?:rollback|abort)(?: work| transaction)? to(?: savepoint)?) "
                             "(%s)" % NAME, text)
        if level:
            return Statement(text, ((level.group(1) or level.group(2) or "rollback to") + " " + level.group(3),))
        return None

    def lock(self, text, tokens):
        """A lock, and what is said by one."""
        found = re.fullmatch("lock (?:table )?(?:only )?(.+?)(?: in ([a-z ]+) mode)?( nowait)?", text)
        if found:
            tables = [part[-1] for part in split(found.group(1).split(" "), ",") if part[-1:] != ["*"]]
            return Statement(text, locks(tables, found.group(2) or "access exclusive"), nowait=bool(found.group(3)))
        if re.fullmatch("cluster (?:verbose )?%s" % NAME, text):
            return Statement(text, reason="it names no index, and the server refuses it where none is marked")
        for pattern, mode, unsaid in LOCKS:
            found = pattern.fullmatch(text)
            tables = [part[0] for part in split(found.group(1).split(" "), ",") if part] if found else []
            if tables and all(re.fullmatch(NAME, table) for table in tables):
                return Statement(text, locks(tables, mode), unsaid=unsaid)
        return None

    def change(self, text, tokens):
        """A change of rows, by its lock; the tables that it reads besides are shown."""
        for pattern in CHANGES:
            found = pattern.fullmatch(text)
            if found:
                table = found.group(1)
                if table not in self.known:
                    return Statement(text, reason="no table '%s' is made here" % table)
                others = [other for other in self.tables_in(tokens) if other != table]
                return Statement(text, locks([table], "row exclusive") + tuple("show " + other for other in others),
                                 unsaid=OF_ROWS, shows="returning" in tokens,
                                 fills=None if tokens[0] in ("delete", "update") else table)
        return None

    def tables_in(self, tokens):
        """The tables that are named after `from`, `join` or `using`, in their order: no catalogs, functions and names of `with`."""
        found: List[str] = []
        parts = {match.group(1) for match in _PART.finditer(" ".join(tokens))}
        for at in places_of_tables(tokens):
            for part in split(tokens[at + 1:], ","):
                words = [word for word in part if word not in ("only", "lateral")]
                name = words[0] if words else ""
                if self.is_table(name, words) and name not in parts and name not in found:
                    found.append(name)
                if any(word in ENDS for word in part):
                    break
        return found

    def is_table(self, name, words):
        """Whether a name is a table's, by what follows it."""
        if name in self.known:
            return True
        return re.fullmatch(NAME, name) is not None and name not in ENDS and not name.startswith("pg_") and words[1:2] not in (
            ["("], ["."])

    def query(self, text, tokens):
        """A query: its tables are shown, or locked in RowShare where it reads for update; a cursor opens its table."""
        if tokens[0] == "declare":
            tables = self.tables_in(tokens)
            return Statement(text, tuple("open " + table for table in tables))
        if tokens[0] not in ("select", "with", "table", "(", "copy"):
            return None
        if any(pattern.fullmatch(" ".join(tokens[at:])) for pattern in CHANGES for at in range(1, len(tokens))):
            return Statement(text, reason="it changes rows inside a query")
        tables = self.tables_in(tokens)
        if re.search(" for (?:update|no key update|share|key share)", text):
            return Statement(text, locks(tables, "row share"), shows=True, unsaid=OF_ROWS)
        return Statement(text, tuple("show " + table for table in tables), shows=tokens[0] != "copy",
                         rows=self.rows(tokens, tables))

    def rows(self, tokens, tables):
        """What a query shows of one table without rows, where that can be said."""
        if tokens[0] == "table" and len(tables) == 1:
            return Rows(tables[0], ("*",))
        if tokens[0] != "select" or len(tables) != 1 or "group" in tokens or "from" not in tokens:
            return None
        columns = " ".join(tokens[1:tokens.index("from")])
        if columns in ("*", "count ( * )"):
            return Rows(tables[0], (columns.replace(" ", ""),))
        names = columns.split(" , ")
        return Rows(tables[0], tuple(names)) if all(re.fullmatch(NAME, name) for name in names) and names != ["all"] else None

    def definition(self, text, tokens):
        """A statement that defines a relation, or changes its definition."""
        first = " ".join(tokens[:2])
        if re.search("^(?:create|drop|alter) (?:unlogged |unique )?(?:table|index) if ", text):
            return self.conditional(text, tokens)
        if re.match("create (?:unlogged )?table ", text):
            return self.create_table(text, tokens)
        if re.match("create (?:unique )?index ", text):
            return self.create_index(text, tokens)
        found = re.fullmatch("create (?:or replace )?(?:constraint )?trigger (%s) .*? on (%s) .*" % (NAME, NAME), text)
        if found:
            return Statement(text, ("create trigger %s on %s" % found.groups(),),
                             differs=NO_FUNCTION if self.lacks_function(text) else None)
        found = re.fullmatch("drop (table|index) (.*?)( cascade| restrict)?", text)
        if found:
            names = [part[-1] for part in split(found.group(2).split(" "), ",")]
            return Statement(text, tuple("drop %s %s" % (found.group(1), name) for name in names),
                             differs=KEY_STAYS if found.group(1) == "index" and self.of_keys & set(names) else None)
        if first == "alter index":
            found = re.fullmatch("alter index (%s) rename to (%s)" % (NAME, NAME), text)
            return Statement(text, ("alter index %s rename to %s" % found.groups(),)) if found else None
        return self.alter_table(text) if first == "alter table" else None

    def lacks_function(self, text):
        """Whether a trigger's function is one that neither the spec makes nor the server has; an extension may have any."""
        found = re.search(r" execute (?:function|procedure) (%s) \(" % NAME, text)
        has_extension = "a extension" in self.unsaid.values()
        return found is not None and not has_extension and found.group(1) not in self.unsaid and found.group(1) not in OWN_TRIGGERS

    def conditional(self, text, tokens):
        """What depends on whether something exists: it is said where the spec itself makes it, or doesn't."""
        at = tokens.index("exists")
        plain = [token for token in tokens[:at] if token not in ("if", "not")] + tokens[at + 1:]
        exists = tokens[at + 1] in self.known
        if tokens[0] == "create" or exists:
            return self.said(plain)._replace(text=text)
        return Statement(text)

    # Tables

    def create_table(self, text, tokens):
        """A new table, with its constraints as commands of their own."""
        found = re.fullmatch(r"create (?:unlogged )?table (%s) \( ?(.*?) ?\)(?: with \( .* \))?(?: tablespace .*)?" % NAME, text)
        if not found:
            return None
        table, columns, more, unsaid = found.group(1), [], [], []
        self.known.add(table)
        for item in split(found.group(2).split(" "), ","):
            if not item or item == [""]:
                continue
            if item[0] in ("primary", "unique", "check", "foreign", "constraint", "exclude"):
                self.constraint(table, item, more, unsaid)
            else:
                columns.append(self.column(table, item, more, unsaid))
        return Statement(text, ("create table %s (%s)" % (table, ", ".join(columns)),) + tuple(more), unsaid=", ".join(unsaid) or None)

    def column(self, table, item, more, unsaid):
        """A column with its type; what constrains it are further commands."""
        name, words = item[0], item[1:]
        kind = TYPES.get(words[0] if words else "", OTHER_TYPE)
        if words[:4] == ["timestamp", "with", "time", "zone"]:
            kind = "timestamptz"
        self.types.setdefault(table, {})[name] = words[0] if words else ""
        if "default" in words:
            more.append(self.default(table, name, after(words, "default")))
        if "primary" in words or "unique" in words:
            self.key(table, "primary" in words, [name], None, more)
        if "check" in words:
            self.check(table, "%s_%s_check" % (table, name), after(words, "check"), more)
        if "references" in words:
            self.reference(table, "%s_%s_fkey" % (table, name), name, after(words, "references"), more, unsaid)
        return "%s %s" % (name, kind)

    def constraint(self, table, item, more, unsaid):
        """A constraint of a table."""
        name, words = (item[1], item[2:]) if item[0] == "constraint" else (None, item)
        groups = re.findall(r"\( (.*?) \)", " ".join(words))
        columns = groups[0].split(" , ") if groups else []
        if words[:1] in (["primary"], ["unique"]) and columns:
            self.key(table, words[0] == "primary", columns, name, more)
        elif words[:1] == ["check"]:
            self.check(table, name or "%s_check" % table, words[1:], more)
        elif words[:1] == ["foreign"] and len(columns) == 1 and "references" in words:
            self.reference(table, name or "%s_%s_fkey" % (table, columns[0]), columns[0], after(words, "references"), more, unsaid)
        else:
            unsaid.append("the constraint '%s'" % " ".join(item))

    def key(self, table, is_primary, columns, name, more):
        """A primary key or a unique constraint, by its index."""
        if is_primary:
            self.keys[table] = columns[0]
        name = name or "%s_pkey" % table if is_primary else name or "_".join([table] + columns + ["key"])
        self.known.add(name)
        self.of_keys.add(name)
        more.append("create index %s on %s (%s)" % (name, table, ", ".join(columns)))

    def default(self, table, column, words):
        """The command of a column's default."""
        self.claim(table, column, words)
        return "alter table %s alter column %s set default %s" % (table, column, word_of(words))

    def claim(self, table, column, words):
        """Takes down a default, or a check, of which a server says whether it is one; none where types change, which isn't followed."""
        if not self.retypes:
            self.claims.append(Claim(table, column, tuple(words), tuple(self.types.get(table, {}).items())))

    def check(self, table, name, words, more):
        """A check."""
        self.claim(table, None, words)
        valid = " not valid" if words[-2:] == ["not", "valid"] else ""
        more.append("alter table %s add constraint %s check (%s)%s" % (table, name, check_of(words[:-2] if valid else words), valid))

    def reference(self, table, name, column, words, more, unsaid):
        """A foreign key."""
        found = re.fullmatch(r"(%s)(?: \( (%s) \))?(?: .*?)?( not valid)?" % (NAME, NAME), " ".join(words))
        referred = (found.group(2) or self.keys.get(found.group(1))) if found else None
        if referred is None:
            unsaid.append("the foreign key '%s'" % name)
        else:
            more.append("alter table %s add constraint %s foreign key (%s) references %s (%s)%s" % (
                table, name, column, found.group(1), referred, found.group(3) or ""))

    # Indexes

    def create_index(self, text, _tokens):
        """A new index of columns."""
        found = re.fullmatch(r"create (?:unique )?index (?:(%s) )?on (?:only )?(%s) (?:using %s )?\( (.*?) \)(?: (?:include|with|where|"
                             r"tablespace) .*)?" % (NAME, NAME, NAME), text)
        columns = [part.split(" ")[0] for part in found.group(3).split(" , ")] if found else []
        if not columns or not all(re.fullmatch(NAME, column) for column in columns) or "(" in found.group(3):
            return Statement(text, reason="an index of an expression isn't modelled here")
        name = found.group(1) or "_".join([found.group(2)] + columns + ["idx"])
        self.known.add(name)
        return Statement(text, ("create index %s on %s (%s)" % (name, found.group(2), ", ".join(columns)),))

    # Alterations

    def alter_table(self, text):
        """Alterations of a table, each as commands of its own, under the table's lock where there are several."""
        found = re.fullmatch("alter table (?:only )?(%s) (.*)" % NAME, text)
        if not found:
            return None
        table, commands, unsaid = found.group(1), [], []
        actions = [" ".join(action) for action in split(found.group(2).split(" "), ",")]
        for action in actions:
            more = self.action(table, action, unsaid)
            if more is None:
                return Statement(text, reason="no command says '%s'" % action)
            commands += more
        if len(actions) > 1 and any(not WEAK.search(command) for command in commands):
            commands.insert(0, "lock table %s in access exclusive mode" % table)
        return Statement(text, tuple(commands), unsaid=", ".join(unsaid) or None)

    def action(self, table, action, unsaid):
        """The commands of one alteration, or None where none says it."""
        for pattern, mode in ACTIONS:
            if pattern.fullmatch(action):
                unsaid.append("'%s' but for its lock" % action)
                return ["lock table %s in %s mode" % (table, mode)]
        words, more = action.split(" "), []
        if len(words) < 2:
            return None
        if words[0] == "add" and words[1] in ("primary", "unique", "check", "foreign", "constraint", "exclude"):
            count = len(unsaid)
            self.constraint(table, words[1:], more, unsaid)
            return more if len(unsaid) == count else None
        if words[0] == "add":
            item = [word for word in words[1:] if word != "column"] if words[1] == "column" else words[1:]
            if item[:3] == ["if", "not", "exists"]:
                return None
            return ["alter table %s add column %s" % (table, self.column(table, item, more, unsaid))] + more
        if words[:2] == ["drop", "constraint"] and words[2:] and words[2] in self.known:
            return ["drop index " + words[2]]
        if "if" in words[:3]:
            return None
        action = re.sub(" (?:cascade|restrict)$", "", action)
        found = re.fullmatch("alter (?:column )?(%s) set default (.*)" % NAME, action)
        if found:
            return [self.default(table, found.group(1), found.group(2).split(" "))]
        action = re.sub(r"^set \( fillfactor = ([0-9]+) \)$", r"set (fillfactor = \1)", action)
        command = respelled(" alter table %s %s" % (table, action.replace("- ", "-"))).strip()
        return [command] if GRAMMAR.fullmatch(command) else None
