#!/usr/bin/env python3
"""random_scripts.py SEED: prints a random script with all commands of the grammar.

Most commands name what should be there when they run: the maker follows what its commands would make, drop and rename if all
of them came one after the other and none were refused. Some name anything else, so each error comes too. Sessions have blocks
with savepoints that are rolled back or released, relations that are open, and locks of all modes; queues are small and lapped
by wide tables at times; schedules are cut finely or coarsely. One in five is spelled as people write.
"""
import copy
import random
import re
import sys

TYPES = ("bool", "int2", "int4", "int8", "text", "bytea", "date", "timestamptz")
LONG_TYPES = {"bool": "boolean", "int2": "smallint", "int4": "integer", "int8": "bigint"}
MODES = ("access share", "row share", "row exclusive", "share update exclusive", "share", "share row exclusive", "exclusive",
         "access exclusive")
WEAK_MODES = MODES[:4]
TABLE_FIELDS = ("name", "columns", "defaults", "statistics", "fillfactor", "constraints", "referenced", "indexes", "triggers")
INDEX_FIELDS = ("name", "of", "valid")
TABLES = ("t", "u", "an", "c0")         # the hashes of the last two names are one
INDEXES = ("i", "j", "k")
COLUMNS = ("a", "b", "c")
CONSTRAINTS = ("k", "l", "m")
TRIGGERS = ("g", "h")
SAVEPOINTS = ("s", "r")
DEFAULTS = ("7", "-3", "x_y", "now")
CHECKS = ("a>0", "b <= 7", "c<>5", "a=b+1", "a - 1 >= 0", "b*2<9")
WIDTHS = (12, 28, 29, 30, 31, 60, 61, 62, 63, 67, 100, 130)
SURE = 0.95                 # how often a command names what should be there
ODD = 0.03                  # how often it has an operand that is refused in any case
OUTSIDE = ("commit", "rollback", "savepoint s", "release s", "open t", "peek t", "lock table t in share mode")
RISKY = ("alter", "create", "drop", "column", "open")
MOST_STEPS = 60000


class Table:
    """What a table has."""

    def __init__(self, columns):
        self.columns, self.defaults = list(columns), []
        self.constraints, self.triggers = {}, []       # of a foreign key its column, and what that refers to: table and column


class World:
    """What is there: tables by name, and of each index its table and columns."""

    def __init__(self):
        self.tables, self.indexes = {}, {}

    def uses(self, name, column):
        """Whether an index or a foreign key uses a column."""
        keys = [(own, key) for own, table in self.tables.items() for key in table.constraints.values() if key]
        return any(key[0] == column and own == name or key[1:] == (name, column) for own, key in keys) or any(
            name == of and column in columns for of, columns in self.indexes.values())

    def is_referred(self, name):
        """Whether another table refers to one."""
        return any(key and key[1] == name for own, table in self.tables.items() if own != name
                   for key in table.constraints.values())

    def rename_table(self, name, to):
        """A table has another name."""
        self.tables[to] = self.tables.pop(name)
        self.indexes = {index: (to if of == name else of, columns) for index, (of, columns) in self.indexes.items()}
        for table in self.tables.values():
            table.constraints = {constraint: key and (key[0], to if key[1] == name else key[1], key[2])
                                 for constraint, key in table.constraints.items()}

    def drop_table(self, name):
        """A table is gone, and its indexes with it."""
        del self.tables[name]
        self.indexes = {index: pair for index, pair in self.indexes.items() if pair[0] != name}


class Maker:
    """Makes one script."""

    def __init__(self, seed):
        self.draw = random.Random("catsync %s" % seed)
        self.world, self.opened, self.standing, self.wide = World(), [], [], 0
        self.laps, self.churns = self.draw.random() < 0.3, self.draw.random() < 0.25
        self.sure = self.draw.choice((SURE, SURE, SURE, 0.7))

    def chance(self, share):
        """True as often as that."""
        return self.draw.random() < share

    def one_of(self, sure, others):
        """One of those that should be there, or now and then another."""
        return self.draw.choice(list(sure) if sure and self.chance(self.sure) else list(others))

    # Names.

    def table(self):
        """A table's name; now and then an index's, or one of nothing."""
        return self.one_of(self.world.tables, TABLES + INDEXES[:1] + ("nosuch",))

    def index(self):
        """An index's name; now and then a table's."""
        return self.one_of(self.world.indexes, INDEXES + TABLES[:1])

    def relation(self):
        """The name of a table or of an index."""
        return self.index() if self.chance(0.3) else self.table()

    def column(self, name, is_new=False):
        """A column of a table, or a name for a new one."""
        table = self.world.tables.get(name)
        there = table.columns if table else []
        return self.one_of([c for c in COLUMNS if c not in there] if is_new else there, COLUMNS + ("z",))

    def name_for(self, names):
        """A name for a new relation, mostly a free one."""
        return self.one_of([n for n in names if n not in self.world.tables and n not in self.world.indexes], names)

    def constraint(self, name, is_new=False):
        """A constraint of a table, or a name for a new one."""
        table = self.world.tables.get(name)
        there = table.constraints if table else {}
        return self.one_of([k for k in CONSTRAINTS if k not in there] if is_new else list(there), CONSTRAINTS)

    def trigger(self, name, is_new=False):
        """A trigger of a table, or a name for a new one."""
        table = self.world.tables.get(name)
        there = table.triggers if table else []
        return self.one_of([g for g in TRIGGERS if g not in there] if is_new else there, TRIGGERS)

    # Commands that change something. Each returns its text, and changes the world as if it weren't refused.

    def create_table(self):
        """`create table`, now and then a wide one, one without columns, or one with a column twice."""
        name = self.name_for(TABLES)
        columns = self.draw.sample(COLUMNS, self.draw.randint(1, 3))
        if self.laps and self.chance(0.5):
            self.wide += 1
            name, columns = "w%d" % self.wide, ["c%d" % n for n in range(self.draw.choice(WIDTHS))]
        if self.chance(ODD):
            columns = self.draw.choice(([], ["a", "b", "a"]))
        elif name not in self.world.tables and name not in self.world.indexes:
            self.world.tables[name] = Table(columns)
        return "create table %s (%s)" % (name, ", ".join("%s %s" % (c, self.draw.choice(TYPES)) for c in columns))

    def drop_table(self):
        """`drop table`, mostly one that nothing refers to."""
        name = self.one_of([n for n in self.world.tables if not self.world.is_referred(n)], TABLES)
        if name in self.world.tables and not self.world.is_referred(name):
            self.world.drop_table(name)
        return "drop table " + name

    def rename_table(self):
        """`alter table .. rename to`."""
        name, to = self.table(), self.name_for(TABLES + INDEXES[:1])
        if name in self.world.tables and to not in self.world.tables and to not in self.world.indexes:
            self.world.rename_table(name, to)
        return "alter table %s rename to %s" % (name, to)

    def add_column(self):
        """`add column`."""
        name = self.table()
        column = self.column(name, True)
        if name in self.world.tables and column not in self.world.tables[name].columns:
            self.world.tables[name].columns.append(column)
        return "alter table %s add column %s %s" % (name, column, self.draw.choice(TYPES))

    def drop_column(self):
        """`drop column`, as often one that is used as one that isn't."""
        name = self.table()
        column = self.column(name)
        if name in self.world.tables and column in self.world.tables[name].columns and not self.world.uses(name, column):
            self.world.tables[name].columns.remove(column)
        return "alter table %s drop column %s" % (name, column)

    def rename_column(self):
        """`rename column`; what uses the column goes by its number, and here the column is then forgotten."""
        name = self.table()
        column, to = self.column(name), self.column(name, True)
        table = self.world.tables.get(name)
        if table and column in table.columns and to not in table.columns and not self.world.uses(name, column):
            table.columns[table.columns.index(column)] = to
        return "alter table %s rename column %s to %s" % (name, column, to)

    def set_default(self):
        """`set default`."""
        name = self.table()
        return "alter table %s alter column %s set default %s" % (name, self.column(name), self.draw.choice(DEFAULTS))

    def set_statistics(self):
        """`set statistics`, now and then out of range."""
        name = self.table()
        stat = self.draw.choice((-2, -7) if self.chance(ODD) else (-1, 0, 5, 100, 10000, 10001, 999999999))
        return "alter table %s alter column %s set statistics %d" % (name, self.column(name), stat)

    def set_fillfactor(self):
        """`set (fillfactor = N)`, now and then out of range."""
        fill = self.draw.choice((9, 101, 0)) if self.chance(ODD) else self.draw.choice((10, 50, 70, 100))
        return "alter table %s set (fillfactor = %d)" % (self.table(), fill)

    def add_constraint(self, name, what, key):
        """`add constraint` with what it says."""
        constraint = self.constraint(name, True)
        if name in self.world.tables and constraint not in self.world.tables[name].constraints:
            self.world.tables[name].constraints[constraint] = key
        return "alter table %s add constraint %s %s%s" % (name, constraint, what, " not valid" if self.chance(0.5) else "")

    def add_check(self):
        """`add constraint .. check`."""
        return self.add_constraint(self.table(), "check (%s)" % self.draw.choice(CHECKS), None)

    def add_foreign(self):
        """`add constraint .. foreign key`, to its own table too."""
        name, refers = self.table(), self.table()
        column, other = self.column(name), self.column(refers)
        there = name in self.world.tables and column in self.world.tables[name].columns
        there = there and refers in self.world.tables and other in self.world.tables[refers].columns
        text = "foreign key (%s) references %s (%s)" % (column, refers, other)
        if not there:
            return "alter table %s add constraint %s %s" % (name, self.constraint(name, True), text)
        return self.add_constraint(name, text, (column, refers, other))

    def with_some(self, kind):
        """A table that has something of a kind, or any."""
        return self.one_of([n for n, table in self.world.tables.items() if getattr(table, kind)], TABLES)

    def validate(self):
        """`validate constraint`."""
        name = self.with_some("constraints")
        return "alter table %s validate constraint %s" % (name, self.constraint(name))

    def drop_constraint(self):
        """`drop constraint`."""
        name = self.with_some("constraints")
        constraint = self.constraint(name)
        if name in self.world.tables:
            self.world.tables[name].constraints.pop(constraint, None)
        return "alter table %s drop constraint %s" % (name, constraint)

    def create_trigger(self):
        """`create trigger`."""
        name = self.table()
        trigger = self.trigger(name, True)
        if name in self.world.tables and trigger not in self.world.tables[name].triggers:
            self.world.tables[name].triggers.append(trigger)
        return "create trigger %s on %s" % (trigger, name)

    def set_trigger(self):
        """`enable trigger` and `disable trigger`."""
        name = self.with_some("triggers")
        word = self.draw.choice(("enable", "disable", "disable"))
        return "alter table %s %s trigger %s" % (name, word, self.trigger(name))

    def create_index(self):
        """`create index`, now and then of 32 columns or of 33."""
        index, name = self.name_for(INDEXES), self.table()
        columns = [self.column(name) for _ in range(self.draw.choice((1, 1, 2, 3)))]
        if self.chance(ODD):
            columns = columns[:1] * self.draw.choice((32, 33))
        table = self.world.tables.get(name)
        free = index not in self.world.indexes and index not in self.world.tables
        if table and free and len(columns) < 33 and set(columns) <= set(table.columns):
            self.world.indexes[index] = (name, columns)
        return "create index %s on %s (%s)" % (index, name, ", ".join(columns))

    def drop_index(self):
        """`drop index`."""
        index = self.index()
        self.world.indexes.pop(index, None)
        return "drop index " + index

    def rename_index(self):
        """`alter index .. rename to`."""
        index, to = self.index(), self.name_for(INDEXES + TABLES[:1])
        if index in self.world.indexes and to not in self.world.indexes and to not in self.world.tables:
            self.world.indexes[to] = self.world.indexes.pop(index)
        return "alter index %s rename to %s" % (index, to)

    MAKING = ((create_table, 3), (add_column, 2), (set_default, 2), (add_check, 3), (add_foreign, 6), (create_trigger, 4),
              (create_index, 6))
    CHANGING = MAKING + ((drop_table, 2), (rename_table, 2), (drop_column, 3), (rename_column, 2), (set_statistics, 3),
                         (set_fillfactor, 3), (validate, 5), (drop_constraint, 4), (set_trigger, 5), (drop_index, 4),
                         (rename_index, 5))

    def change(self, kinds=CHANGING):
        """A command that changes something."""
        makers, weights = zip(*kinds)
        return self.draw.choices(makers, weights)[0](self)

    # Commands that read.

    def fields_of(self, name):
        """The fields of a relation, or now and then those of the other kind."""
        is_index = name in self.world.indexes
        return INDEX_FIELDS if is_index == self.chance(0.95) else TABLE_FIELDS

    def read(self):
        """A command that reads something."""
        name = self.relation()
        kind = self.draw.randrange(9)
        if kind < 2:
            return "show " + name
        if kind < 5:
            return "show %s %s" % (name, self.draw.choice(self.fields_of(name)))
        if kind == 5:
            return "regclass %d" % self.draw.choice(tuple(range(16384, 16396)) + (0, 99999))
        name = self.table()
        return ("columns " + name, "column %s %s" % (name, self.column(name)), "lock table %s in %s mode" % (
            name, self.draw.choice(WEAK_MODES if self.chance(0.7) else MODES)))[kind - 6]

    def hold(self):
        """`open`, `peek` and `close`."""
        if not self.opened or self.chance(0.4):
            self.opened.append(self.relation())
            return "open " + self.opened[-1]
        name = self.one_of(self.opened, TABLES)
        if self.chance(0.2):
            if name in self.opened:
                self.opened.remove(name)
            return "close " + name
        return "peek " + name if self.chance(0.5) else "peek %s %s" % (name, self.draw.choice(self.fields_of(name)))

    def keyed(self):
        """A foreign key to a table that is open: the one change that its own session may make."""
        there = [name for name in self.opened if name in self.world.tables and self.world.tables[name].columns]
        own = [name for name in self.world.tables if name not in self.opened and self.world.tables[name].columns]
        if not there or not own:
            return self.change()
        name, refers = self.draw.choice(own), self.draw.choice(there)
        key = (self.column(name), refers, self.column(refers))
        return self.add_constraint(name, "foreign key (%s) references %s (%s)" % key, key)

    # Blocks, sessions and schedules.

    def level_word(self):
        """A command on savepoints."""
        if self.standing and self.chance(0.6):
            name = self.draw.choice(self.standing)[0] if self.chance(0.95) else "nosuch"
            is_back = self.chance(0.65)
            self.end_level(name, is_back)
            return ("rollback to %s%s" if is_back else "release %s%s") % ("savepoint " if self.chance(0.2) else "", name)
        self.standing.append((self.draw.choice(SAVEPOINTS), copy.deepcopy(self.world), list(self.opened)))
        return "savepoint " + self.standing[-1][0]

    def end_level(self, name, is_back):
        """The latest level of a name ends, or begins again as it was."""
        places = [at for at, level in enumerate(self.standing) if level[0] == name]
        if places and is_back:
            _, world, opened = self.standing[places[-1]]
            self.world, self.opened = copy.deepcopy(world), list(opened)
        if places:
            del self.standing[places[-1] + is_back:]

    def block(self):
        """The commands of a block."""
        before = copy.deepcopy(self.world)
        self.opened, self.standing, found = [], [], ["begin"]
        holds = self.draw.choice((0, 2, 6))
        for _ in range(self.draw.randint(1, 9)):
            makers = (self.change, self.read, self.hold, self.level_word, self.keyed)
            found.append(self.draw.choices(makers, (5, 3, holds, 5, holds))[0]())
            if self.standing and found[-1].split(" ")[0] in RISKY and self.chance(0.3):
                found.append("rollback to " + self.standing[-1][0])
                self.end_level(self.standing[-1][0], True)
        if self.chance(0.03):
            return found
        self.opened, self.standing = [], []
        found.append("commit" if self.chance(0.6) else "rollback")
        if found[-1] == "rollback":
            self.world = before
        return found

    def churn(self):
        """One name means another relation again and again, and is used in between: for lookups that are repeated."""
        name, other = self.table(), self.draw.choice(COLUMNS)
        if self.chance(0.4) and self.world.indexes:
            index = self.index()
            turns = (["drop index " + index, "create index %s on %s (%s)" % (index, name, self.column(name))],
                     ["alter index %s rename to x" % index, "alter index x rename to " + index])
            uses = ("show %s name" % index, "drop index " + index, "alter index %s rename to %s" % (index, index))
        else:
            turns = (["drop table " + name, "create table %s (%s int4)" % (name, other)],
                     ["alter table %s rename to x" % name, "alter table x rename to " + name])
            uses = ("show %s columns" % name, "alter table %s add constraint k foreign key (%s) references %s (%s)" % (
                self.table(), other, name, other), "lock table %s in share mode" % name)
        found = []
        for _ in range(self.draw.choice((1, 2, 4))):
            found += self.draw.choice(turns)
            found += self.draw.sample(uses, self.draw.randrange(3))
        return ["begin"] + found + ["commit"] if self.chance(0.3) else found

    def session(self):
        """The commands of one backend."""
        found = []
        for _ in range(self.draw.choice((1, 2, 3, 5))):
            if self.churns and self.chance(0.6):
                found += self.churn()
            elif self.chance(0.55):
                found += self.block()
            else:
                found += [self.change() if self.chance(0.65) else self.read() for _ in range(self.draw.randint(1, 3))]
            if self.chance(ODD):
                found.append(self.draw.choice(OUTSIDE))
        return found

    def beginning(self):
        """What is made before all else."""
        found = [self.create_table() for _ in range(self.draw.choice((2, 3, 4)))]
        return found + [self.change(self.MAKING) for _ in range(self.draw.choice((0, 6, 12)))]

    def schedule(self, backends, commands):
        """Steps of the backends, finely or coarsely cut."""
        lengths = self.draw.choice(((1, 1, 2), (1, 2, 5, 8), (3, 20, 40), (1, 60)))
        total, items = commands * self.draw.choice((4, 12, 20)), []
        while total > 0:
            items.append((self.draw.randint(1, backends), self.draw.choice(lengths)))
            total -= items[-1][1]
        if self.chance(0.85):
            items += [(backend, MOST_STEPS // backends) for backend in range(1, backends + 1)]
        return ["%d" % b if n == 1 else "%d*%d" % (b, n) for b, n in items]

    def script(self, backends):
        """The script as text."""
        lines = []
        if self.laps or self.chance(0.2):
            lines.append("ring 64" if self.chance(0.8) else "ring " + self.draw.choice(("64 from 16777213", "128", "64 from 5")))
        drawn = self.draw.choice((1, 2, 2, 3, 4, 6))
        backends = backends or drawn
        begun = self.beginning()
        sessions = [(b, self.session()) for b in self.draw.sample(range(1, backends + 1), backends)]
        commands = [(1, begun)] + sorted(sessions)
        lines.append("backends %d" % backends)
        lines += ["%d: %s" % (b, command) for b, all_of in commands for command in all_of]
        if self.chance(0.92):
            items = ["1*%d" % (len(begun) * 24)] + self.schedule(backends, sum(len(all_of) for _, all_of in sessions))
            lines += ["steps " + " ".join(items[at:at + 20]) for at in range(0, len(items), 20)]
        lines.append("end")
        return "".join(line + "\n" for line in (map(self.spelled, lines) if self.chance(0.2) else lines))

    def spelled(self, line):
        """A line in another spelling."""
        for short, long in LONG_TYPES.items():
            if self.chance(0.3):
                line = re.sub(r"\b%s\b" % short, long, line)
        line = line.upper() if self.chance(0.3) else line
        line = re.sub(" ", lambda _: self.draw.choice((" ", " ", "  ", "\t")), line)
        if re.match(r"\d", line) and self.chance(0.3):
            line = re.sub(r"([(),=:])", lambda mark: self.draw.choice((" %s ", "%s")) % mark[1], line)
            line += self.draw.choice((";", " ;"))
        return line + self.draw.choice(("", "", " ", "\r"))


def script_of(seed, backends=None):
    """The script of a seed, with so many backends; how many is drawn if left out."""
    return Maker(seed).script(backends)


if __name__ == "__main__":
    if len(sys.argv) != 2:
        sys.exit(__doc__)
    sys.stdout.write(script_of(sys.argv[1]))
