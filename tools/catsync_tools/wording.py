"""The server's messages for what commands are answered here."""
import re

CANT = "can only be used in transaction blocks"
USED = "because it is being used by active queries in this session"

# The alterations that an index can't have.
NOT_OF_INDEX = ("add column", "drop column", "add constraint", "drop constraint", "validate constraint", "enable trigger",
                "disable trigger", "alter column ... set default")

# By the SQLSTATE of an answer, what the answer and the command are like, and the server's message.
MESSAGES = tuple((code, re.compile(answer), re.compile(command), message) for code, answer, command, message in (
    ("25P02", ".*", ".*", "current transaction is aborted, commands ignored until end of transaction block"),
    ("25P01", ".*", "lock .*", "LOCK TABLE " + CANT), ("25P01", ".*", "savepoint .*", "SAVEPOINT " + CANT),
    ("25P01", ".*", "release .*", "RELEASE SAVEPOINT " + CANT), ("25P01", ".*", "rollback to .*", "ROLLBACK TO SAVEPOINT " + CANT),
    ("25P01", ".*", "open .*", "DECLARE CURSOR " + CANT), ("25P01", ".*", "close (.*)", r'cursor "\1" does not exist'),
    ("3B001", "savepoint (.*) does not exist", ".*", r'savepoint "{0}" does not exist'),
    ("42P01", "relation (.*) does not exist", "drop table .*", r'table "{0}" does not exist'),
    ("42P01", "relation (.*) does not exist", ".*", r'relation "{0}" does not exist'),
    ("42704", "index (.*) does not exist", ".*", r'index "{0}" does not exist'),
    ("42704", "constraint (.*) does not exist", "alter table ([^ ]*) .*", r'constraint "{0}" of relation "\1" does not exist'),
    ("42704", "trigger (.*) does not exist", "alter table ([^ ]*) .*", r'trigger "{0}" for table "\1" does not exist'),
    ("42710", "constraint (.*) already exists", "alter table ([^ ]*) .*", r'constraint "{0}" for relation "\1" already exists'),
    ("42710", "trigger (.*) already exists", "create trigger .* on (.*)", r'trigger "{0}" for relation "\1" already exists'),
    ("42P07", "relation (.*) already exists", ".*", r'relation "{0}" already exists'),
    ("55P03", "name (.*) is in use .*", ".*", r'relation "{0}" already exists'),
    ("55P03", ".*", "(?:lock table|show|open|alter table|drop table|create index .* on|create trigger .* on) ([^ ]*).*",
     r'could not obtain lock on relation "\1"'),
    ("42701", "column (.*) already exists", "create table .*", r'column "{0}" specified more than once'),
    ("42701", "column (.*) already exists", "alter table ([^ ]*) .*", r'column "{0}" of relation "\1" already exists'),
    ("42703", "column (.*) does not exist", "alter table .* foreign key .*",
     r'column "{0}" referenced in foreign key constraint does not exist'),
    ("42703", "column (.*) does not exist", "(?:create index|alter table [^ ]* rename) .*", r'column "{0}" does not exist'),
    ("42703", "column (.*) does not exist", "alter table ([^ ]*) .*", r'column "{0}" of relation "\1" does not exist'),
    ("42809", "(.*) is not a table", "lock .*", r'cannot lock relation "{0}"'),
    ("42809", "(.*) is not a table", "create (?:index|trigger) .*", r'cannot open relation "{0}"'),
    ("42809", "(.*) is not a table", "drop .*", r'"{0}" is not a table'),
    ("42809", "(.*) is not a table", "alter table [^ ]* alter column ([^ ]*) set statistics .*",
     r'cannot alter statistics on non-expression column "\1" of index "{0}"'),
    ("42809", "(.*) is not an index", ".*", r'"{0}" is not an index'),
    ("2BP01", "other objects depend on relation (.*)", ".*", r"cannot drop table {0} because other objects depend on it"),
    ("22023", ".*", ".* statistics (.*)", r"statistics target \1 is too low"),
    ("22023", ".*", r".*fillfactor = ([0-9]+).*", r'value \1 out of bounds for option "fillfactor"'),
    ("54011", ".*", "create index .*", "cannot use more than 32 columns in an index"),
    ("54011", ".*", ".*", "tables can have at most 1600 columns"),
    ("55006", ".*", "drop table (.*)", r'cannot DROP TABLE "\1" ' + USED),
    ("55006", ".*", "create index .* on ([^ ]*) .*", r'cannot CREATE INDEX "\1" ' + USED),
    ("55006", ".*", "alter table ([^ ]*) .*", r'cannot ALTER TABLE "\1" ' + USED),
) + tuple(("42809", "(.*) is not a table", "alter table [^ ]* %s .*" % action.replace("...", "[^ ]*"),
             'ALTER action %s cannot be performed on relation "{0}"' % action.upper()) for action in NOT_OF_INDEX))


def message_of(answer, command, has_waited, is_victim):
    """The server's message for an error."""
    code, text = answer.split(" ", 2)[1:]
    if is_victim:
        return "deadlock detected"
    if code == "42P07" and has_waited:
        index = "pg_type_typname_nsp_index" if command.startswith("create table") else "pg_class_relname_nsp_index"
        return 'duplicate key value violates unique constraint "%s"' % index
    for known, pattern, commands, message in MESSAGES:
        said, asked = pattern.fullmatch(text), commands.fullmatch(command)
        if known == code and said and asked:
            return asked.expand(message).format(*said.groups())
    return text


def warning_of(command, in_block):
    """The server's warning for a command."""
    if command == "begin" and in_block:
        return "there is already a transaction in progress"
    if command in ("commit", "rollback") and not in_block:
        return "there is no transaction in progress"
    found = re.fullmatch(".* set statistics ([0-9]+)", command)
    return "lowering statistics target to 10000" if found and int(found.group(1)) > 10000 else None
