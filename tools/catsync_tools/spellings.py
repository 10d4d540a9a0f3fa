"""Commands in PostgreSQL's usual spellings, in the forms that the grammar has; and comments behind a line."""
import re

NAME = "[a-z_][a-z0-9_]*"
WORD = re.compile("[^ \t]+")
TOKEN = re.compile(r"[(),=:*;]|[^ \t(),=:*;]+")


def _other_than(*words):
    """A name that is none of these words."""
    return "(?!(?:%s)(?: |$))%s" % ("|".join(words), NAME)


_TABLE = _other_than("table", "only")
_COLUMN = _other_than("column", "constraint", "to")
_OF_TABLE = "(alter table %s) " % NAME
_WORK = "(?: work| transaction)?"

# What is written otherwise than in the grammar, token by token, and the grammar's form.
FORMS = tuple((re.compile(pattern), form) for pattern, form in (
    ("(?:begin|start)(?: work| transaction)", "begin"),
    ("(?:commit|end)" + _WORK, "commit"),
    ("(?:rollback|abort)" + _WORK, "rollback"),
    ("(?:rollback work|rollback transaction|abort%s) to (?:savepoint )?(%s)" % (_WORK, NAME), r"rollback to \1"),
    ("lock (?:table )?(?:only )?(%s)" % _TABLE, r"lock table \1 in access exclusive mode"),
    ("lock (?:table )?(?:only )?(%s) (in [a-z ]+ mode)" % _TABLE, r"lock table \1 \2"),
    ("alter table only (%s) (.*)" % _other_than("add", "drop", "rename", "alter", "set"), r"alter table \1 \2"),
    (_OF_TABLE + "add (%s) ([a-z0-9]+)" % _COLUMN, r"\1 add column \2 \3"),
    (_OF_TABLE + "drop (%s)" % _COLUMN, r"\1 drop column \2"),
    (_OF_TABLE + "rename (%s) to (%s)" % (_COLUMN, NAME), r"\1 rename column \2 to \3"),
    (_OF_TABLE + "alter (%s) (set .*)" % _COLUMN, r"\1 alter column \2 \3"),
))
_ZONE = re.compile("timestamp with time zone")
_QUOTED = re.compile('"(%s)"' % NAME)
_SCHEMA = re.compile(r"(?<![^ \t(,])public\.(?=[a-z_])", re.IGNORECASE)
_REMARK = re.compile(r"/\*.*?\*/")
_DEFAULT = re.compile(r"[ \t]set[ \t]+default[ \t]*$", re.IGNORECASE)


def without_comment(text):
    """A line without the comment that follows it. Within parentheses, and where a default's word is due, `--` is the
    command's own."""
    if _REMARK.search(text):
        text = _REMARK.sub(" ", text).rstrip()
    depth = 0
    for at, letter in enumerate(text):
        depth += (letter == "(") - (letter == ")")
        if text.startswith("--", at) and depth == 0 and text[:at][-1:] in (" ", "\t", ";", ")") \
                and not _DEFAULT.search(text[:at]):
            return text[:at].rstrip()
    return text


def words_of(text):
    """What blanks and tabs separate in a line, in small letters."""
    return WORD.findall(text.lower())


def tokens_of(text):
    """The tokens of a line, in small letters."""
    return TOKEN.findall(text.lower())


def spaced(text):
    """A command with one blank between tokens, as it is written."""
    return re.sub(r" (?=[,):])|(?<=\() ", "", text)


def in_forms(text):
    """A command, token by token, in the grammar's forms."""
    text = _ZONE.sub("timestamptz", text)
    for pattern, form in FORMS:
        found = pattern.fullmatch(text)
        if found:
            text = found.expand(form)
    return text


def refused(text):
    """Why a command that PostgreSQL has is none here, where that isn't for the program to say."""
    tokens = [token for token in tokens_of(text) if token != ";"]
    if tokens[:1] == ["lock"] and tokens[-1] == "nowait" and len(tokens) > 2:
        return "'nowait' isn't the model's: here no lock waits, and each is refused at once as with 'nowait'; leave it out"
    condition = re.match("(?:alter|create|drop) (?:table|index) (if (?:not )?exists) ", " ".join(tokens) + " ")
    if condition:
        return "'%s' isn't the model's; leave it out" % condition.group(1)
    return refused_change(tokens) if tokens[:2] == ["alter", "table"] else None


def refused_change(tokens):
    """Why an `alter table` that PostgreSQL has is none here, or has no type."""
    depth = 0
    for token in tokens:
        depth += (token == "(") - (token == ")")
        if token == "," and depth == 0:
            return "an 'alter table' makes one change here; make a command of each"
    unnamed = re.match(_OF_TABLE + r"add (check|foreign key) \(", " ".join(tokens))
    if unnamed:
        return "a constraint has a name here: 'add constraint NAME %s (..)'" % unnamed.groups()[-1]
    if re.fullmatch(_OF_TABLE + "add (?:column )?(?:%s)" % _COLUMN, " ".join(tokens)):
        return "the column '%s' has no type" % tokens[-1]
    return None


def respelled(text):
    """A command in the grammar's forms; as it is where it has one, or none that is known."""
    plain = _SCHEMA.sub("", _QUOTED.sub(r"\1", text))
    tokens = tokens_of(plain)
    if tokens[-1:] == [";"]:
        tokens.pop()
    command = " ".join(tokens)
    spelled = in_forms(command)
    return plain if spelled == command else " " + spaced(spelled)
