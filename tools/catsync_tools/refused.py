"""Defaults and checks that a server reads and refuses, and that are done here, where neither is read (docs/PROFILE.md). What isn't
told from the text alone, as the type of a function's value, is taken for right."""
import re
from typing import List, NamedTuple, Optional, Sequence, Tuple

from .known import Facts

NAME = "[a-z_][a-z0-9_]*"
INTEGERS = ("int2", "int4", "int8")
TEXTS = ("text", "varchar", "char", "character", "bytea")
NUMBERS = ("numeric", "decimal", "real", "float", "float4", "float8", "double")
SYSTEM_COLUMNS = ("ctid", "xmin", "xmax", "cmin", "cmax")       # a check may name `tableoid`
COMPARED = ("<", ">", "<=", ">=", "=", "<>", "!=")
OF_DEFAULT = "there the default %s (%s); here one is any word, as docs/PROFILE.md says"
OF_CHECK = "there the check %s (%s); here one is any text, as docs/PROFILE.md says"
OTHER = "%s is of another type than its column, %s"

# What may follow a column's default or check in its definition.
FURTHER = ("not", "null", "check", "unique", "primary", "references", "constraint", "generated", "collate", "default", "deferrable",
           "initially")
# Words of expressions that name no column.
WORDS = frozenset("""
    and or not is null true false in like ilike similar to between symmetric asymmetric distinct from unknown isnull notnull case when
    then else end cast as collate any all some array row escape overlaps at time zone interval current_date current_time
    current_timestamp localtime localtimestamp current_user current_role session_user user current_catalog current_schema operator
    normalized document json of default precision varying with without for both leading trailing placing
    """.split())
# The spellings that a type reads.
READS = {"int": r"\s*[-+]?[0-9][0-9a-z_]*\s*", "number": r"\s*[-+]?(?:[0-9.][0-9a-z_.+-]*|nan|inf|infinity)\s*",
         "bool": r"\s*(?:t|tr|tru|true|f|fa|fal|fals|false|y|ye|yes|n|no|on|of|off|1|0)\s*",
         "date": r".*[0-9].*|\s*(?:now|today|tomorrow|yesterday|epoch|[-+]?infinity)\s*"}


class Claim(NamedTuple):
    """A default of a column of a table, or, without a column, a check: its tokens; and the types that the spec gave the table's
    columns, since `text` here stands for others too."""
    table: str
    column: Optional[str]
    tokens: Tuple[str, ...]
    types: Tuple[Tuple[str, str], ...] = ()


def expression_of(tokens) -> List[str]:
    """The tokens up to what may follow a default."""
    found: List[str] = []
    for token in tokens:
        if token in FURTHER and found:
            break
        found.append(token)
    return found


def condition_of(tokens) -> List[str]:
    """The tokens of a check within its parentheses."""
    depth = 0
    for at, token in enumerate(tokens):
        depth += (token == "(") - (token == ")")
        if depth == 0:
            return list(tokens[1:at])
    return []


def refusals(steps, backend, claims: Sequence[Claim]) -> List[str]:
    """How a server refuses these defaults and checks, which a backend has made by the last of these steps."""
    facts = Facts()
    for step in steps if claims else ():
        facts.take(*step)
    return [how for how in (refusal(claim, facts, backend) for claim in claims) if how]


def refusal(claim: Claim, facts: Facts, backend) -> Optional[str]:
    """How a server refuses a default or a check that was done here, or None."""
    rel = facts.named(backend, claim.table)
    if rel is None:
        return None
    given = dict(claim.types)
    types = {name: given.get(name, "") if columns[3] == "text" else columns[3] for name, columns in facts.columns(backend, rel).items()}
    if claim.column is None:
        why = why_no_check(condition_of(claim.tokens), types, claim.table)
        return OF_CHECK % why if why else None
    why = why_no_default(expression_of(claim.tokens), types.get(claim.column))
    return OF_DEFAULT % why if why else None


def group_of(kind):
    """What values of a type are read as, or None where all are taken."""
    groups = dict.fromkeys(INTEGERS, "int")
    groups.update(dict.fromkeys(NUMBERS, "number"), bool="bool", date="date", timestamptz="date", timestamp="date")
    return groups.get(kind)


def is_text(token):
    """Whether a token is a text in plain quotes."""
    return token[:1] == "'"


def is_number(token):
    """Whether a token is a number."""
    return re.fullmatch("[0-9][0-9.]*", token) is not None


def unread(token, kind):
    """Whether a text in quotes is no value of a type."""
    group = group_of(kind)
    return group is not None and re.fullmatch(READS[group], token.strip("'").lower()) is None


def code_of(kind):
    """The SQLSTATE of a text that is no value of a type."""
    return "22007" if group_of(kind) == "date" else "22P02"


def why_no_default(tokens, kind):
    """Why a default of one token isn't one of a column of this type, and the SQLSTATE; None where it may be."""
    tokens = tokens[1:] if tokens[:1] in (["-"], ["+"]) and len(tokens) == 2 else tokens
    if kind is None or len(tokens) != 1:
        return None
    token, group = tokens[0], group_of(kind)
    if is_text(token):
        return ("%s is no %s" % (token, kind), code_of(kind)) if unread(token, kind) else None
    if is_number(token):
        return (OTHER % (token, kind), "42804") if group in ("bool", "date") or kind == "bytea" else None
    if token in ("true", "false"):
        return (OTHER % (token, kind), "42804") if group not in (None, "bool") else None
    if re.fullmatch(NAME, token) and token not in WORDS:
        return "names '%s', and no column may be named there" % token, "0A000"
    return None


def names_column(tokens, at, table):
    """Whether a token of a check names a column: no word of expressions, function, type or further part of a number."""
    token, before, following = tokens[at], tokens[at - 1] if at else "", tokens[at + 1] if at + 1 < len(tokens) else ""
    if re.fullmatch(NAME, token) is None or token in WORDS or is_text(before) or is_number(before) or is_text(following):
        return False
    if following in ("(", ".", "with", "without", "precision", "varying") or before in ("::", "as", "collate"):
        return False
    return before != "." or tokens[at - 2:at - 1] == [table]


def why_no_check(tokens, types, table):
    """Why a check isn't one of a table with columns of these types, and the SQLSTATE; None where it may be."""
    for at, token in enumerate(tokens):
        if not names_column(tokens, at, table) or "extract" in tokens:
            continue
        if token in SYSTEM_COLUMNS:
            return "names the system column '%s'" % token, "42P10"
        if token not in types and token not in (table, "tableoid"):
            return "names '%s', which is no column" % token, "42703"
    if len(tokens) == 1 and (is_number(tokens[0]) or group_of(types.get(tokens[0])) not in (None, "bool")):
        return "'%s' is no condition" % tokens[0], "42804"
    for first, sign, second in zip(tokens, tokens[1:], tokens[2:]) if len(tokens) == 3 else ():
        column, value = (first, second) if first in types else (second, first)
        if sign in COMPARED and is_number(value) and types.get(column) in TEXTS:
            return "compares '%s', a %s, with a number" % (column, types[column]), "42883"
        if sign in COMPARED and is_text(value) and unread(value, types.get(column)):
            return "compares '%s' with %s, which is no %s" % (column, value, types[column]), code_of(types[column])
    return None
