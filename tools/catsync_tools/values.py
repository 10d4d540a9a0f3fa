"""What rows come to: the fields of a descriptor as answers spell them, and the rows of a catalog cache's entry."""
from typing import List, Sequence, Tuple

from .messages import BUILD_SCANS, Datum, Row

MOST = 240              # characters of a value that are shown


def joined(items: Sequence[str]):
    """The items of a field, or `-` for none."""
    return " ".join(items) or "-"


def class_fields(rows: List[Row], rel):
    """The name, and of a table the fillfactor."""
    for _, name, kind, fill in (row.columns for row in rows):
        return [("name", name)] + ([("fillfactor", fill)] if kind == "r" else [])
    return [("name", "-")]


def attribute_fields(rows: List[Row], rel):
    """The live columns and their statistics targets, by number."""
    live = [columns for columns in sorted((row.columns for row in rows), key=lambda columns: int(columns[1])) if columns[5] == "l"]
    return [("columns", joined(["%s:%s" % columns[2:4] for columns in live])),
            ("statistics", joined(["%s:%s" % (columns[1], columns[4]) for columns in live]))]


def attrdef_fields(rows: List[Row], rel):
    """The defaults, by column."""
    return [("defaults", joined(["%s=%s" % columns[2:4] for columns in sorted(
        (row.columns for row in rows), key=lambda columns: int(columns[2]))]))]


def constraint_item(columns):
    """A constraint of the table itself."""
    if columns[3] == "c":
        return "%s:check:%s:%s" % (columns[2], columns[4], columns[5])
    return "%s:fk:%s" % (columns[2], ":".join(columns[4:8]))


def constraint_fields(rows: List[Row], rel):
    """The table's own constraints, and the foreign keys that refer to it, by oid."""
    all_ = sorted((row.columns for row in rows), key=lambda columns: int(columns[0]))
    return [("constraints", joined([constraint_item(columns) for columns in all_ if columns[1] == str(rel)])),
            ("referenced", joined(["%s:%s:%s" % (columns[0], columns[1], columns[7]) for columns in all_
                                   if columns[3] == "f" and columns[6] == str(rel)]))]


def index_fields(rows: List[Row], rel):
    """The table's indexes, by oid."""
    return [("indexes", joined(["%s:%s:%s" % (columns[0], columns[2], columns[3]) for columns in sorted(
        (row.columns for row in rows), key=lambda columns: int(columns[0]))]))]


def trigger_fields(rows: List[Row], rel):
    """The triggers, by name."""
    return [("triggers", joined(["%s:%s" % columns[2:4] for columns in sorted(
        (row.columns for row in rows), key=lambda columns: columns[2])]))]


def indexrow_fields(rows: List[Row], rel):
    """The table and the columns of an index, and whether it is valid."""
    for _, table, valid, columns in (row.columns for row in rows):
        return [("of", "%s:%s" % (table, columns)), ("valid", valid)]
    return [("of", "-"), ("valid", "-")]


FIELDS = {"class": class_fields, "attribute": attribute_fields, "attrdef": attrdef_fields, "constraint": constraint_fields,
          "index": index_fields, "trigger": trigger_fields, "indexrow": indexrow_fields}


def row_text(row: Row):
    """A row as a write has it."""
    return "%s(%s)" % (row.catalog, ",".join(row.columns))


def values_of(datum: Datum, rows: List[Row]) -> List[Tuple[str, str]]:
    """What a scan that gave these rows comes to: fields with their values, or the rows themselves."""
    if datum[0] in BUILD_SCANS:
        return FIELDS[datum[0]](rows, datum[1])
    ordered = sorted(rows, key=lambda row: row.columns[2]) if datum[0] == "attlist" else rows
    return [("rows" if datum[0] == "attlist" else "row", joined([row_text(row) for row in ordered]) if rows else "none")]


def shown(text):
    """A value, cut where it is long."""
    return text if len(text) <= MOST else text[:MOST] + " .."
