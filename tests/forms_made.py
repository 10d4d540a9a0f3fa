#!/usr/bin/env python3
"""forms_made.py PAGE OUTPUT..: holds the tables of docs/HISTORY.md beside outputs of the program.

Each form in a row of these tables occurs in one of the outputs, but for the rows of what no walk makes, whose forms occur in none.
Prints a line for each row that is wrong; the exit status is 1 then, and 0 where all are right.
"""
import re
import sys

# What the words in capitals of a form stand for.
WORDS = {
    "XID": r"\d+", "REL": r"\d+", "OID": r"\d+", "INDEX": r"\d+", "TABLE": r"\d+", "REFREL": r"\d+",
    "B": r"\d+", "B2": r"\d+", "C": r"\d+", "K": r"\d+", "N": r"\d+", "NUM": r"\d+", "REFNUM": r"\d+",
    "MODE": r"[a-z]{2}", "MODE2": r"[a-z]{2}", "SQLSTATE": r"[0-9A-Z]{5}", "KIND": r"[ri]", "FILL": r"(?:-|\d+)",
    "STAT": r"-?\d+", "LIVE": r"[ld]", "VALID": r"[vn]", "ON": r"[ed]", "NUMS": r"\d+(?:\+\d+)*",
    "FIELD": r"(?:name|columns|defaults|statistics|fillfactor|constraints|referenced|indexes|triggers|of|valid)",
    "VALUE": r".+", "CHANGE": r"[-+=!]\S+", "ROW": r"[a-z]+\(\S+\)", "KEY": r"(?:[a-z]+\([\d,]+\)|\S*)",
    "PURPOSE": r"[a-z]+", "NAME": r"[a-z0-9_.]+", "TYPE": r"[a-z0-9]+", "WORD": r"[a-z0-9_-]+", "TEXT": r".+",
}
# In which lines a form is looked for, by the section and the head of its table. FORM is its place.
LINES = {
    "Events": r"^h \d+ \d+ FORM$",
    "Scans": r"^h \d+ \d+ scan FORM rows \d+$",
    "text": r"^h .* write .* FORM(?: |$)",
    "catalog": r"^h .* write .*[+=]FORM",
    "change of": r"^h .* write .*(?:[-+=]FORM\(| FORM(?: |$))",
    "Answers": r"^l \d+ \d+ FORM$",
    "code": r"^l \d+ \d+ error FORM$",
}
# Where the value of a part of a row stands.
PARTS = {
    "KIND": r"class\(\d+,[^,]+,FORM,", "FILL": r"class\(\d+,[^,]+,.,FORM\)", "NUM, REFNUM": r"att\(\d+,FORM,",
    "TYPE": r"att\(\d+,\d+,[^,]+,FORM,", "STAT": r"att\(\d+,\d+,[^,]+,[^,]+,FORM,",
    "LIVE": r"att\(\d+,\d+,[^,]+,[^,]+,[^,]+,FORM\)", "WORD, TEXT": r"(?:def|con)\(", "VALID": r"(?:ind|con)\(.*,FORM",
    "NUMS": r"ind\(\d+,\d+,[vn],FORM\)", "ON": r"trg\(.*,FORM\)",
}
# Forms that no output tells from another one: this is what `show T columns` answers too.
UNTOLD = ("`columns NAME:TYPE NAME:TYPE ..`",)
# What no walk makes: a refusal of memory, and the answer of its command.
UNMADE = ("`fail`", "53200")
# The first heads of the tables of forms.
HEADS = ("text", "catalog", "part", "change of", "code")


def pattern(form):
    """A regular expression of a form: words in capitals stand for values, and ' ..' for more of the same."""
    pieces = re.split(r"(?<!\d)([A-Z]+2?)(?![a-z\d])", form.replace(" ..", "\0"))
    known = (WORDS.get(piece, re.escape(piece)) for piece in pieces)
    return "".join(known).replace(re.escape("\0"), "(?: .*)?").replace("\0", "(?: .*)?")


def rows_of(page):
    """The rows of each table of forms: section, heads and cells."""
    section, heads = "", None
    for line in page.splitlines():
        if line.startswith("## "):
            section = line[3:]
        if not line.startswith("|"):
            heads = None
            continue
        cells = [cell.strip() for cell in line.strip()[1:-1].split("|")]
        if heads is None:
            heads = cells
        elif not line.startswith("|---") and heads[0] in HEADS and cells[0] not in UNTOLD:
            yield section, heads, cells


def forms_of(section, heads, cells):
    """The regular expressions of a row."""
    if heads[0] == "part":
        spans = re.findall(r"`([^`]+)`", cells[1]) or [""]
        return [PARTS[cells[0]].replace("FORM", pattern(span)) for span in spans]
    spans = re.findall(r"`([^`]+)`", cells[1 if heads[0] in ("catalog", "code") else 0])
    if heads[0] == "code":
        spans = [cells[0] + " " + span for span in spans]
    lines = LINES.get(heads[0]) if heads[0] != "text" or section == "Rows and changes" else None
    lines = lines or LINES[section]
    return [lines.replace("FORM", pattern(span)) for span in spans]


def main():
    with open(sys.argv[1], encoding="utf-8") as page:
        rows = list(rows_of(page.read()))
    outputs = []
    for name in sys.argv[2:]:
        with open(name, encoding="ascii") as output:
            outputs.append(output.read())
    text = "\n".join(outputs)
    wrong = 0
    for section, heads, cells in rows:
        found = [re.search(form, text, re.MULTILINE) is not None for form in forms_of(section, heads, cells)]
        wanted = 0 if cells[0] in UNMADE else len(found)
        if not found or sum(found) != wanted:
            wrong += 1
            print("%s: %s: %d of %d forms are made" % (section, cells[0], sum(found), len(found)))
    print("%d rows, %d wrong" % (len(rows), wrong))
    return 1 if wrong or not rows else 0


if __name__ == "__main__":
    sys.exit(main())
