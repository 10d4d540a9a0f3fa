#!/usr/bin/env python3
"""reading_list.py [--write]: holds the list "What must be read" of docs/DEFINITIONS.md beside the definitions.

The list has each module of crates/*/specs that the clauses of the top call cite, directly or through others, with its number
of lines; but for the modules named Types and Events, which only give types their names, and for what Sessions of catsync_top
alone cites: of that the page has the number of all lines. Says what is wrong and ends with status 1, or with --write puts it
right (a module that is new comes last in its crate's row). None of these modules, nor the top call, may import proofs.
"""
import os
import re
import sys

TOP = os.path.dirname(os.path.dirname(os.path.abspath(__file__)))
PAGE = os.path.join(TOP, "docs", "DEFINITIONS.md")
CITES = re.compile(r"^\s*(?:pub |ghost )?use Rattle\.(\w+)\.specs\.(\w+)\b", re.MULTILINE)
PROOFS = re.compile(r"^\s*(?:pub |ghost )?use (Rattle\.\w+\.proofs\.[\w.]*\w)", re.MULTILINE)
COUNT = re.compile(r"these ([\d,]+) lines")
BESIDES = re.compile(r"rests on ([\d,]+) lines besides")
SESSIONS = ("catsync_top", "Sessions")
TOP_CALL = ("catsync_top", "src", "top.rt")


def text_of(*parts):
    with open(os.path.join(TOP, "crates", *parts), encoding="utf-8") as file:
        return file.read()


def followed(less=()):
    """The modules that the top call cites, but for these and what they alone cite, with their texts."""
    found, left = {}, CITES.findall(text_of(*TOP_CALL))
    left = [module for module in left if module not in less]
    while left:
        crate, module = left.pop()
        path = (crate, "specs", module + ".antt")
        if (crate, module) not in found and os.path.exists(os.path.join(TOP, "crates", *path)):
            found[crate, module] = text_of(*path)
            left += CITES.findall(found[crate, module])
    return found


def cited(less=()):
    """The same with their lines, but for the modules that only give types their names."""
    return {key: text.count("\n") for key, text in followed(less).items() if key[1] not in ("Types", "Events")}


def imports_of_proofs():
    """The files that are followed and import proofs, with what they import."""
    texts = {"/".join(TOP_CALL): text_of(*TOP_CALL)}
    texts.update({"%s/specs/%s.antt" % module: text for module, text in followed().items()})
    return [(path, module) for path, text in sorted(texts.items()) for module in PROOFS.findall(text)]


def row_of(crate, listed, modules):
    """The modules of a row, in the order in which they are listed."""
    order = [name for name in re.findall(r"[A-Z]\w*", listed) if (crate, name) in modules]
    order += sorted(name for other, name in modules if other == crate and name not in order)
    return ", ".join("%s %d" % (name, modules[crate, name]) for name in order)


def mended(page):
    modules = cited(less=(SESSIONS,))
    besides = sum(cited().values()) - sum(modules.values())
    before, after = page.split("## What must be read", 1)
    listed = set()

    def row(match):
        listed.add(match[1])
        return "| %s | %s |" % (match[1], row_of(match[1], match[2], modules))

    after = re.sub(r"^\| (\w+) \| ([A-Z]\w* \d[^|]*) \|", row, after, flags=re.MULTILINE)
    after = COUNT.sub("these {:,} lines".format(sum(modules.values())), after, count=1)
    after = BESIDES.sub("rests on {:,} lines besides".format(besides), after, count=1)
    lacking = sorted({crate for crate, _ in modules} - listed)
    return before + "## What must be read" + after, lacking


def main():
    with open(PAGE, encoding="utf-8") as file:
        page = file.read()
    right, lacking = mended(page)
    proofs = imports_of_proofs()
    for crate in lacking:
        print("docs/DEFINITIONS.md: no row for %s" % crate)
    for path, module in proofs:
        print("crates/%s imports %s, but a reader has the specs alone" % (path, module))
    if right != page and "--write" in sys.argv[1:]:
        with open(PAGE, "w", encoding="utf-8") as file:
            file.write(right)
    elif right != page:
        for old, new in zip(page.splitlines(), right.splitlines()):
            if old != new:
                print("is:     %s\nshould: %s" % (old, new))
        print("tests/reading_list.py --write puts it right")
        return 1
    return 1 if lacking or proofs else 0


if __name__ == "__main__":
    sys.exit(main())
