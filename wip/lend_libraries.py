#!/usr/bin/env python3
"""lend_libraries.py CLONE: gives a clone the libraries that `rt ci` kept on this machine of exactly the same text (also of a run that
goes on, as each crate is done), with the stamp by which `rt check` takes them, so that it doesn't build them once more. It is for work
in hand: only `rt ci` is the verdict. It goes by rt's own functions, as of rattle-kit-13f.
"""
import contextlib
import importlib.machinery
import importlib.util
import os
import shutil
import sys

RT = os.path.realpath(shutil.which("rt") or sys.exit("no rt on PATH"))


def rt_of(path):
    """rt as a module, which ends with its own main only where it is the program."""
    sys.path.insert(0, os.path.dirname(path))
    loader = importlib.machinery.SourceFileLoader("rt", path)
    module = importlib.util.module_from_spec(importlib.util.spec_from_loader("rt", loader))
    loader.exec_module(module)
    return module


def main():
    if len(sys.argv) != 2:
        sys.exit("usage: lend_libraries.py CLONE")
    rt = rt_of(RT)
    root = os.path.abspath(sys.argv[1])
    os.chdir(root)
    with contextlib.suppress(Exception):
        rt.load()
    rt.Crate.allowed = rt.handles_of(root)
    crates = rt.crates_of(root)
    kept = rt.Kept(crates)
    for crate in crates:
        if crate.is_program or any(below.name not in kept.rlibs for below in crate.below()):
            continue
        if not crate.is_built():
            key = kept.key(crate)
            if not os.path.isdir(kept.place(crate, False, key)):
                continue
            shutil.rmtree(os.path.join(crate.folder, "out", "rlib"), ignore_errors=True)
            if not kept.give(crate, False, key):
                continue
            with open(os.path.join(crate.folder, "out", "rlib", "stamp"), "w", encoding="utf-8") as file:
                file.write(crate.stamp())
            print("lent:", crate.name)
        kept.is_built(crate)


if __name__ == "__main__":
    main()
