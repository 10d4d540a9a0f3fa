#!/usr/bin/env python3
"""Runs random scripts through the program and through a second reading of the rules, as CATSYNC_ORACLE/checks/agree does, whose
arguments these are; half of them that reading's, half our own (random_scripts.py). With --faults they are changed, so that most are
no scripts any more."""
import importlib.machinery
import importlib.util
import os
import sys

sys.dont_write_bytecode = sys.pycache_prefix is None

from random_scripts import script_of


def load(path):
    """The program at this path, as a module."""
    loader = importlib.machinery.SourceFileLoader("agree", path)
    module = importlib.util.module_from_spec(importlib.util.spec_from_loader("agree", loader))
    loader.exec_module(module)
    return module


def main():
    agree = load(os.path.join(os.environ["CATSYNC_ORACLE"], "checks", "agree"))
    theirs = agree.good_script
    agree.good_script = lambda seed, stage, *more: script_of(seed).encode() if seed // 4 % 2 else theirs(seed, stage, *more)
    return agree.main()


if __name__ == "__main__":
    sys.exit(main())
