"""What the tests of the tools have in common.

The program that they run is the one that the tools find by themselves; without one the tests that need it are skipped.
"""
import os
import re
import signal
import subprocess
import sys

sys.dont_write_bytecode = sys.pycache_prefix is None
TOOLS = os.path.dirname(os.path.abspath(__file__))
TOP = os.path.dirname(TOOLS)

from catsync_tools.interrupts import SIGNALS
from catsync_tools.program import PROVED, found_program

_FOUND = found_program()
PROGRAM, HAS_PROGRAM = _FOUND or PROVED, _FOUND is not None
NO_PROGRAM = "no executable that is up to date"
CAN_WAIT = subprocess.run(["env", "--block-signal=INT", "true"], stderr=subprocess.DEVNULL).returncode == 0     # at Python's start


def hear_signals():
    """Called in a tool's process before its start: what runs in a shell's background has Ctrl-C ignored, what runs under nohup
    SIGHUP, and so would the tool."""
    for number in SIGNALS:
        signal.signal(number, signal.SIG_DFL)


def content_of(path):
    """The bytes of a file."""
    with open(path, "rb") as file:
        return file.read()


def call(tool, *words, given=b""):
    """Exit status, standard output and standard error of a tool."""
    done = subprocess.run([sys.executable, os.path.join(TOOLS, tool)] + list(words), input=given, stdout=subprocess.PIPE,
                          stderr=subprocess.PIPE)
    return done.returncode, done.stdout, done.stderr.decode()


def without_progress(tool, told):
    """What a tool says on standard error, without the lines by which it says how far it is, as it does once a minute."""
    return re.sub(r"^%s: (?:.* \([0-9]+ of [0-9]+\): )?[0-9]+ (?:of at most|serial orders?|permutations?|random schedules?)\b.*\n" % tool, "",
                  told, flags=re.MULTILINE)
