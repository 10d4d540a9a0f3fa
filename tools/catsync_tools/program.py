"""Runs `catsync walk` on scripts."""
import glob
import hashlib
import os
import re
import subprocess
import tempfile
from typing import List, NamedTuple, Tuple

from .faults import Fault, FaultElsewhere
from .interrupts import SIGNALS, Interrupts

TOP = os.path.dirname(os.path.dirname(os.path.dirname(os.path.abspath(__file__))))
PROVED = os.path.join(TOP, "crates", "catsync", "out", "catsync")
UNPROVED = os.path.join(TOP, "crates", "catsync", "out", "unproved-")       # and the sum of the sources it was built of

# What the memory checker of the program built without proof says; ./catsync knows it too.
_NO_MEMORY = re.compile("AddressSanitizer.*(failed to allocate|out of memory|out-of-memory|exceeds maximum|rss limit)")

Step = Tuple[int, int, str]         # a step of a history: its backend, its command, and the text of its event


class Run(NamedTuple):
    """What a run printed."""
    output: bytes
    steps: List[Step]
    answers: Tuple[str, ...]


def is_up_to_date(program):
    """Whether a file is there and no source is newer; as ./catsync tests it."""
    if not os.access(program, os.X_OK):
        return False
    made = os.path.getmtime(program)
    sources = [os.path.join(TOP, "crates.txt")]
    for folder in ("src", "specs", "proofs"):
        sources += glob.glob(os.path.join(TOP, "crates", "*", folder, "**"), recursive=True)
    return all(os.path.getmtime(source) <= made for source in sources if os.path.isfile(source))


def sum_of_sources():
    """The sum of the sources of which the program is built without proof; ./catsync makes the same."""
    paths = [os.path.join(TOP, "crates.txt")]
    for folder in glob.glob(os.path.join(TOP, "crates", "*", "src")):
        paths += [os.path.join(inner, name) for inner, _, names in os.walk(folder) for name in names]
    sums = hashlib.sha256()
    for path in sorted((path for path in paths if os.path.isfile(path) and not os.path.islink(path)), key=os.fsencode):
        with open(path, "rb") as file:
            sums.update(b"%s  %s\n" % (hashlib.sha256(file.read()).hexdigest().encode(), os.fsencode(os.path.relpath(path, TOP))))
    return sums.hexdigest()[:16]


def built_program():
    """The proved executable where it is up to date, else the program that ./catsync has built without proof of the sources as they
    are; None where there is neither."""
    if is_up_to_date(PROVED):
        return PROVED
    try:
        unproved = UNPROVED + sum_of_sources()
    except OSError:
        return None
    return unproved if os.access(unproved, os.X_OK) else None


def found_program():
    """The program that CATSYNC_PROGRAM names, else the built one; None where there is neither."""
    return os.environ.get("CATSYNC_PROGRAM") or built_program()


def own_program():
    """The program that is run where the command line names none."""
    program = found_program()
    if program is None:
        raise Fault("no executable that is up to date: './catsync make 1' builds one without proof, in 75 to 130 s of "
                    "processor time, and ./prove a proved one; --program FILE or CATSYNC_PROGRAM names another")
    return program


def step_of(line):
    """The step of an entry's line."""
    _, backend, command, text = line.split(" ", 3)
    return int(backend), int(command), text


class Program:
    """The program, and how often it was run."""

    def __init__(self, path):
        self.path = path if os.path.dirname(path) else os.path.join(os.curdir, path)     # never one on PATH
        self.runs, self.interrupts = 0, Interrupts()
        self.renew()

    def split_off(self):
        """Called in a process that was split off another: it has files of its own, and signals that the other had noted
        aren't its own."""
        self.interrupts = Interrupts()
        self.close()
        self.renew()

    def renew(self):
        """Takes new files for input and standard error."""
        try:
            self.input, self.said = tempfile.TemporaryFile(), tempfile.TemporaryFile()
        except OSError as error:
            raise Fault("no file can be made for the program's input: %s" % error.strerror)

    def give(self, script):
        """Writes the program's input, and empties what it said."""
        try:
            for file, content in ((self.input, script), (self.said, b"")):
                file.seek(0)
                file.truncate()
                file.write(content)
                file.flush()
                file.seek(0)
        except OSError as error:
            raise Fault("the program's input can't be written: %s" % error.strerror)

    def run(self, script):
        """What the program prints for a script; a Fault says why it was refused."""
        output, status = self.result(script)
        while -status in SIGNALS:
            if not self.interrupts.is_over:
                raise KeyboardInterrupt
            output, status = self.result(script)
        if status != 0:
            raise Fault(self.refusal(status))
        try:
            lines = output.decode("ascii").split("\n")
            steps = [step_of(line) for line in lines if line.startswith("h ")]
        except ValueError:
            steps = []
        if not steps:
            raise FaultElsewhere("%s: what it prints isn't an output of catsync" % self.path)
        return Run(output, steps, tuple(line for line in lines if line.startswith("l ")))

    def result(self, script):
        """What the program prints for a script, and its exit status. Where that is interrupted the program may go on for a
        while, and keeps its files."""
        self.runs += 1
        self.interrupts.check()
        try:
            self.give(script)
            return self.wait()
        except KeyboardInterrupt:
            self.renew()
            raise

    def wait(self):
        """Starts the program and waits for its end; its output and its exit status."""
        try:
            # Without closing other files Python can start a process the quick way.
            process = subprocess.Popen(
                [self.path, "walk"], stdin=self.input, stdout=subprocess.PIPE, stderr=self.said, close_fds=False)
        except OSError as error:
            raise FaultElsewhere("%s: %s" % (self.path, error.strerror))
        with process:
            output = process.stdout.read()
        return output, process.returncode

    def close(self):
        """Closes the files that the program is given."""
        self.input.close()
        self.said.close()

    def refusal(self, status):
        """What the program said on standard error, in one line."""
        self.said.seek(0)
        lines = self.said.read().decode("ascii", "replace").splitlines()
        if any(map(_NO_MEMORY.search, lines)):
            return "%s: want of memory, or of addresses (ulimit -v)" % self.path
        return lines[0] if lines else "%s: exit status %d" % (self.path, status)
