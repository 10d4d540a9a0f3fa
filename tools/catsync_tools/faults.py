"""Faults of the input or the command line: one line on standard error, and an exit status other than 0."""
import contextlib
import errno
import os
import sys
import tempfile

BAD = 2
INTERRUPTED = 130


class Fault(Exception):
    """Something that the user gave is wrong; its text says what, and where. The tool's exit status is of its kind."""
    status = BAD


class FaultElsewhere(Fault):
    """A fault of a file that its text names, whatever file is at hand."""


@contextlib.contextmanager
def faults_of(path):
    """What is faulty within it is of this file."""
    try:
        yield
    except FaultElsewhere:
        raise
    except Fault as fault:
        raise Fault("%s: %s" % (path, fault))


def say(line):
    """Writes a line to standard error, where that is open and its terminal is still there."""
    try:
        if sys.stderr is not None:
            print(line, file=sys.stderr)
    except OSError:
        pass


def read_input():
    """All of standard input, as bytes."""
    if sys.stdin is None:
        raise Fault("reading failed: standard input is closed")
    if os.environ.get("CATSYNC_INPUT") == "directory":      # the launcher's word
        raise Fault("reading failed: %s" % os.strerror(errno.EISDIR))
    try:
        return sys.stdin.buffer.read()
    except OSError as error:
        raise Fault("reading failed: %s" % error.strerror)


def write_output(text):
    """Writes a whole text to standard output."""
    if sys.stdout is None:
        raise Fault("writing failed: standard output is closed")
    try:
        sys.stdout.buffer.write(text.encode("utf-8", "surrogateescape"))
        sys.stdout.buffer.flush()
    except OSError as error:
        discard_output()
        raise Fault("writing failed: %s" % error.strerror)


def discard_output():
    """Makes sure that Python writes nothing more to standard output as it ends."""
    os.dup2(os.open(os.devnull, os.O_WRONLY), sys.stdout.fileno())


def read_file(path):
    """All of a file, as bytes."""
    try:
        with open(path, "rb") as file:
            return file.read()
    except OSError as error:
        raise Fault("%s: reading failed: %s" % (path or "''", error.strerror))


def make_folder(path):
    """Makes a folder where there is none."""
    try:
        os.makedirs(path, exist_ok=True)
    except OSError as error:
        raise Fault("%s: the folder can't be made: %s" % (path, error.strerror))


def names_in(path):
    """The names in a folder, sorted."""
    try:
        return sorted(os.listdir(path))
    except OSError as error:
        raise Fault("%s: %s" % (path, error.strerror))


def remove_file(path):
    """Removes a file."""
    try:
        os.remove(path)
    except OSError as error:
        raise Fault("%s: removing failed: %s" % (path, error.strerror))


def is_written_to(path):
    """Whether what is at a path isn't a file that another can take the place of: a pipe, a terminal, /dev/null."""
    return os.path.exists(path) and not os.path.isfile(path)


def check_file(path):
    """A Fault where a file can't be written."""
    try:
        if os.path.isdir(path):
            raise IsADirectoryError(errno.EISDIR, os.strerror(errno.EISDIR))
        if not is_written_to(path):
            tempfile.TemporaryFile(dir=os.path.dirname(os.path.realpath(path))).close()
        elif not os.access(path, os.W_OK):
            raise PermissionError(errno.EACCES, os.strerror(errno.EACCES))
    except OSError as error:
        raise Fault("%s: writing failed: %s" % (path, error.strerror))


def write_file(path, text):
    """Writes a file whole or not at all: beside it first, then in its place, or in that of the file that a link names. What
    isn't a file is written to."""
    content = text.encode("utf-8", "surrogateescape")
    place = path if is_written_to(path) else os.path.realpath(path)
    beside = place if is_written_to(path) else "%s.%d.part" % (place, os.getpid())
    try:
        with open(beside, "wb") as file:
            file.write(content)
        if beside != place:
            os.replace(beside, place)
    except OSError as error:
        if beside != place and os.path.exists(beside):
            os.remove(beside)
        raise Fault("%s: writing failed: %s" % (path, error.strerror))
