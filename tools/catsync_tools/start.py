"""How a tool starts and ends: SIGINT (Ctrl-C), SIGTERM, by which batch systems end what has taken too long, and SIGHUP, which
comes as a terminal closes, end it with one line and a status of its own. They wait while Python reads the tool and while it
ends; the launcher has made them wait since before Python's own start, where its env can."""
import signal

from .interrupts import SIGNALS

signal.pthread_sigmask(signal.SIG_BLOCK, SIGNALS)

import importlib
import sys

from .faults import BAD, INTERRUPTED, Fault, say


def run(name):
    """Runs a tool; its exit status. A fault is said in one line that begins with the tool's name."""
    if sys.version_info < (3, 8):
        say("%s: Python 3.8 or later is needed, and this is %d.%d" % ((name,) + sys.version_info[:2]))
        return BAD
    main = importlib.import_module("catsync_tools." + name).main
    try:
        take_signals()
        return main(sys.argv[1:])
    except Fault as fault:
        say("%s: %s" % (name, fault))
        return fault.status
    except KeyboardInterrupt:
        say("%s: interrupted" % name)
        return INTERRUPTED
    finally:
        signal.pthread_sigmask(signal.SIG_BLOCK, SIGNALS)


def take_signals():
    """From here on a signal interrupts the tool, but for one that is ignored, as SIGHUP is under nohup."""
    for number in SIGNALS:
        if signal.getsignal(number) != signal.SIG_IGN:
            signal.signal(number, interrupt)
    signal.pthread_sigmask(signal.SIG_UNBLOCK, SIGNALS)


def interrupt(*_):
    """Called at a signal. Only the first interrupts, so that what is put in order after it comes to its end."""
    for number in SIGNALS:
        if signal.getsignal(number) == interrupt:
            signal.signal(number, pass_over)
    raise KeyboardInterrupt


def pass_over(*_):
    """Called at a signal after the first."""
