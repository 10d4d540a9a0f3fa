"""Signals that end a tool, while results are gathered: they are taken between two runs of the program, where nothing is half
done."""
import contextlib
import signal

SIGNALS = (signal.SIGINT, signal.SIGTERM, signal.SIGHUP)


@contextlib.contextmanager
def waiting():
    """Within it signals wait; yields the mask of those that did before."""
    held = signal.pthread_sigmask(signal.SIG_BLOCK, SIGNALS)
    try:
        yield held
    finally:
        signal.pthread_sigmask(signal.SIG_SETMASK, held)


class Interrupts:
    """Whether there was a signal."""

    def __init__(self):
        self.is_asked, self.is_over = False, False

    def hold(self):
        """From here on signals are noted, and taken at the next check."""
        for number in SIGNALS:
            if signal.getsignal(number) != signal.SIG_IGN:
                signal.signal(number, self.note)

    def note(self, *_):
        """A signal."""
        self.is_asked = True

    def check(self):
        """Takes a signal, if there was one."""
        if self.is_asked and not self.is_over:
            raise KeyboardInterrupt

    def end(self):
        """From here on signals don't count any more: what was found is written."""
        self.is_over = True
