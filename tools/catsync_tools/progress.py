"""How far a search is, on standard error: a bar where that is a terminal, and else a line now and then."""
import sys
import time

from .faults import say

WIDTH = 30
PAUSE = 0.1             # seconds between two drawings
LINE_PAUSE = 60         # seconds between two lines


class Progress:
    """The bar, or the lines, which begin with the tool's name. `of` is said of what is shown, as a script's name."""

    def __init__(self, tool=""):
        self.tool, self.of = tool, ""
        self.is_shown = sys.stderr is not None and sys.stderr.isatty()
        self.begun = time.monotonic()
        self.drawn_at = 0.0 if self.is_shown else self.begun

    def begin(self):
        """What is shown from here on begins."""
        self.begun = time.monotonic()

    def show(self, done, most, text, then=""):
        """Draws the bar anew, or says a line, but not too often; at its end what comes then."""
        now = time.monotonic()
        if now - self.drawn_at < (PAUSE if self.is_shown else LINE_PAUSE):
            return
        self.drawn_at = now
        text = self.of + text + self.left(now, done, most) + then
        if not self.is_shown:
            say("%s: %s" % (self.tool, text))
            return
        full = min(WIDTH, WIDTH * done // most)
        sys.stderr.write("\r\033[K[%s%s] %s" % ("#" * full, "." * (WIDTH - full), text))
        sys.stderr.flush()

    def left(self, now, done, most):
        """How long the rest takes, were it as quick as what is done."""
        if now - self.begun < 1 or not 0 < done <= most:
            return ""
        return ", %s left" % duration((now - self.begun) * (most - done) / done)

    def clear(self):
        """Takes the bar away."""
        if self.is_shown:
            sys.stderr.write("\r\033[K")
            sys.stderr.flush()


def duration(seconds):
    """A time in words: `50 s`, `3 min`, `2.5 h`."""
    if seconds < 100:
        return "%d s" % round(seconds)
    return "%d min" % round(seconds / 60) if seconds < 6000 else "%.1f h" % (seconds / 3600)
