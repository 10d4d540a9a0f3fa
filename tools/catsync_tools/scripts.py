"""Scripts with other schedules than their own."""
import re
from typing import Dict, List, NamedTuple, Tuple

Turns = List[Tuple[int, int]]       # backends, each with how many steps it makes before the next one's turn


_BACKEND = re.compile(r"[ \t]*[0-9]{1,9}[ \t]*")


class Script(NamedTuple):
    """A script without its lines of steps and its line `end`."""
    lines: List[bytes]

    def without_steps(self):
        """The script without a schedule: each backend to its stop, in order."""
        return b"\n".join(self.lines + [b"end", b""])

    def with_steps(self, line):
        """The script with this line of steps."""
        return b"\n".join(self.lines + [line.encode("ascii"), b"end", b""])

    def commands(self):
        """The texts of its commands, by backend and number."""
        found: Dict[Tuple[int, int], str] = {}
        counts: Dict[int, int] = {}
        for line in self.lines:
            backend, colon, text = line.decode("ascii", "replace").partition(":")
            if colon and _BACKEND.fullmatch(backend):
                counts[int(backend)] = counts.get(int(backend), 0) + 1
                found[int(backend), counts[int(backend)]] = text.strip()
        return found


def turns_of(backends):
    """The turns of the backends of a history, in order."""
    turns: Turns = []
    for backend in backends:
        if turns and turns[-1][0] == backend:
            turns[-1] = (backend, turns[-1][1] + 1)
        else:
            turns.append((backend, 1))
    return turns


def steps_line(turns):
    """The `steps` line of turns."""
    return "steps " + " ".join("%d" % backend if count == 1 else "%d*%d" % (backend, count) for backend, count in turns)
