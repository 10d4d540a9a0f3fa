"""Each turn's entries here beside what the backend has made in the server."""
from typing import List

from .kinds import KINDS
from .play import Play

MOST = 58               # characters of an entry that others stand beside


def turns_text(play: Play, is_all) -> List[str]:
    """The lines of all turns."""
    own = set(play.oids.values())
    lines: List[str] = []
    for turn in play.turns:
        left = [entry for entry in turn.entries if is_all or entry[1] != "look no"] or turn.entries[-1:]
        right = [made for made in turn.made if is_all or is_shown(made.event, own)]
        lines.append("backend %d" % turn.turn.backend)
        lines += columns(["%d %s" % entry for entry in left], [event_text(play, made) for made in right])
    return lines


def is_shown(event, own):
    """Whether an event is shown where not all are: it is no look without a message, and of a relation of the script."""
    if event == ("look", "no") or event[0] == "error":
        return False
    if event[0] == "inside":
        return event[1] in own
    if event[0] in KINDS and KINDS[event[0]].is_of_relation:
        return all(part in own for part in event[1:] if isinstance(part, int))
    return event[0] != "write" or event[1][1:] not in ("class", "att") or all(part in own for part in event[2:3] if isinstance(part, int))


def event_text(play: Play, made):
    """An event in words; what isn't one stands further to the right."""
    if made.event[0] in ("held", "alone"):
        return "  %s: %s" % ("asked alone", made.event[1]) if made.event[0] == "alone" else "  held " + made.event[1]
    if made.event[0] == "not held":
        return "  not held %s '%s': %s" % (made.event[2], play.shown(made.event[3:]), made.event[1])
    if made.event[0] == "lapped":
        return "  the queue is overrun"
    if made.event[0] == "inside":
        return "  inside of that %s is rebuilt once more" % play.shown(made.event[1:])
    return "%d %s" % (made.command, play.shown(made.event))


def columns(left, right) -> List[str]:
    """Two columns. What is too long for the first has a line of its own."""
    width = min(MOST, max([len(each) for each in left] + [24]))
    lines = []
    for at in range(max(len(left), len(right))):
        first, second = left[at] if at < len(left) else "", right[at] if at < len(right) else ""
        if len(first) > width:
            lines.append("    %s" % first)
            first = ""
        lines.append(("    %-*s | %s" % (width, first, second)).rstrip())
    return lines
