"""Arrows for what travels and what refuses: messages to the fetch that takes them, refusals to the holder."""
from .bars import lock_left
from .layout import BAND, Layout
from .sentences import counted
from .story import Lock, Transaction
from .svg import element, group, path, text_at

REACH = 8               # from the middle of a mark to an arrow's end
CORNER = 5


def message_arrow(layout: Layout, message):
    """From a publish along its row to the lane of who takes its messages, down that lane to the fetch."""
    lane = layout.lanes[message.backend]
    title = "%s of entry %d, taken at entry %d" % (counted(message.count, "message"), message.publish, message.fetch)
    drawn = message_start(layout, message, lane.gutter)
    if not layout.span.holds(message.fetch):
        return element("path", title, d=path(drawn, "V", layout.bottom), class_="message")
    drawn = path(drawn, "V", layout.middle(message.fetch), "H", lane.mark - REACH)
    return element("path", title, d=drawn, class_="message", marker_end="url(#takes)")


def message_start(layout: Layout, message, x):
    """The part of a message's arrow up to the line at which messages wait."""
    if not layout.span.holds(message.publish):
        return path("M", x, layout.top)
    y, sender = layout.middle(message.publish), layout.lanes[message.sender].mark
    side = -1 if x < sender else 1
    return path("M", sender + side * REACH, y, "H", x - side * CORNER, "Q", x, y, x, y + CORNER)


def waiting_number(layout: Layout, waiting):
    """How many messages wait for a backend, in its lane."""
    title = "%s for backend %d after entry %d" % (
        counted(waiting.count, "message") + (" waits" if waiting.count == 1 else " wait"), waiting.backend, waiting.entry)
    x, y = layout.lanes[waiting.backend].gutter - 3, layout.middle(waiting.entry) + 3
    return group(text_at(x, y, str(waiting.count), "waits", text_anchor="end"), title)


def refusal_arrow(layout: Layout, refusal):
    """From what was refused to its holder: a lock, a running transaction, or the write that gave the name."""
    title = "entry %d is refused: backend %d holds this since entry %d" % (refusal.entry, refusal.holder, refusal.since)
    drawn = name_path(layout, refusal) if refusal.bar is None else bar_path(layout, refusal)
    return element("path", title, d=drawn, class_="refusal", marker_end="url(#holder)")


def bar_path(layout: Layout, refusal):
    """Along the row to the holder's bar."""
    mark, holder = layout.lanes[refusal.backend].mark, layout.lanes[refusal.holder]
    side = 1 if refusal.holder > refusal.backend else -1
    if isinstance(refusal.bar, Transaction):
        x = holder.mark - side * BAND / 2
    else:
        assert isinstance(refusal.bar, Lock)
        left = lock_left(layout, refusal.bar)
        x = left if side < 0 else left + holder.lock_width - 2
    return path("M", mark + side * REACH, layout.middle(refusal.entry), "H", x)


def name_path(layout: Layout, refusal):
    """Along the row to the lane of who gave the name, and up that lane to the write that gave it."""
    mark, to = layout.lanes[refusal.backend].mark, layout.lanes[refusal.holder].mark
    y, up, x = layout.middle(refusal.entry), layout.middle(refusal.since), to + BAND / 2 + 2
    side = -1 if x < mark else 1
    corner = min(CORNER, abs(x - mark - side * REACH))
    drawn = path("M", mark + side * REACH, y, "H", x - side * corner, "Q", x, y, x, y - corner, "V", up)
    return path(drawn, "H", to + REACH) if layout.span.holds(refusal.since) else drawn
