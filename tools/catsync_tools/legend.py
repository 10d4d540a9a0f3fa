"""The legend at the head of a picture: what is drawn in it, and nothing else."""
from . import caches, transactions
from .bars import BAND_FILLS, CAPS, KEPT_FILLS, VISIBLE_FILL, build_end, serve_mark
from .events import MODES
from .layout import Layout
from .marks import GREEN, MARKS, MODE_COLOURS, mark_of_step
from .sentences import MODE_NAMES
from .story import Story
from .svg import element, group, text_at

CHAR = 6.4              # the width of a character of the legend
ROW = 20
LEFT = 12
SAMPLE = 22             # the width of a sample, with the space after it


class Item:
    """A sample around the point 0 0, of a width beside that of a mark, and what it means."""

    def __init__(self, sample, text, more=0):
        self.sample, self.text, self.more = sample, text, more

    @property
    def width(self):
        """The width with the space to the next item."""
        return SAMPLE + self.more + len(self.text) * CHAR + 12


def box(fill, stroke, **attributes):
    """A sample of a bar."""
    return element("rect", x=-7, y=-6, width=14, height=12, fill=fill, stroke=stroke, **attributes)


def mark_items(layout: Layout):
    """The marks of the entries that are drawn."""
    used = {mark_of_step(row.content) for row in layout.rows if row.kind == "entry"}
    return [Item(element("use", href="#" + name), text) for name, (text, _) in MARKS.items() if name in used]


def transaction_items(bars):
    """The bars of these transactions."""
    outcomes = {transaction.outcome for transaction in bars}
    items = []
    for outcome, (fill, stroke) in BAND_FILLS.items():
        if outcome in outcomes:
            class_ = "open" if outcome == transactions.RUNNING else "closed"
            items.append(Item(box(fill, stroke, rx=3, class_=class_), "transaction: " + outcome))
    if any(transaction.visible for transaction in bars):
        items.append(Item(box(*VISIBLE_FILL), "visible, locks still held"))
    return items


def lock_items(locks):
    """The bars of these locks."""
    modes = [mode for mode in MODES if any(lock.mode == mode for lock in locks)]
    items = [Item(box(MODE_COLOURS[mode], GREEN), "lock %s: %s" % (mode, MODE_NAMES[mode])) for mode in modes]
    if any(lock.clear != lock.first for lock in locks):
        items.append(Item(box("url(#not-clear)", GREEN), "lock that isn't clear yet"))
    return items


def kept_box(kind, more=""):
    """A sample of a bar of what is kept."""
    return element("rect", x=-5.5, y=-8, width=11, height=15, fill=KEPT_FILLS[kind], class_="kept-" + kind) + more


def kept_items(layout: Layout, all_kept):
    """The bars of what is kept, and their ends."""
    def drawn(number):
        """Whether an entry is drawn."""
        return number is not None and layout.span.holds(number)
    descriptors = [kept for kept in all_kept if kept.is_descriptor]
    found = [
        (descriptors, kept_box("build"), "a descriptor is built"),
        ([kept for kept in all_kept if kept.built], kept_box("current"),
         "a descriptor is kept" if len(descriptors) == len(all_kept) else "kept: a descriptor, a name, an oid, a column or a list"),
        ([kept for kept in all_kept if kept.outdated], kept_box("outdated"), "out of date, and not told yet"),
        ([kept for kept in all_kept if any(drawn(served.entry) for served in kept.serves)],
         kept_box("current", serve_mark(0, 0)), "serves a command without a scan"),
        ([kept for kept in all_kept if drawn(kept.last) and kept.cause in CAPS and kept.built],
         kept_box("current", element("use", href="#fetch", transform="translate(0 6) scale(0.62)")), "stale, by this entry"),
    ]
    found += [([kept for kept in descriptors if kept.outcome == outcome and drawn(kept.last)],
               kept_box("build", build_end(outcome, -5.5, 11, 7)), "build: " + outcome)
              for outcome in (caches.STARTED_OVER, caches.CUT_OFF)]
    return [Item(sample, text) for some, sample, text in found if some]


def arrow_items(messages, refusals, waiting):
    """The arrows that are drawn, and the numbers beside them."""
    items = []
    if messages:
        line = element("path", d="M-9 0H12", class_="message", marker_end="url(#takes)")
        items.append(Item(line, "messages, from publish to fetch", 8))
    if waiting:
        items.append(Item(text_at(0, 3, "7", "waits", text_anchor="middle"), "messages that wait for the backend"))
    if refusals:
        line = element("path", d="M-9 0H12", class_="refusal", marker_end="url(#holder)")
        items.append(Item(line, "refused; the holder", 8))
    return items


def items_of(story: Story, layout: Layout, messages, refusals):
    """The groups of a legend for what is drawn."""
    span = layout.span

    def drawn(bars):
        """Those of some bars that are drawn."""
        return [bar for bar in bars if span.meets(bar)]
    waiting = [waiting for waiting in story.log.waiting if span.holds(waiting.entry) and waiting.count]
    return (mark_items(layout), transaction_items(drawn(story.transactions)), lock_items(drawn(story.locks)),
            kept_items(layout, drawn(story.kept)), arrow_items(messages, refusals, waiting))


def legend(groups, y, width):
    """The items, a new row for each group and where a row is full; and how wide and high that is."""
    drawn, right = [], 0
    for items in groups:
        x = LEFT
        for item in items:
            if x > LEFT and x + item.width > width:
                x, y = LEFT, y + ROW
            sample = group(item.sample, transform="translate(%.1f %.1f)" % (x + 10, y + ROW / 2))
            drawn.append(sample + text_at(x + SAMPLE + item.more, y + ROW / 2 + 4, item.text, "small"))
            x += item.width
            right = max(right, x)
        y += ROW if items else 0
    return group("".join(drawn), class_="legend"), right, y
