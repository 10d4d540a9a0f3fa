"""Bars for what lasts: transactions, locks, and what is kept of scans."""
from . import caches, transactions
from .caches import Kept
from .layout import BAND, ROW, Layout
from .marks import DARK_MODES, GREEN, GREY, INK, KEPT_BROWN, MODE_COLOURS, PURPLE, RED
from .sentences import MODE_NAMES
from .svg import element, group, number, path, text_at
from .why import Why, plain

LABEL_CHAR = 5.5        # the width of a character of a bar's label
LABEL_EVERY = 480       # long bars have their label again after so much
LONG = 120              # a hatched part that is longer has its own label, though another part has one
CAP = 0.62              # the size of the mark at the end of what is kept, of one in the lane
RING = 5                # half the height of a ring at a bar
THIN = 5                # a bar that is narrower has a thin edge

BAND_FILLS = {
    transactions.COMMITTED: ("#d6e7f4", "#7ba9cc"), transactions.TAKEN_BACK: ("url(#taken-back)", PURPLE),
    transactions.WROTE_NOTHING: ("#eeeeee", "#c4c4c4"), transactions.RUNNING: ("#ffffff", GREY),
}
VISIBLE_FILL = ("#8fc0e2", "#4b87b5")
KEPT_FILLS = {"build": "url(#scanning)", "current": "#fbdd9d", "outdated": "url(#outdated)"}

# By what it ends that something is kept, and the mark that its bar has there.
CAPS = {caches.FETCHED: "fetch", caches.RESET: "fetch-reset", caches.OWN_WRITE: "write", caches.TAKEN_BACK: "gone",
        caches.FAILED: "fail"}


def extent(layout: Layout, bar):
    """The top and the bottom of a bar: from its first entry to its last, or to the picture's edge."""
    top = layout.top if bar.first < layout.span.first else layout.middles[bar.first] - ROW / 2 + 2
    if bar.last is None or bar.last > layout.span.last:
        return top, layout.bottom
    return top, layout.middles[bar.last] + ROW / 2 - 2


def how_long(bar):
    """From which entry to which something lasts."""
    return "entries %d to %s" % (bar.first, "the end" if bar.last is None else bar.last)


def ending(bar):
    """The class of a bar, by whether the history has its end."""
    return "open" if bar.last is None else "closed"


def known(rel, name):
    """A relation by its oid and, where it is known, its name."""
    return "relation %d (%s)" % (rel, name) if name else "relation %d" % rel


def transaction_bar(layout: Layout, transaction):
    """The bar of a transaction, behind the marks of its entries; darker from `visible` on."""
    lane = layout.lanes[transaction.backend]
    top, bottom = extent(layout, transaction)
    xid = "transaction %d" % transaction.xid if transaction.xid else "a transaction"
    title = "%s of backend %d, %s: %s" % (xid, transaction.backend, how_long(transaction), transaction.outcome)
    shape = {"x": lane.mark - BAND / 2, "width": BAND, "class_": "transaction " + ending(transaction)}
    fill, stroke = BAND_FILLS[transaction.outcome]
    bar = element("rect", title, y=top, height=bottom - top, rx=3, fill=fill, stroke=stroke, **shape)
    if transaction.visible is None or transaction.visible > layout.span.last:
        return bar
    visible = layout.middle(transaction.visible)
    title += "; visible from entry %d on" % transaction.visible
    fill, stroke = VISIBLE_FILL
    shape["class_"] = "part"
    return bar + element("rect", title, y=visible, height=bottom - visible, fill=fill, stroke=stroke, **shape)


# Labels.

def taken_heights(layout: Layout, middles):
    """What a label must keep clear of: the headers, and marks at these heights."""
    return sorted([(row.y, row.y + row.height) for row in layout.headers] +
                  [(middle - RING, middle + RING) for middle in middles])


def label(x, top, bottom, texts, colour, taken, is_hatched=False):
    """The longest of some texts that fits along a bar, downwards; again and again along a long one, but never over what is
    taken."""
    class_ = "label halo" if is_hatched else "label"
    for text in texts:
        length, written, y = len(text) * LABEL_CHAR, [], top + 4
        while y + length <= bottom - 2:
            met = next((end for begin, end in taken if begin < y + length and y < end), None)
            if met is not None:
                y = met + 4
                continue
            turn = "rotate(90 %s %s)" % (number(x), number(y))
            written.append(text_at(x, y, text, class_, style="fill:" + colour, transform=turn))
            y += LABEL_EVERY
        if written:
            return "".join(written)
    return ""


def labels(parts, label_of):
    """The labels of a bar's parts, of each its top, its bottom and whether it is hatched. A hatched part has one where it is
    long, or where no other part has room."""
    plain = [label_of(*part) for part in parts if not part[2]]
    return plain + [label_of(*part) for part in parts if part[2] and (part[1] - part[0] > LONG or not any(plain))]


# Locks.

def clear_from(layout: Layout, lock, top, bottom):
    """The height from which on a lock's bar is clear."""
    if lock.clear == lock.first:
        return top
    return bottom if lock.clear is None else min(max(top, layout.middle(lock.clear)), bottom)


def lock_bar(layout: Layout, lock, rings=()):
    """The bar of a lock: hatched until it is clear, then in its mode's colour. At some entries there are rings on it."""
    lane = layout.lanes[lock.backend]
    top, bottom = extent(layout, lock)
    clear = clear_from(layout, lock, top, bottom)
    since = "not clear" if lock.clear is None else "clear from entry %d on" % lock.clear
    title = "%s on %s, held by backend %d, %s; %s" % (
        MODE_NAMES[lock.mode], known(lock.rel, lock.name), lock.backend, how_long(lock), since)
    shape = {"x": lock_left(layout, lock), "width": lane.lock_width - min(2, lane.lock_width / 3), "stroke": GREEN}
    if shape["width"] < THIN:
        shape["stroke_width"] = 0.6
    bar = element("rect", title, y=top, height=bottom - top, fill=MODE_COLOURS[lock.mode],
                  class_="lock " + ending(lock), **shape)
    if clear > top:
        bar += element("rect", title, y=top, height=clear - top, fill="url(#not-clear)", class_="part", **shape)
    taken = taken_heights(layout, [layout.middle(number) for number in rings])
    parts = [(top, clear, True), (clear, bottom, False)]
    return bar + "".join(labels(parts, lambda *part: lock_label(layout, lock, taken, *part)))


def lock_left(layout: Layout, lock):
    """Where a lock's bar begins."""
    lane = layout.lanes[lock.backend]
    return lane.locks + layout.columns[lock] * lane.lock_width


def lock_label(layout: Layout, lock, taken, top, bottom, is_hatched):
    """Mode, relation and name along a part of a lock's bar, as far as there is room."""
    width = layout.lanes[lock.backend].lock_width - 2
    if width < 10:
        return ""
    texts = ("%s %d %s" % (lock.mode, lock.rel, lock.name), "%s %s" % (lock.mode, lock.name or lock.rel), lock.mode)
    colour = "#ffffff" if lock.mode in DARK_MODES and not is_hatched else INK
    return label(lock_left(layout, lock) + width / 2 - 3, top, bottom, texts, colour, taken, is_hatched)


# What is kept.

def kept_title(why: Why, kept: Kept):
    """What is kept, by whom, from when to when, and by what it ends."""
    parts = ["%s, kept by backend %d: read at %s" % (
        why.named(kept), kept.backend, "entry %d" % kept.first if kept.first == kept.built
        else "entries %d to %s" % (kept.first, kept.built or kept.last or "the end"))]
    if kept.built is None:
        parts.append("the build is %s" % kept.outcome)
    if kept.outdated:
        parts.append("out of date from entry %d on" % kept.outdated)
    if kept.last:
        parts.append("its end at entry %d: %s" % (kept.last, kept.cause))
    return "; ".join(parts)


def kept_parts(layout: Layout, kept: Kept, top, bottom):
    """The parts of a bar: its build, where it is as the catalogs are, and where it is out of date."""
    def height(entry):
        """The height of an entry on the bar."""
        return bottom if entry is None else min(max(top, layout.middle(entry)), bottom)
    built = height(kept.built) if kept.is_descriptor else top
    outdated = height(kept.outdated)
    parts = [("build", top, min(built, outdated)), ("current", built, outdated), ("outdated", outdated, bottom)]
    return [(kind, first, last) for kind, first, last in parts if first < last]


def kept_bar(layout: Layout, kept: Kept, why: Why):
    """The bar of what is kept: dotted while it is built, then filled, hatched once it is out of date; with a mark where it
    serves a command without a scan, and at its end the mark of the entry that makes it stale."""
    lane = layout.lanes[kept.backend]
    width, x = lane.kept_width - min(3, lane.kept_width / 3), lane.kept + layout.columns[kept] * lane.kept_width
    top, bottom = extent(layout, kept)
    parts = kept_parts(layout, kept, top, bottom)
    thin = {"stroke_width": 0.6} if width < THIN else {}
    drawn = [element("rect", x=x, y=first, width=width, height=last - first, fill=KEPT_FILLS[kind],
                     class_="kept-" + kind + (" open" if kept.last is None and kind != "build" else ""), **thin)
             for kind, first, last in parts]
    served = [layout.middle(served.entry) for served in kept.serves if layout.span.holds(served.entry)]
    drawn += [serve_mark(x + width / 2, middle) for middle in served]
    if width >= 9:
        taken = taken_heights(layout, served)
        drawn += labels([(first, min(last, bottom - 6), kind == "outdated") for kind, first, last in parts if kind != "build"],
                        lambda *part: kept_label(kept, x + width / 2 - 3, taken, *part))
    if kept.last is not None and kept.last <= layout.span.last:
        drawn.append(kept_end(kept, x, width, bottom))
    return group("".join(drawn), plain(kept_title(why, kept)), class_="kept build" if kept.is_descriptor else "kept")


def kept_label(kept: Kept, x, taken, top, bottom, is_hatched):
    """What is kept along a part of its bar, as far as there is room."""
    if kept.is_descriptor:
        texts = ["descriptor %d %s" % (kept.rel, kept.name), "descriptor %s" % (kept.name or kept.rel),
                 kept.name or str(kept.rel)]
    else:
        word = {"relname": "name", "reloid": "oid", "attname": "column", "attlist": "columns of"}[kept.datum[0]]
        of_what = kept.name if word == "columns of" and kept.name else kept.datum[-1]
        texts = [("no " if kept.is_absent else "") + "%s %s" % (word, of_what)]
    return label(x, top, bottom, [text.strip() for text in texts], KEPT_BROWN, taken, is_hatched)


def serve_mark(x, y):
    """The mark where something serves a command without a scan."""
    return element("circle", cx=x, cy=y, r=3.6, class_="serves")


def kept_end(kept: Kept, x, width, y):
    """The end of a bar: the mark of the entry that makes it stale; of a build that isn't finished a zigzag or a cross."""
    if kept.built is None:
        return build_end(kept.outcome, x, width, y)
    if kept.cause in CAPS:
        return element("use", href="#" + CAPS[kept.cause], transform="translate(%s %s) scale(%s)" % (
            number(x + width / 2), number(y - 2), CAP), class_="cap")
    return element("path", d=path("M", x, y, "h", width), stroke=INK, stroke_width=2, class_="cap")


def build_end(outcome, x, width, y):
    """The end of a build that isn't finished."""
    if outcome == caches.STARTED_OVER:
        shape = path("M", x - 1, y - 1, "l", (width + 2) / 4, -3, "l", (width + 2) / 4, 6, "l", (width + 2) / 4, -6, "l",
                     (width + 2) / 4, 3)
    else:
        shape = path("M", x, y - 4, "l", width, 8, "m 0 -8 l", -width, 8)
    return element("path", d=shape, fill="none", stroke=RED, stroke_width=2, class_="cap")
