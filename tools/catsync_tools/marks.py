"""The marks of entries: a shape and a colour for each kind of event, and the colours of bars.

The colours are those of Okabe and Ito, which people who are colour-blind can tell apart, and no two kinds differ by colour
alone.
"""
from .events import MODES, Event

INK, GREY, ORANGE, SKY, GREEN, BLUE, RED, PURPLE = (
    "#333333", "#8a8a8a", "#e69f00", "#56b4e9", "#009e73", "#0072b2", "#d55e00", "#b0558a")
KEPT_BROWN = "#5c3d00"

# From the weakest mode to the strongest: light to dark.
MODE_COLOURS = dict(zip(MODES, (
    "#d9f0e7", "#bce4d4", "#99d5be", "#70c2a4", "#43ab88", "#1c936e", "#007553", "#00543c")))
DARK_MODES = ("sr", "ex", "ax")

_PADLOCK = '<path d="M-3 -1V-3A3 3 0 0 1 3 -3V-1" fill="none" stroke="%s" stroke-width="1.6"/>'
_OPEN_PADLOCK = '<path d="M-3 -1V-4A3 3 0 0 1 3 -4" fill="none" stroke="%s" stroke-width="1.6"/>'
_BODY = '<rect x="-4.5" y="-1.5" width="9" height="7" rx="1" fill="%s" stroke="%s" stroke-width="1.2"/>'
_DIAMOND = '<path d="M0 -6.5L6.5 0L0 6.5L-6.5 0Z" fill="%s" stroke="%s" stroke-width="1.3"/>'
_DISC = '<circle r="6" fill="%s"/><path d="%s" fill="none" stroke="#ffffff" stroke-width="1.8"/>'

# Each mark: its name in the picture, what the legend says, and its drawing around the point 0 0.
MARKS = {
    "start": ("start", '<path d="M-5.5 -4.5H5.5L0 5.5Z" fill="%s"/>' % INK),
    "look-no": ("look no", '<circle r="3" fill="#ffffff" stroke="%s" stroke-width="1.4"/>' % GREY),
    "look-yes": ("look yes", '<circle r="4.5" fill="#ffffff" stroke="%s" stroke-width="1.6"/><circle r="2" fill="%s"/>'
                 % (BLUE, BLUE)),
    "fetch": ("fetch", '<path d="M-5 -5.5H5V0L0 6L-5 0Z" fill="%s"/>' % BLUE),
    "fetch-reset": ("fetch reset", '<path d="M0 -8L2 -3L7 -5.5L4.5 0L8 3L3 3.5L2 8L-1.5 4L-6 6L-4 1.5L-8 -1L-3.5 -2.5L-5 -7'
                    'L-1 -4Z" fill="%s" stroke="#ffffff" stroke-width="0.6"/>' % RED),
    "lock-ok": ("lock ok", _PADLOCK % GREEN + _BODY % (GREEN, GREEN)),
    "lock-held": ("lock held (refused)", _PADLOCK % RED + _BODY % ("#ffffff", RED) +
                  '<path d="M-6 -6L6 6M6 -6L-6 6" stroke="%s" stroke-width="1.5"/>' % RED),
    "unlock": ("unlock", _OPEN_PADLOCK % GREEN +
               '<circle cy="2" r="3.4" fill="#ffffff" stroke="%s" stroke-width="1.6"/>' % GREEN),
    "scan": ("scan", '<circle cx="-1" cy="-1" r="3.4" fill="#ffffff" stroke="%s" stroke-width="1.5"/>'
             '<path d="M1.6 1.6L5.5 5.5" stroke="%s" stroke-width="2"/>' % (INK, INK)),
    "scans": ("scans of a descriptor", '<circle cx="-2" cy="-2" r="3" fill="#ffffff" stroke="%s" stroke-width="1.4"/>'
              '<path d="M0.4 0.4L3 3M-6.5 5H6.5M-6.5 7.3H6.5" stroke="%s" stroke-width="1.6"/>' % (INK, INK)),
    "write": ("write", _DIAMOND % (ORANGE, "#8a5f00")),
    "clash": ("clash (refused)", _DIAMOND % ("#ffffff", RED) +
              '<path d="M-3 -3L3 3M3 -3L-3 3" stroke="%s" stroke-width="1.5"/>' % RED),
    "visible": ("visible", _DISC % (GREEN, "M-3 0L-0.8 2.6L3.2 -2.6")),
    "publish": ("publish", '<path d="M-5 -5H0L6 0L0 5H-5Z" fill="%s" stroke="%s" stroke-width="1.2"/>' % (SKY, BLUE)),
    "release": ("release", _OPEN_PADLOCK % GREEN + _BODY % ("#ffffff", GREEN)),
    "gone": ("gone", _DISC % (PURPLE, "M3.6 0H-3M-0.4 -2.8L-3.2 0L-0.4 2.8")),
    "fail": ("fail", '<path d="M0 -7L7 5.5H-7Z" fill="%s"/>'
             '<path d="M0 -3V1.4M0 2.6V4.2" stroke="#ffffff" stroke-width="1.8"/>' % RED),
    "stop": ("stop", '<rect x="-4.5" y="-4.5" width="9" height="9" fill="%s"/>' % INK),
}


def mark_of(event: Event):
    """The name of an event's mark."""
    if event.kind == "look":
        return "look-" + event.parts["answer"]
    if event.kind.startswith("clash"):
        return "clash"
    return event.kind.replace(" ", "-")


def mark_of_step(step):
    """The name of the mark of a row."""
    return "scans" if step.is_build else mark_of(step.main.event)


def definitions(names):
    """The definitions of these marks, and of all patterns and arrow heads of bars and arrows."""
    marks = ['<g id="%s">%s</g>' % (name, drawing) for name, (_, drawing) in MARKS.items() if name in names]
    return "".join(marks) + _PATTERNS


_PATTERNS = (
    '<pattern id="taken-back" width="7" height="7" patternUnits="userSpaceOnUse" patternTransform="rotate(45)">'
    '<rect width="7" height="7" fill="#fbf3f8"/><rect width="1.2" height="7" fill="%s" fill-opacity="0.45"/></pattern>'
    '<pattern id="not-clear" width="4" height="4" patternUnits="userSpaceOnUse" patternTransform="rotate(-45)">'
    '<rect width="4" height="4" fill="#ffffff"/><rect width="1.4" height="4" fill="%s"/></pattern>'
    '<pattern id="scanning" width="4" height="4" patternUnits="userSpaceOnUse">'
    '<rect width="4" height="4" fill="#fff6e0"/><circle cx="2" cy="2" r="0.9" fill="%s"/></pattern>'
    '<pattern id="outdated" width="5" height="5" patternUnits="userSpaceOnUse" patternTransform="rotate(45)">'
    '<rect width="5" height="5" fill="#ffffff"/><rect width="2" height="5" fill="%s"/></pattern>'
    '<marker id="takes" viewBox="0 0 8 8" refX="7" refY="4" markerWidth="7" markerHeight="7" orient="auto" '
    'markerUnits="userSpaceOnUse"><path d="M0 0.5L8 4L0 7.5Z" fill="%s"/></marker>'
    '<marker id="holder" viewBox="0 0 8 8" refX="4" refY="4" markerWidth="8" markerHeight="8" '
    'markerUnits="userSpaceOnUse"><circle cx="4" cy="4" r="2.6" fill="#ffffff" stroke="%s" stroke-width="1.4"/></marker>'
    % (PURPLE, GREEN, ORANGE, ORANGE, BLUE, RED))
