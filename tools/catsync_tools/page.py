"""A page that works without a network: a picture to step through, and beside it what an entry does and why, and what holds
after it."""
import json
import os
from html import escape

from .drawing import Drawing, lane_names, svg
from .layout import HEADER, Wanted
from .state import state_of
from .story import Story
from .svg import number

PAGE_WIDTH = 780        # of the picture in a window of 800, with the panel below it; in a wider one it is wider
HERE = os.path.dirname(os.path.abspath(__file__))


def part(name):
    """A file of the page, beside this one."""
    with open(os.path.join(HERE, name), encoding="utf-8") as file:
        return file.read()


def data_of(state):
    """Data as it stands in a page."""
    return json.dumps(state, separators=(",", ":")).replace("<", "\\u003c")


def page(story: Story, wanted: Wanted, drawing: Drawing):
    """The page of a picture."""
    layout = drawing.layout
    top = layout.rows[0].y
    return part("page.html") % {
        "title": escape(drawing.title, quote=False),
        "style": part("page.css"), "width": number(layout.width),
        "head": svg(layout.width, drawing.top, drawing.head, 0, True),
        "lanes": svg(layout.width, HEADER, lane_names(layout, 0, HEADER), 0, True),
        "rows": svg(layout.width, layout.height - top, drawing.rows, top, True),
        "data": data_of(state_of(story, wanted, layout, drawing.sentences)),
        "script": part("page.js"),
    }
