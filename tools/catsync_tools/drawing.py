"""Draws a story as an SVG: bars, arrows, and a mark and a text for each entry."""
from html import escape
from typing import Dict, NamedTuple

from .arrows import message_arrow, refusal_arrow, waiting_number
from .bars import CAPS, kept_bar, lock_bar, transaction_bar
from .layout import LINE, MOST_WIDE_LANES, NAMED_LANE, Layout, Wanted, layout_of
from .legend import items_of, legend
from .marks import BLUE, GREEN, INK, KEPT_BROWN, RED, definitions, mark_of_step
from .sentences import counted
from .story import Story
from .svg import element, group, number, opened, path, text_at, title_of
from .why import Why, plain, sentences_of

TITLE_HEIGHT = 24
LEGEND_WIDTH = 900

STYLE = """
text { font: 12px 'DejaVu Sans Mono', Menlo, Consolas, monospace; fill: %(ink)s; white-space: pre }
text.small { font: 11px 'DejaVu Sans', Verdana, sans-serif }
text.head { font: bold 11px 'DejaVu Sans', Verdana, sans-serif }
text.number { fill: #767676 }
text.label { font: 9px 'DejaVu Sans Mono', Menlo, Consolas, monospace }
text.waits { font: bold 9px 'DejaVu Sans', Verdana, sans-serif; fill: %(blue)s;
  paint-order: stroke; stroke: #ffffff; stroke-width: 3px }
text.halo { paint-order: stroke; stroke: #ffffff; stroke-width: 2.5px }
text.error { fill: #963800 }
text.bold { font-weight: bold }
.leader { stroke: #d0d0d0; stroke-dasharray: 1 3 }
.message { fill: none; stroke: %(blue)s; stroke-width: 1.3; stroke-opacity: 0.75 }
.refusal { fill: none; stroke: %(red)s; stroke-width: 1.4; stroke-dasharray: 4 2 }
.message:hover, .refusal:hover { stroke-width: 3.5; stroke-opacity: 1 }
.kept-build, .kept-current, .kept-outdated { stroke: %(brown)s }
.serves { fill: %(ink)s; stroke: #ffffff; stroke-width: 1.4 }
.open { stroke-dasharray: 3 2 }
.row { fill-opacity: 0 }
.row:hover { fill: #fff1b8; fill-opacity: 1 }
""" % {"ink": INK, "blue": BLUE, "red": RED, "brown": KEPT_BROWN}


class Drawing(NamedTuple):
    """A picture in two parts, one below the other: its title and legend, and its rows; and its story's sentences."""
    title: str
    layout: Layout
    head: str
    rows: str
    top: float
    sentences: Dict[int, str]


def arrows_in(span, story: Story):
    """The messages and refusals with an end among the entries that are drawn."""
    messages = [taken for taken in story.log.taken if span.holds(taken.publish) or span.holds(taken.fetch)]
    return messages, [refusal for refusal in story.refusals if span.holds(refusal.entry)]


# Rows.

def lanes_ground(layout: Layout):
    """The ground of the lanes, every second one grey."""
    shape = {"y": layout.rows[0].y, "height": layout.bottom - layout.rows[0].y, "fill_opacity": 0.04}
    return "".join(element("rect", x=lane.left, width=lane.right - lane.left, **shape)
                   for lane in list(layout.lanes.values())[::2])


def life_line(layout: Layout, life):
    """The line of a backend, from its start to its stop."""
    bottom = layout.bottom if life.last is None else layout.middle(life.last)
    drawn = path("M", layout.lanes[life.backend].mark, layout.middle(life.first), "V", bottom)
    return element("path", d=drawn, stroke="#b8b8b8")


def lane_names(layout: Layout, y, height):
    """The names of the lanes; where they are narrow, the numbers of the backends."""
    drawn = [element("rect", x=0, y=y, width=layout.right, height=height, fill="#e4e4e4")]
    for lane in layout.lanes.values():
        word = "backend %d" if lane.right - lane.left >= NAMED_LANE and len(layout.lanes) <= MOST_WIDE_LANES else "%d"
        drawn.append(text_at(lane.left + 6, y + 15, word % lane.backend, "head"))
    return "".join(drawn)


def row_ground(layout: Layout, row):
    """What lies below an entry's row: a stripe that shows on hover, and a line from its lane to its text."""
    step = row.content
    stripe = element("rect", x=0, y=row.y, width=layout.right, height=row.height, class_="row", id="row%d" % step.first)
    lane = layout.lanes[step.main.backend]
    return stripe + element("path", d=path("M", lane.mark, row.middle, "H", layout.text - 5), class_="leader")


def text_lines(layout: Layout, row, text, class_="line"):
    """The lines of a row's text, as parts of it. A page breaks a longer text anew as its window is wide, and has all of it."""
    lines = "".join('<tspan x="%s" y="%s">%s</tspan>' % (number(layout.text), number(row.middle + 4 + at * LINE), escape(line, quote=False))
                    for at, line in enumerate(row.lines))
    whole = {"data_text": text} if layout.right > layout.width and len(row.lines) > 1 else {}
    return "%s>%s</text>" % (opened("text", dict(class_=class_, **whole)), lines)


def cut(row):
    """The class of a row whose text is cut."""
    return " cut" if row.cut else ""


def entry_text(layout: Layout, row, sentences):
    """The number, mark and text of a row's entries, and what they do, if that is given; where the text is cut the title has
    all of it."""
    step = row.content
    lane, y = layout.lanes[step.main.backend], row.middle + 4
    numbers = str(step.first) if step.first == step.last else "%d\u2013%d" % (step.first, step.last)
    titles = [plain(sentences[entry.number]) for entry in step.entries] if sentences else []
    titles += [step.text] if row.cut else []
    drawn = text_at(layout.numbers - 8, y, numbers, "number", text_anchor="end")
    drawn += element("use", href="#" + mark_of_step(step), x=lane.mark, y=row.middle)
    drawn += text_lines(layout, row, step.text)
    return group(drawn, "\n".join(titles), class_="entry" + cut(row), id="entry%d" % step.first)


def answer_text(layout: Layout, row):
    """An answer, below the entry at which its command ended."""
    answer = row.content
    mark, refused = layout.lanes[answer.backend].mark, answer.text.startswith("error")
    fill, colour, class_ = ("#fdeadf", RED, "line error") if refused else ("#eaf4ec", GREEN, "line")
    drawn = element("rect", x=layout.text - 6, y=row.y + 1, width=layout.right - layout.text - 2, height=row.height - 2,
                    fill=fill, rx=2)
    drawn += element("path", d=path("M", mark + 3, row.middle, "H", layout.text - 6), stroke=colour, stroke_opacity=0.5)
    drawn += element("circle", cx=mark, cy=row.middle, r=2.5, fill=colour)
    drawn += text_lines(layout, row, answer.line, class_)
    title = "the answer of command %d of backend %d" % (answer.command, answer.backend)
    return group(drawn, title + ("\n" + answer.line if row.cut else ""), class_="answer" + cut(row))


def command_text(layout: Layout, row):
    """A command of the script, above its first entry."""
    command = row.content
    mark = layout.lanes[command.backend].mark
    drawn = element("rect", x=layout.text - 6, y=row.y + 1, width=layout.right - layout.text - 2, height=row.height - 2,
                    fill="#eef1f8", rx=2)
    drawn += element("path", d=path("M", mark + 4, row.middle, "H", layout.text - 6), stroke=BLUE, stroke_opacity=0.5)
    drawn += element("circle", cx=mark, cy=row.middle, r=2.5, fill="#ffffff", stroke=BLUE, stroke_width=1.4)
    drawn += text_lines(layout, row, command.text, "line bold")
    title = "command %d of backend %d" % (command.number, command.backend)
    return group(drawn, title + ("\n" + command.text if row.cut else ""), class_="command" + cut(row))


def rows_drawn(layout: Layout, kind, one_drawn):
    """The rows of a kind, drawn."""
    return "".join(one_drawn(layout, row) for row in layout.rows if row.kind == kind)


# The whole.

def bars_drawn(layout: Layout, story: Story, refusals):
    """All bars that the entries which are drawn meet."""
    rings = {}
    for refusal in refusals:
        rings.setdefault(refusal.bar, []).append(refusal.entry)
    why, drawn = Why(story), []
    for bars, one_drawn in ((story.lives, life_line), (story.transactions, transaction_bar),
                            (story.kept, lambda layout, kept: kept_bar(layout, kept, why)),
                            (story.locks, lambda layout, lock: lock_bar(layout, lock, rings.get(lock, ())))):
        drawn += [one_drawn(layout, bar) for bar in bars if layout.span.meets(bar)]
    return "".join(drawn)


def arrows_drawn(layout: Layout, story: Story, messages, refusals):
    """The arrows, and the numbers of messages that wait."""
    waiting = [waiting for waiting in story.log.waiting if layout.span.holds(waiting.entry) and waiting.count]
    drawn = [message_arrow(layout, message) for message in messages]
    drawn += [waiting_number(layout, one) for one in waiting]
    drawn += [refusal_arrow(layout, refusal) for refusal in refusals]
    return "".join(drawn)


def title_for(story: Story, span):
    """What the picture shows, in one line."""
    title = "A history of %s, %s" % (counted(len(story.lives), "backend"), counted(len(story.entries), "entry"))
    if (span.first, span.last) != (1, len(story.entries)):
        title += ": entries %d to %d" % (span.first, span.last)
    return title


def svg(width, height, content, y=0, in_page=False):
    """A whole SVG, from a height of its picture on. In a page it may be wider, and then its content stays on the left."""
    attributes = {"xmlns": "http://www.w3.org/2000/svg", "width": width, "height": height,
                  "viewBox": "0 %s %s %s" % (number(y), number(width), number(height))}
    if in_page:
        attributes["preserveAspectRatio"] = "xMinYMin"
    return opened("svg", attributes) + ">" + content + "</svg>\n"


def head_of(story: Story, layout: Layout, title, groups):
    """The title, the legend, and what all parts of the picture use; and how wide and high it is."""
    drawn, right, bottom = groups
    marks = {mark_of_step(row.content) for row in layout.rows if row.kind == "entry"}
    marks |= {CAPS[kept.cause] for kept in story.kept if kept.cause in CAPS} | {"fetch"}
    return "\n".join(["<style>%s</style>" % STYLE, "<defs>%s</defs>" % definitions(marks),
                      text_at(12, 17, title, "head"), drawn])


def draw(story: Story, wanted: Wanted):
    """The picture of what is wanted."""
    messages, refusals = arrows_in(wanted.span, story)
    plan = layout_of(story, wanted, 0, 0)
    drawn, right, top = legend(items_of(story, plan, messages, refusals), TITLE_HEIGHT, min(LEGEND_WIDTH, wanted.width))
    layout = layout_of(story, wanted, top + 6, right)
    sentences, title = sentences_of(story, *wanted.span), title_for(story, wanted.span)
    rows = [
        lanes_ground(layout), rows_drawn(layout, "entry", row_ground), bars_drawn(layout, story, refusals),
        arrows_drawn(layout, story, messages, refusals),
        rows_drawn(layout, "header", lambda layout, row: lane_names(layout, row.y, row.height)),
        rows_drawn(layout, "command", command_text), rows_drawn(layout, "answer", answer_text),
        rows_drawn(layout, "entry", lambda layout, row: entry_text(layout, row, {} if wanted.in_page else sentences)),
    ]
    return Drawing(title, layout, head_of(story, layout, title, (drawn, right, top)), "\n".join(rows), top + 6, sentences)


def picture(drawing: Drawing):
    """The picture as one SVG."""
    layout = drawing.layout
    ground = element("rect", width=layout.width, height=layout.height, fill="#ffffff")
    return svg(layout.width, layout.height, "\n".join([title_of(drawing.title), drawing.head.replace(
        "</defs>", "</defs>" + ground, 1), drawing.rows]))
