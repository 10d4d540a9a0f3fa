"""The elements of an SVG as text."""
from html import escape


def number(value):
    """A length as an SVG writes it."""
    return ("%.1f" % value).rstrip("0").rstrip(".") if isinstance(value, float) else str(value)


def path(*parts):
    """A path of commands and lengths."""
    return " ".join(part if isinstance(part, str) else number(part) for part in parts)


def title_of(text):
    """A title, which shows on hover."""
    return "<title>%s</title>" % escape(text, quote=False)


def opened(name, attributes):
    """The start of an element. Of an attribute's name `_` stands for `-`, but for one at its end."""
    parts = ["<", name]
    for key, value in attributes.items():
        value = value if isinstance(value, str) else number(value)
        parts += [" ", key.rstrip("_").replace("_", "-"), '="', escape(value, quote=False).replace('"', "&quot;"), '"']
    return "".join(parts)


def element(name, title="", **attributes):
    """An element without text, with its title if it has one."""
    if not title:
        return opened(name, attributes) + "/>"
    return "%s>%s</%s>" % (opened(name, attributes), title_of(title), name)


def text_at(x, y, text, class_, **attributes):
    """A text."""
    return "%s>%s</text>" % (opened("text", dict(x=x, y=y, class_=class_, **attributes)), escape(text, quote=False))


def group(content, title="", **attributes):
    """Elements together, with their title if they have one."""
    return "%s>%s%s</g>" % (opened("g", attributes), title_of(title) if title else "", content)
