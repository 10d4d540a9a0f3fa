"""What a script expects of its answers."""
import re
from typing import NamedTuple, Tuple

from .faults import Fault
from .outputs import PLACE

OWN, SOME, NEVER = "own", "some", "never"
NONE = "no answer"                  # what is said of a command that isn't finished

MORE = ".."                         # at the end of a text: its field may go on

CODES = ("0a000", "22023", "25p01", "25p02", "2bp01", "3b001", "42701", "42703", "42704", "42710", "42809", "42p01", "42p07", "53200",
         "54011", "55000", "55006", "55p03")

_PLACE = re.compile(PLACE.pattern, re.IGNORECASE)
_PART = re.compile(r"([0-9]{1,9})[ \t]*\.[ \t]*([0-9]{1,9})[ \t]+(\S.*)")
_AND = re.compile(r"[ \t]+and[ \t]+(?=[0-9]+[ \t]*\.)", re.IGNORECASE)
_SLIP = re.compile(r"(?:^|[ \t])(?:(and)|(or)[ \t]+[0-9]{1,9}[ \t]*\.[ \t]*[0-9]{1,9}(?:[ \t]+\S.*)?)$", re.IGNORECASE)
# What an answer begins with, after a word that joins two texts and without its command.
_NO_COMMAND = re.compile(r"[ \t](and|or)[ \t]+((?:error|ok|rolled back|no answer|%s)(?![^ \t;]))" % "|".join(CODES), re.IGNORECASE)
_FORM = "'expect B.C TEXT', 'expect some B.C TEXT' or 'expect never B.C TEXT', with 'and B.C TEXT' for more of one run"


class Part(NamedTuple):
    """A text that the answer of a command has."""
    backend: int
    command: int
    text: str


class Expectation(NamedTuple):
    """Texts that the answers of one run have together: of the run by the script's own schedule, of some run, or of none."""
    line: int
    text: str
    runs: str
    parts: Tuple[Part, ...]


def plain(text):
    """A text without places and with single blanks."""
    return " ".join(_PLACE.sub("", text).split())


def read_expectation(line, text):
    """The expectation of a line that begins with `expect`."""
    words = text.lower().split(None, 2)
    runs = words[1] if words[1:2] in (["some"], ["never"]) else OWN
    rest = text.split(None, 1 if runs == OWN else 2)
    found = [_PART.fullmatch(part.strip()) for part in _AND.split(rest[-1])] if text.isascii() and len(rest) > 1 else [None]
    if None in found:
        raise Fault("line %d: an expectation must read %s" % (line, _FORM))
    for part in found:
        check_text(line, part.group(3))
    parts = tuple(Part(int(part.group(1)), int(part.group(2)), plain(part.group(3))) for part in found)
    return Expectation(line, " ".join(text.split()), runs, parts)


def check_text(line, text):
    """A fault where a text can't be meant as it stands, since no answer has it."""
    slip = _SLIP.search(text)
    if slip and slip.group(1):
        raise Fault("line %d: nothing follows the last 'and'" % line)
    bare = _NO_COMMAND.search(text)
    if slip or bare and bare.group(1).lower() == "or":
        raise Fault("line %d: texts are joined by 'and' alone; each that may come is an expectation of its own" % line)
    if bare:
        raise Fault("line %d: a command (B.C) is missing before '%s': after 'and' comes B.C TEXT" % (line, bare.group(2)))
    code = text.split()[0]
    if code.rstrip(";").lower() in CODES:
        raise Fault("line %d: 'error' is missing before %s" % (line, code))
    if MORE in text.rstrip()[:-len(MORE)]:
        raise Fault("line %d: '..' stands at the end of a text alone" % line)


def check_expectation(expectation, commands):
    """A fault where an expectation names a command that its backend hasn't; `commands` has how many each has."""
    for part in expectation.parts:
        if not 1 <= part.command <= commands.get(part.backend, 0):
            raise Fault("line %d: there is no command %d of backend %d" % (expectation.line, part.command, part.backend))


def places_in(expectation):
    """The places in an expectation: they aren't compared."""
    return [place.strip() for place in _PLACE.findall(expectation.text)]


class Answers:
    """The answers of a run, by backend and command, without places."""

    def __init__(self, lines):
        self.texts = {}
        for line in lines:
            _, backend, command, text = line.split(" ", 3)
            self.texts[int(backend), int(command)] = PLACE.sub("", text)

    def text(self, part: Part):
        """The answer of the command that a part is about."""
        return self.texts.get((part.backend, part.command), NONE)

    def has(self, part: Part):
        """Whether the answer has the part's text, from the beginning of a word to the end of a field; or to that of a word, where
        the text says that it goes on, and in an error. A `;` ends the last field of an answer too."""
        text, answer = part.text, plain(self.text(part)) + ";"
        goes_on = text.endswith(MORE) or text.endswith(";") or answer.startswith("error ")
        pattern = re.escape(text[:-len(MORE)].rstrip() if text.endswith(MORE) else text)
        return re.search(r"(?:^|[ ;])%s(?=%s)" % (pattern, "[ ;]|$" if goes_on else ";"), answer, re.IGNORECASE) is not None

    def has_all(self, parts):
        """Whether they have all parts."""
        return all(self.has(part) for part in parts)

    def line(self, sign, part: Part):
        """What came where a part was expected: of an answer with fields the field that was expected."""
        fields = self.text(part).split("; ")
        same = [field for field in fields if field.split(" ")[0] == part.text.lower().split(" ")[0]]
        return "%s %d.%d %s" % (sign, part.backend, part.command, "; ".join(same or fields))

    def came(self, parts):
        """What came in one run where these parts were expected."""
        return "+ " + " and ".join(self.line("", part)[1:] for part in parts)

    def differences(self, parts):
        """What was expected and didn't come, each with what came."""
        return [line for part in parts if not self.has(part) for line in ("- %d.%d %s" % part, self.line("+", part))]
