"""Test files of PostgreSQL's isolationtester (src/test/isolation): set-up, sessions with their steps, permutations.

    setup { CREATE TABLE t (a int4); }
    teardown { DROP TABLE t; }

    session s1
    setup { BEGIN; }
    step s1a { ALTER TABLE t ADD COLUMN b text; }
    step s1c { COMMIT; }

    session s2
    step s2r { SELECT * FROM t; }

    permutation s1a s2r(*) s1c

A step in a permutation may have conditions in parentheses: `*` (it is said to wait first), another step (it isn't said to be done
before that), or `STEP notices N` (nor before the other's session has said so many notices).
"""
import re
from typing import Dict, List, NamedTuple, Optional, Tuple

from .faults import Fault

ONCE = "*"
WORDS = ("setup", "teardown", "session", "step", "permutation", "notices")

_SPACE = " \t\n\r\f\v"
_TOKEN = re.compile(r'#[^\n]*|(?P<name>[A-Za-z_\x80-\U0010ffff][A-Za-z0-9_$\x80-\U0010ffff]*)|"(?P<quoted>(?:[^"\n]|"")*)"'
                    r"|(?P<number>[0-9]+)|(?P<sign>[(),*])|\{(?P<sql>[^}]*)\}")


class Token(NamedTuple):
    """A token: its kind (a word of the format, `name`, `number`, `sign` or `sql`), its text and its line."""
    kind: str
    text: str
    line: int


class Step(NamedTuple):
    """A step: its name, the number of its session from 1, and its SQL as it is printed."""
    name: str
    session: int
    sql: str


class Session(NamedTuple):
    """A session: its name, its steps, and the SQL of its set-up and of its teardown."""
    name: str
    steps: List[Step]
    setup: List[str]
    teardown: List[str]


class Blocker(NamedTuple):
    """What a step isn't said to be done before: `*`, the step of this name, or so many notices of its session."""
    name: str
    notices: Optional[int] = None


class Placed(NamedTuple):
    """A step of a permutation, with its conditions."""
    step: Step
    blockers: Tuple[Blocker, ...] = ()


class Spec(NamedTuple):
    """A whole file; without permutations all of them are meant."""
    setup: List[str]
    teardown: List[str]
    sessions: List[Session]
    permutations: List[List[Placed]]

    @property
    def steps(self) -> Dict[str, Step]:
        """All steps by their names."""
        return {step.name: step for session in self.sessions for step in session.steps}


def tokens_of(text) -> List[Token]:
    """The tokens of a file."""
    found, at, line = [], 0, 1
    while at < len(text):
        if text[at] in _SPACE:
            line += text[at] == "\n"
            at += 1
            continue
        token = _TOKEN.match(text, at)
        if token is None:
            raise Fault("line %d: %s" % (line, unreadable(text[at])))
        kind = token.lastgroup
        if kind == "name" and token.group().lower() in WORDS and token.group() in WORDS:
            found.append(Token(token.group(), token.group(), line))
        elif kind == "quoted":
            found.append(Token("name", token.group(kind).replace('""', '"'), line))
        elif kind:
            found.append(Token(kind, token.group(kind).strip(" \t\r\f") if kind == "sql" else token.group(kind), line))
        line += token.group().count("\n")
        at = token.end()
    return found


def unreadable(letter):
    """Why no token begins with a letter."""
    return {"{": "a '{' without its '}'", '"': "a name in quotes that doesn't end in its line"}.get(
        letter, "no part of a spec begins with %r" % letter)


class Reader:
    """Reads the tokens of a file one after the other."""

    def __init__(self, text):
        self.tokens, self.at = tokens_of(text), 0
        self.last = Token("", "", 1 + text.count("\n"))
        self.steps: Dict[str, Step] = {}

    @property
    def kind(self):
        """The kind of the next token, or nothing at the end."""
        return self.tokens[self.at].kind if self.at < len(self.tokens) else ""

    def take(self, kind, what) -> Token:
        """The next token, which has to be of a kind."""
        token = self.tokens[self.at] if self.at < len(self.tokens) else self.last
        if token.kind != kind:
            raise Fault("line %d: %s is due here%s" % (token.line, what, ", not '%s'" % token.text if token.kind else
                                                       ", and the file ends"))
        self.at += 1
        return token

    def blocks(self, word):
        """The SQL of all blocks that begin with a word here."""
        found = []
        while self.kind == word:
            self.at += 1
            found.append(self.take("sql", "SQL in braces").text)
        return found

    def spec(self) -> Spec:
        """The whole file."""
        setup, teardown = self.blocks("setup"), self.blocks("teardown")
        sessions: List[Session] = []
        while self.kind == "session":
            sessions.append(self.session(len(sessions) + 1))
        if not sessions:
            self.take("session", "a session")
        permutations = []
        while self.kind == "permutation":
            permutations.append(self.permutation())
        if self.at < len(self.tokens):
            self.take("permutation", "a session or a permutation" if not permutations else "a permutation")
        return Spec(setup, teardown, sessions, permutations)

    def session(self, number) -> Session:
        """A session."""
        self.at += 1
        name = self.take("name", "the session's name").text
        setup, steps = self.blocks("setup"), []
        while self.kind == "step":
            self.at += 1
            token = self.take("name", "the step's name")
            if token.text in self.steps:
                raise Fault("line %d: the step '%s' is there twice" % (token.line, token.text))
            self.steps[token.text] = Step(token.text, number, self.take("sql", "SQL in braces").text)
            steps.append(self.steps[token.text])
        if not steps:
            self.take("step", "a step of session '%s'" % name)
        return Session(name, steps, setup, self.blocks("teardown"))

    def swallowed(self, name):
        """Where the SQL of another step seems to have a step, since its own brace isn't there."""
        for other in self.steps.values():
            if re.search(r"\bstep\s+\"?%s\"?\s*\{" % re.escape(name), other.sql):
                return ": the SQL of '%s' has it, up to the next '}'" % other.name
        return ""

    def named(self):
        """The step of the next name."""
        token = self.take("name", "a step's name")
        if token.text not in self.steps:
            raise Fault("line %d: there is no step '%s'%s" % (token.line, token.text, self.swallowed(token.text)))
        return self.steps[token.text]

    def permutation(self) -> List[Placed]:
        """A permutation."""
        self.at += 1
        placed = [self.placed()]
        while self.kind == "name":
            placed.append(self.placed())
        names = {each.step.name for each in placed}
        for each in placed:
            for blocker in each.blockers:
                if blocker.name != ONCE and blocker.name not in names:
                    raise Fault("line %d: the step '%s', which '%s' waits for, isn't in its permutation" % (
                        self.tokens[self.at - 1].line, blocker.name, each.step.name))
        return placed

    def placed(self) -> Placed:
        """A step with its conditions."""
        step, blockers = self.named(), []
        if self.sign("("):
            blockers.append(self.blocker())
            while self.sign(","):
                blockers.append(self.blocker())
            if not self.sign(")"):
                self.take("sign", "a ')'")
        return Placed(step, tuple(blockers))

    def sign(self, sign):
        """Whether the next token is this sign, which is taken then."""
        found = self.kind == "sign" and self.tokens[self.at].text == sign
        self.at += found
        return found

    def blocker(self) -> Blocker:
        """A condition."""
        if self.sign(ONCE):
            return Blocker(ONCE)
        step = self.named()
        if self.kind != "notices":
            return Blocker(step.name)
        self.at += 1
        return Blocker(step.name, int(self.take("number", "a number of notices").text))


def read_spec(text) -> Spec:
    """The spec of a file's text; a Fault names the line that goes wrong."""
    return Reader(text).spec()


def all_permutations(spec: Spec):
    """All permutations that keep each session's order, as isolationtester makes them: the first session first."""
    piles = [session.steps for session in spec.sessions]

    def further(made, taken):
        """Those that begin with these steps."""
        if sum(taken) == sum(map(len, piles)):
            yield made
        for number, pile in enumerate(piles):
            if taken[number] < len(pile):
                more = [count + (at == number) for at, count in enumerate(taken)]
                yield from further(made + [Placed(pile[taken[number]])], more)
    return further([], [0] * len(piles))


def permutations_of(spec: Spec):
    """The permutations that are run."""
    return iter(spec.permutations) if spec.permutations else all_permutations(spec)
