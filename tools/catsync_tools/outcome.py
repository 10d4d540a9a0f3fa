"""What a play came to: which answers differ, what docs/PROFILE.md says of that, and what is stale for good."""
import re
from typing import Dict, List, NamedTuple, Optional, Set

from .audit import Stale, Unread
from .beside import Compared, Pairs, differences, order_of
from .differences import profile
from .documented import Case, code_of, words_of
from .held import Made, Seen
from .known import Facts
from .messages import BUILD_SCANS
from .play import Play, Served
from .sentences import counted
from .server import answers
from .sql import Answer, referred_in, tokens_of

# Differences that come where commands overlap: the words of docs/PROFILE.md.
OVERTAKEN, FEWER_LOOKS, TORN = "an older rebuild may be put over a newer one", "they aren't looked for", "half of one commit"
TABLE_FIRST = "the table first"
# How a field that is read from a descriptor is changed.
CHANGES = {"statistics": ("=att",), "fillfactor": ("=class",), "triggers": ("+trg", "=trg")}
LOCKED = "55P03"


class PartDiffering(NamedTuple):
    """A part in which two answers differ, the words in docs/PROFILE.md that name it, after which command it comes that was done in
    one of the two alone, and whether it is old until the next accept; and what the catalogs have where it is old and no message is
    left."""
    part: str
    words: Optional[str]
    after: Optional[str]
    is_mended: bool = False
    catalogs: Optional[str] = None

    @property
    def is_new(self):
        """Whether it neither is named nor may follow from another."""
        return self.words is None and self.after is None

    @property
    def is_stale(self):
        """Whether the server's is old, and no message is left that would tell it."""
        return self.catalogs is not None

    @property
    def text(self):
        """What is said of it."""
        if self.words is not None:
            more = "; the catalogs have %s, and no message is left" % self.catalogs if self.is_stale else ""
            return "differs in %s, as docs/PROFILE.md says: %s%s" % (
                self.part, self.words, "; old until the next accept" if self.is_mended else more)
        return "differs in %s, %s" % (self.part, "after " + self.after if self.after else "and docs/PROFILE.md doesn't say so")


class Outcome(NamedTuple):
    """What a play came to."""
    held: int
    compared: List[Compared]
    found: List[List[PartDiffering]]
    stale: List[Stale]
    unread: List[Unread]
    served: List[Served]
    oids: range         # that the server has drawn meanwhile

    @property
    def differs(self):
        """Whether something differs that docs/PROFILE.md doesn't name, or is stale with no message left, in the end or in an answer."""
        return bool(self.stale) or any(each.is_new or each.is_stale for found in self.found for each in found)

    @property
    def text(self):
        """The counts, in one line."""
        differ, new = sum(map(bool, self.found)), sum(any(each.is_new for each in found) for found in self.found)
        parts = ["held " + counted(self.held, "time"),
                 "%s of %s %s" % (differ or "none", counted(len(self.compared), "answer"), "differs" if differ < 2 else "differ")
                 + (", %d in a way that docs/PROFILE.md doesn't name" % new if new else "")]
        if self.stale:
            parts.append("%s %s stale for good" % (counted(len(self.stale), "field"), "is" if len(self.stale) == 1 else "are"))
        mended = 0 if self.stale else sum(any(each.is_stale for each in found) for found in self.found)
        if mended:
            parts.append("%s %s stale until a later message" % (counted(mended, "answer"), "is" if mended == 1 else "are"))
        return "; ".join(parts)


def compared_in(play: Play) -> List[Compared]:
    """Each command that is answered in both, in the order in which they end here."""
    pairs, found = Pairs(), []
    for command in order_of(play.commands, play.run.steps):
        if command in play.answers and command in play.answers_here:
            here, there = play.answers_here[command], play.answers[command]
            parts = differences(here, there, pairs)
            words = {part: words_of(case_of(play, command), part, there.warnings) for part in parts}
            found.append(Compared(command, play.commands[command], here, there, words, []))
    return found


def case_of(play: Play, command) -> Case:
    """A command with both answers, and what held here up to its end, without what it did itself."""
    facts, at, order = Facts(referred_in(play.commands.values())), -1, order_of(play.commands, play.run.steps)
    ends = {each: max([at for at, step in enumerate(play.run.steps) if step[:2] == each] + [-1]) for each in order}
    for each in order[:order.index(command) + 1]:
        for backend, number, text in play.run.steps[at + 1:ends[each] + 1]:
            if (backend, number) != command:
                facts.take(backend, number, text)
        at = max(at, ends[each])
        if each != command:
            facts.end(each[0], tokens_of(play.commands[each]), play.answers_here.get(each, "error"))
    return Case(command[0], tokens_of(play.commands[command]), play.placed_here[command], play.answers[command].text, facts)


def documented(all_compared: List[Compared], text) -> List[List[PartDiffering]]:
    """What docs/PROFILE.md says of differences, wherever they come; and what comes after a command that was done in one alone."""
    found, first = [], None
    for compared in all_compared:
        found.append([PartDiffering(part, words if words and words.lower() in text else None, first)
                      for part, words in compared.differences.items()])
        refused = [answer.startswith("error ") for answer in (compared.here, compared.server.text)]
        if refused[0] != refused[1]:
            first = first or "%d.%d" % compared.command
    return found


def outcome_of(play: Play) -> Outcome:
    """The outcome of a play."""
    all_compared, text = compared_in(play), profile()
    found = [[named(play, compared, each, text) for each in differing]
             for compared, differing in zip(all_compared, documented(all_compared, text))]
    return Outcome(play.held, all_compared, found, play.stale, play.unread, play.served, range(play.first_oid, play.last_oid))


def named(play: Play, compared: Compared, found: PartDiffering, text):
    """A difference with the words that name it where commands overlap."""
    words = tokens_of(compared.text)
    seen = play.backends[compared.command[0]].seen.get(compared.command[1])
    if seen and found.part in seen.fields and words.startswith(("show ", "peek ")):
        return of_descriptor(play, compared.command, seen, found, text)
    if found.is_new and found.part in ("answer", "error") and TABLE_FIRST in text and is_table_first(play, compared, words):
        return found._replace(words=TABLE_FIRST)
    return found


def of_descriptor(play: Play, command, seen: Seen, found: PartDiffering, text):
    """A difference in a field that was read from the descriptor, and not by a query. Where the server's is old, a message mends it that
    is still to be sent, or the next accept, or nothing is left that would."""
    kept, changes = seen.fields[found.part], CHANGES[found.part]
    if kept.value == kept.catalogs:
        return found._replace(words=TORN) if TORN in text and is_half_here(play, command, seen.rel, changes) else found
    unsent = [made.event for other in play.backends if other != command[0] for made in unsent_writes(play, other, seen)]
    if any(event[1] in changes for event in unsent):
        return found._replace(words=TORN if TORN in text else None)
    words, is_mended = (FEWER_LOOKS, True) if seen.is_waiting else (OVERTAKEN, bool(unsent))
    return found._replace(words=words if words in text else None, is_mended=is_mended, catalogs=None if is_mended else kept.catalogs)


def is_half_here(play: Play, command, rel, changes):
    """Whether here another's commit of a change of a field became visible between two scans of the relation's descriptor, in the
    transaction of a command."""
    (backend, number), rel = command, next((here for here, there in play.oids.items() if there == rel), None)
    scans: List[int] = []
    commits: List[int] = []
    writers: Set[int] = set()
    for at, (own, of, text) in enumerate(play.run.steps):
        if own == backend and of <= number:
            scans = [] if text.startswith("release ") and of < number else scans + [at] * bool(
                re.match("scan (?:%s) %s " % ("|".join(BUILD_SCANS), rel), text))
        elif own != backend and re.search(r"(?:%s)\((?:[0-9]+,)?%s," % ("|".join(map(re.escape, changes)), rel), text):
            writers.add(own)
        elif own in writers and text.startswith(("visible ", "gone ")):
            writers.discard(own)
            commits += [at] * text.startswith("visible ")
    return any(scans[0] < at < scans[-1] for at in commits if scans)


def unsent_writes(play: Play, backend, seen: Seen):
    """The writes of the relation that a backend had committed by then, if no message for its descriptor was sent yet."""
    found: List[Made] = []
    is_within = False
    for made in reversed([made for made in play.log[:seen.at] if made.backend == backend]):
        kind = made.event[0]
        is_sent = kind == "publish" and seen.rel in made.event[2:] and not is_within
        if kind == "release" or is_sent or is_within and kind in ("visible", "gone"):
            return found
        is_within = is_within or kind == "visible"
        found += [made] * (is_within and kind == "write" and made.event[2:3] == (seen.rel,))
    return found


def is_table_first(play: Play, compared: Compared, text):
    """Whether a drop is refused in one of the two alone as the server's `drop index` locks the table before the index. In the server
    another one holds a table then: that of the index, or one that a `drop index` has locked. Or here another one has locked the
    table meanwhile, which the server refuses it."""
    found, case = re.match("drop (index|table) ", text), case_of(play, compared.command)
    if not found or not case.rel:
        return False
    of_index = found.group(1) == "index"
    table = case.facts.table_of(case.backend, case.rel) if of_index else case.rel
    locks = [made for made in play.log if made.event[:2] == ("lock", play.oids.get(table))]
    own = [made for made in locks if (made.backend, made.command) == compared.command]
    if not own:
        return False
    if code_of(compared.server.text) == LOCKED:
        return own[-1].event[-1] == "held" and (of_index or is_held_by_drop_index(play, own[-1]))
    return of_index and is_refused_here(play, compared, table) and any(
        made.event[-1] == "held" and made.backend != case.backend for made in locks[locks.index(own[-1]):])


def is_refused_here(play: Play, compared: Compared, rel):
    """Whether a command is refused here as another one has a relation locked."""
    return code_of(compared.here) == LOCKED and any(
        (backend, command) == compared.command and re.match("lock %d .* held " % rel, text) for backend, command, text in play.run.steps)


def is_held_by_drop_index(play: Play, refused: Made):
    """Whether another's `drop index` holds the table whose lock was refused."""
    holders: Set[int] = set()
    for made in play.log[:next(at for at, made in enumerate(play.log) if made is refused)]:
        if made.event[0] == "release":
            holders.discard(made.backend)
        elif made.event[:2] == refused.event[:2] and made.event[-1] == "ok":
            text = tokens_of(play.commands.get((made.backend, made.command), ""))
            holders |= {made.backend} if text.startswith("drop index ") else set()
    return bool(holders - {refused.backend})


def answers_text(outcome: Outcome) -> List[str]:
    """Each command with both answers, what differs, what the server alone was asked after it; and what is stale for good."""
    lines = served_after(outcome, 0)
    for compared, found in zip(outcome.compared, outcome.found):
        lines += ["", "%d.%d %s" % (compared.command + (compared.text,))] + answers(compared)
        lines += ["    " + each.text for each in found]
        lines += served_after(outcome, compared.command[1], compared.command[0])
    kept = [each.text for each in outcome.stale + outcome.unread]
    return lines + [""] * bool(kept) + kept


def without_oids(outcome: Outcome) -> str:
    """What is said of an outcome, with a number in place of each oid that the server has drawn: by this two plays are alike."""
    numbers: Dict[str, int] = {}

    def numbered(found):
        is_drawn = int(found.group()) in outcome.oids
        return "oid %d" % numbers.setdefault(found.group(), len(numbers)) if is_drawn else found.group()

    def alike(answer: Answer):
        texts = [re.sub("[0-9]+", numbered, each) for each in [answer.text] + answer.warnings]
        return Answer(texts[0], texts[1:])
    compared = [each._replace(server=alike(each.server)) for each in outcome.compared]
    served = [each._replace(answer=alike(each.answer)) for each in outcome.served]
    return "\n".join([outcome.text] + answers_text(outcome._replace(compared=compared, served=served)))


def served_after(outcome: Outcome, command, backend=None):
    """What the server alone was asked after a command."""
    return [line for served in outcome.served if served.command[1] == command and backend in (None, served.command[0])
            for line in ("    server, alone: " + served.sql, "        " + served.answer.text)]
