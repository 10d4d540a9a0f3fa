"""What an entry does and why, in sentences: whose messages it takes and what is stale by them, why it looks or scans, what
a lock is refused for, what is out of date and who doesn't know it yet.

A number of an entry stands in braces, `{55}`: a page makes a link of it, and `plain` takes the braces away.
"""
import re
from typing import Callable, Dict, List, Tuple

from .caches import Kept
from .locks import FULL_FETCH, Lock
from .messages import BUILD_SCANS, COLUMNS, DESCRIPTORS, NAMES, Message
from .sentences import CATALOGS, MODE_NAMES, SCANNED, counted, listed
from .story import Facts, Story
from .transactions import COMMITTED, TAKEN_BACK

TABLE_SCANS, INDEX_SCANS = BUILD_SCANS[:-1], ("class", "indexrow")
MOST_COLUMNS = 3        # that are named one by one
ABSENT = re.compile(r"error 42P01 relation (\S+) does not exist")
VERBS = {"+": ("adds", "to"), "=": ("replaces", "of"), "-": ("deletes", "of")}


def at(number):
    """An entry's number."""
    return "{%d}" % number


def plain(text):
    """Sentences without braces around the numbers of entries."""
    return re.sub(r"\{([0-9]+)\}", r"\1", text)


def capital(text):
    """A sentence, with a capital at its start and a full stop."""
    return text[:1].upper() + text[1:] + "."


def all_at(numbers):
    """The numbers of several entries."""
    return listed(at(number) for number in numbers)


def verb(things, one, many):
    """The verb for one thing, or for several."""
    return one if len(things) == 1 else many


class Why:
    """Says the sentences of a story's entries."""

    def __init__(self, story: Story):
        self.story = story
        self.outdated: Dict[int, List[Kept]] = {}
        self.latest: Dict[tuple, Kept] = {}
        self.earlier: Dict[Kept, Kept] = {}
        self.absent: Dict[Tuple[int, int], str] = {}    # the name that a command of a backend didn't find
        for answer in (answer for placed in story.answers.values() for answer in placed):
            found = ABSENT.match(answer.text)
            if found:
                self.absent[answer.backend, answer.command] = found.group(1)
        for kept in story.kept:
            place = (kept.backend, kept.rel, kept.datum)
            if place in self.latest:
                self.earlier[kept] = self.latest[place]
            self.latest[place] = kept
            if kept.outdated is not None:
                self.outdated.setdefault(kept.backend, []).append(kept)

    def of(self, facts: Facts):
        """The sentences of an entry, as one text."""
        says: Callable = getattr(self, facts.entry.event.kind.replace(" ", "_"))
        first, *more = says(facts, facts.entry.event.parts)
        more += self.clear(facts) + self.served(facts)
        return " ".join(["Backend %d %s." % (facts.entry.backend, first)] + [capital(text) for text in more])

    # Things in words.

    def kept(self, kept: Kept, number=None, whose="the"):
        """What is kept, with its entries; a descriptor as it is at an entry, or, if none is given, at its end."""
        return "%s, %s" % (self.named(kept, whose), self.made(kept, number))

    def made(self, kept: Kept, number=None):
        """By which entries something is kept."""
        if not kept.is_descriptor:
            return "read at " + at(kept.first)
        if kept.built is None or (number is not None and number < kept.built):
            return "in the midst of its build since " + at(kept.first)
        return "built at %s to %s" % (at(kept.first), at(kept.built))

    def all_kept(self, all_kept: List[Kept], number=None):
        """One or several things that are kept, with their entries, before a verb."""
        if len(all_kept) == 1:
            return self.kept(all_kept[0], number) + ","
        return listed("%s (%s)" % (self.named(kept), self.made(kept, number)) for kept in all_kept)

    def named(self, kept: Kept, whose="the"):
        """What is kept."""
        called = self.story.called(kept.rel, kept.name) if kept.rel is not None else kept.name
        if kept.datum is None:
            return "%s descriptor of %s" % (whose, called)
        absent = "absence of the " if kept.is_absent else ""
        things = {"relname": "name " + called, "reloid": "oid %s" % kept.rel, "attlist": "list of columns of " + called,
                  "attname": "column %s of %s" % (kept.datum[-1], called)}
        return "%s %s%s" % (whose, absent, things[kept.datum[0]])

    def lock(self, lock: Lock):
        """A lock's mode and relation."""
        return "%s on %s" % (MODE_NAMES[lock.mode], self.story.called(lock.rel, lock.name))

    def relation(self, rel):
        """A relation by its latest name."""
        return self.story.called(rel, self.story.names.latest.get(rel, ""))

    def about(self, messages: List[Message]):
        """What messages are for: names, oids, columns, descriptors."""
        things: Dict[str, None] = {}
        for message in messages:
            called = self.story.called(message.rel, message.name)
            if message.target[0] == COLUMNS:
                columns = {one.key for one in messages if one.target[0] == COLUMNS and one.rel == message.rel}
                things["the column %s of %s" % (message.key, called) if len(columns) <= MOST_COLUMNS
                       else "%s of %s" % (counted(len(columns), "column"), called)] = None
            else:
                things["the descriptor of " + called if message.target[0] == DESCRIPTORS else
                       "the name " + message.key if message.target[0] == NAMES else "the oid %d" % message.rel] = None
        return listed(things)

    # What follows from an entry.

    def clear(self, facts: Facts):
        """Which locks are clear by the end of an accept."""
        cleared = facts.cleared
        return ["with that the %s of %s %s clear" % (verb(cleared, "lock", "locks"), all_at(lock.first for lock in cleared),
                                                   verb(cleared, "is", "are"))] if cleared else []

    def served(self, facts: Facts):
        """What serves commands without a scan."""
        texts = []
        for kept in dict.fromkeys(facts.serves):
            commands = [str(served.command) for served in kept.serves if served.entry == facts.entry.number]
            text = "%s, serves %s %s without a scan" % (self.kept(kept), verb(commands, "command", "commands"), listed(commands))
            if kept.outdated is not None and kept.outdated <= facts.entry.number:
                text += ", out of date as it is since " + at(kept.outdated)
            texts.append(text)
        return texts

    def stale(self, facts: Facts):
        """What the backend keeps no more."""
        whole, builds = [kept for kept in facts.stale if kept.built], [kept for kept in facts.stale if not kept.built]
        texts = []
        if whole:
            texts.append("%s %s stale" % (self.all_kept(whole), verb(whole, "is", "are")))
        if builds:
            texts.append("the build of %s starts over" % listed(
                "%s, which began at %s," % (self.story.called(kept.rel, kept.name), at(kept.first)) for kept in builds))
        return texts

    def unsent(self, facts: Facts):
        """What is out of date though no message waits that would tell."""
        number = facts.entry.number
        found = [kept for kept in self.outdated.get(facts.entry.backend, ())
                 if kept.outdated < number and (kept.last is None or kept.last > number)]
        return ["%s, is out of date since %s: transaction %d has yet to send its messages" % (
            self.kept(kept, number, "the" if kept.is_absent else "its"), at(kept.outdated), kept.outdated_by.xid)
                for kept in found]

    # The kinds of entries: what the backend does, and more sentences.

    def start(self, facts, parts):
        """It has read nothing, so older messages don't matter."""
        return ["joins the queue of messages" + (", past all that were published before: it has read nothing that they "
                                                 "could be for" if self.story.log.places[facts.entry.backend][0][1] else "")]

    def look(self, facts, parts):
        """Why it looks, and what waits."""
        before, following = facts.before, facts.following
        reason = ""
        if facts.transaction.first == facts.entry.number:
            reason = " at the start of a transaction"
        elif before.event.kind == "lock ok":
            reason = " after the grant at " + at(before.number)
        elif before.event.kind == "fetch" and before.event.parts["count"] == FULL_FETCH:
            reason = " again, since %s took as many as a fetch can" % at(before.number)
        elif following and following.event.kind == "scan":
            reason = " before its scan at " + at(following.number)
        if parts["answer"] == "no":
            reason = reason or self.reason_to_accept(facts)
            if facts.left:
                return ["looks for messages%s, and sees none, as at its entry before: since then came %s of %s, which a look of a "
                        "run may miss" % (reason, counted(facts.left, "message"), all_at(batch.publish for batch in facts.batches))]
            return ["looks for messages%s, and none waits" % reason] + self.unsent(facts)
        return ["looks for messages%s: %s" % (reason, counted(facts.left, "message") + " " + verb(
            [0] * facts.left, "waits", "wait") + ", of " + all_at(batch.publish for batch in facts.batches))]

    def reason_to_accept(self, facts):
        """That its command is about to answer that no relation has a name, which it may only once no message waits."""
        name = self.absent.get((facts.entry.backend, facts.entry.command))
        return " before it answers that no relation has the name " + name if name else ""

    def fetch(self, facts, parts):
        """Whose messages it takes, and what is stale by them."""
        own = all(batch.sender == facts.entry.backend for batch in facts.batches)
        first = "fetches %s%s of %s" % ("its own " if own else "the ",
                                        counted(parts["count"], "message") if parts["count"] > 1 else "message",
                                        all_at(batch.publish for batch in facts.batches))
        stale = self.stale(facts)
        if not stale:
            about = self.about([message for batch in facts.batches for message in batch.messages])
            first += ", for %s: nothing that it keeps is stale" % about
        else:
            first += ": " + stale.pop(0)
        return [first] + stale + (["%s more %s" % (counted(facts.left, "message"), verb([0] * facts.left, "waits", "wait"))]
                                  if facts.left else [])

    def fetch_reset(self, facts, parts):
        """What it has lost, and what it drops."""
        lost = sum(len(batch.messages) for batch in facts.batches)
        return ["has lost messages: of the %d that waited the queue keeps only the last ones. So it resets: it drops all "
                "that it keeps, and is past all messages" % lost] + (self.stale(facts) or ["it kept nothing"])

    def lock_ok(self, facts, parts):
        """What others hold beside it."""
        lock = facts.granted[0]
        others = ["backend %d holds %s since %s" % (other.backend, MODE_NAMES[other.mode], at(other.first))
                  for other in facts.others]
        first = "is granted " + self.lock(lock)
        if others:
            return [first, "%s, which %s" % (listed(others), verb(others, "doesn't conflict", "don't conflict"))]
        return [first + ", on which no other backend has a lock"]

    def lock_held(self, facts, parts):
        """Who holds what, and since when."""
        lock = facts.refusal.bar
        return ["is refused %s on %s: backend %d holds %s since %s, and the two conflict" % (
            MODE_NAMES[parts["mode"]], self.story.called(lock.rel, lock.name), lock.backend, MODE_NAMES[lock.mode],
            at(lock.first))]

    def unlock(self, facts, parts):
        """That the name means another relation."""
        return ["releases %s again, as the name means another relation by now" % listed(
            "%s (granted at %s)" % (self.lock(lock), at(lock.first)) for lock in facts.released)]

    def scan(self, facts, parts):
        """What is scanned, and which part it is of what."""
        if parts["purpose"] == "relname":
            return self.scan_of_name(facts, parts)
        kept, rows = facts.kept, counted(parts["rows"], "row")
        scanned = SCANNED[parts["purpose"]] % dict(parts, called=self.story.called(parts["rel"], facts.kept.name))
        if not kept.is_descriptor:
            return ["scans %s: %s" % (scanned, rows)] + self.reason_to_scan(kept)
        scans = INDEX_SCANS if parts["purpose"] == "indexrow" else TABLE_SCANS
        texts = ["scans %s, scan %d of %d for its descriptor: %s" % (
            scanned, scans.index(parts["purpose"]) + 1, len(scans), rows)]
        if kept.built == facts.entry.number:
            texts.append("the descriptor is built, and kept from here on" + (
                ", though some of it is out of date since " + at(kept.outdated)
                if kept.outdated and kept.outdated < facts.entry.number else ""))
        return texts + (self.reason_to_build(kept) + self.suspended(facts) if kept.first == facts.entry.number else [])

    def reason_to_build(self, kept: Kept):
        """Why a descriptor is built: there was none, or what became of the last one."""
        last = self.earlier.get(kept)
        if last is None:
            return ["it keeps none of this relation yet"]
        if not last.built:
            return ["the build that began at %s was given up at %s" % (at(last.first), at(last.last))]
        return ["the last one, built at %s to %s, is stale since %s%s" % (
            at(last.first), at(last.built), at(last.last), ", but in use: this one is built in its place" if kept.replaced else "")]

    def suspended(self, facts: Facts):
        """Which builds wait for this one."""
        return ["%s %s for it" % (listed("the build of %s, which began at %s," % (
            self.story.called(kept.rel, kept.name), at(kept.first)) for kept in facts.suspended), verb(
                facts.suspended, "waits", "wait"))] if facts.suspended else []

    def reason_to_scan(self, kept: Kept):
        """What became of the last entry or list of this key, if there was one."""
        last = self.earlier.get(kept)
        return ["%s, is stale since %s" % (self.kept(last), at(last.last))] if last and last.last != kept.first else []

    def scan_of_name(self, facts, parts):
        """The relation that a name means, or why there is none."""
        first, reason = "looks the name %s up in pg_class: " % parts["name"], self.reason_to_scan(facts.kept)
        if facts.rows:
            return [first + "it is relation %s" % facts.rows[0].columns[0]] + reason + self.no_lock(facts)
        unseen = ["what backend %d wrote at %s isn't visible yet" % (version.transaction.backend, at(version.entry))
                  for version in facts.unseen]
        return [first + "no relation has it" + (", as " + listed(unseen) if unseen else "")] + reason

    def no_lock(self, facts: Facts):
        """Why the relation that was found isn't locked: the backend holds locks that are clear, and asks for none."""
        following = facts.following
        asks = following and following.command == facts.entry.command and following.event.kind.startswith("lock")
        if asks or not facts.own:
            return []
        return ["it asks for no lock on that, as it holds %s, clear" % listed(
            "%s since %s" % (MODE_NAMES[lock.mode], at(lock.first)) for lock in facts.own)]

    def write(self, facts, parts):
        """Which rows are changed, and what messages that leaves."""
        done = []
        for sign, (does, where) in VERBS.items():
            counts: Dict[str, int] = {}
            for change in parts["changes"]:
                if change.sign == sign:
                    counts[change.catalog] = counts.get(change.catalog, 0) + 1
            rows = ["%s %s %s" % (counted(count, "row"), where, CATALOGS[catalog]) for catalog, count in counts.items()]
            done += ["%s %s" % (does, listed(rows))] if rows else []
        texts = ["writes as transaction %d: it %s" % (parts["xid"], listed(done))]
        if facts.messages:
            texts.append("its commit has to send %s, for %s" % (
                counted(len(facts.messages), "message"), self.about(facts.messages)))
        texts += self.stale(facts)
        return texts + ["it holds %s, its new relation, and that is clear at once" % self.lock(lock)
                        for lock in facts.granted]

    def clash_row(self, facts, parts):
        """Whose name it is."""
        return ["is refused its write: %s has the name %s, since %s" % (
            self.relation(parts["rel"]), parts["name"], at(facts.refusal.since))]

    def clash_running(self, facts, parts):
        """Whose transaction has the name in use."""
        return ["is refused its write: transaction %d of backend %d, which still runs, has the name %s in use since %s" % (
            parts["xid"], facts.refusal.holder, parts["name"], at(facts.refusal.since))]

    def visible(self, facts, parts):
        """What others see from here on, and what they keep that is out of date."""
        transaction = facts.transaction
        texts = ["commits transaction %d: from here on all others see what it wrote at %s" % (
            parts["xid"], all_at(write.entry for write in transaction.writes))]
        outdated, count = facts.outdated, len(transaction.messages)
        if outdated:
            return texts + ["its %s sent yet, so nothing tells backend %s that %s %s out of date" % (
                "message isn't" if count == 1 else "%d messages aren't" % count,
                listed(str(backend) for backend in sorted({kept.backend for kept in outdated})),
                self.all_kept(outdated, facts.entry.number), verb(outdated, "is", "are"))]
        return texts + ["%s to be sent" % ("1 message is" if count == 1 else "%d messages are" % count)]

    def publish(self, facts, parts):
        """What the messages are for, and for whom they wait."""
        others = [str(backend) for backend in facts.receivers if backend != facts.entry.backend]
        left = len(facts.transaction.messages) - facts.published
        texts = ["puts %s into the queue, for %s" % (counted(parts["count"], "message"), self.about(facts.batches[0].messages))]
        whom = "%s %s" % (verb(others, "backend", "backends"), listed(others + ["itself"], 12)) if others else "itself alone"
        texts.append("%s for %s" % (verb([0] * parts["count"], "it waits", "they wait"), whom))
        return texts + (["%s left to be sent" % ("1 is" if left == 1 else "%d are" % left)] if left else [])

    def release(self, facts, parts):
        """The end of its transaction, and its locks."""
        transaction = facts.transaction
        locks = listed("%s (since %s)" % (self.lock(lock), at(lock.first)) for lock in facts.released)
        if transaction.last != facts.entry.number:
            return ["releases what it was granted in its commands %d and above: %s" % (parts["from"], locks or "nothing")]
        how = {COMMITTED: "its committed transaction %s" % transaction.xid,
               TAKEN_BACK: "its transaction %s, which is taken back" % transaction.xid}
        ends = "ends " + how.get(transaction.outcome, "its transaction, which wrote nothing")
        return [ends + (", and releases " + locks if locks else "; it has no lock to release")]

    def gone(self, facts, parts):
        """What is taken back, and what is stale by it."""
        return ["takes back what it wrote in its commands %d and above: nobody finds that any more, and its messages, for %s, "
                "are processed by itself and never sent" % (parts["from"], self.about(facts.messages))] + self.stale(facts)

    def fail(self, facts, parts):
        """That nothing is kept."""
        return ["is refused memory, and drops all that it keeps"] + self.stale(facts)

    def stop(self, facts, parts):
        """That it leaves."""
        return ["leaves the queue" + (", without the %s that wait for it" % counted(facts.left, "message")
                                      if facts.left else "")]


def sentences_of(story: Story, first=1, last=None) -> Dict[int, str]:
    """The sentences of some entries, each entry's as one text."""
    why = Why(story)
    return {facts.entry.number: why.of(facts) for facts in story.facts[first - 1:last]}
