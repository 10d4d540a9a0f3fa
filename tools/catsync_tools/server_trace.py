"""What a server's backends have made in a play, as a history of ours, which tools/picture draws.

An entry is made where the server has made its event. Its rows, oids and numbers are those of here: a write is entered once, at
the command's last row in the server, with the rows that it writes here; a publish and a fetch have the messages that these rows
have here; of looks that follow each other and find nothing one is kept. What is made for the server alone has no entry.
"""
import re
from typing import Dict, List, Optional, Tuple

from .caches import datum_of
from .faults import Fault
from .held import Made
from .outputs import Output, entry_of
from .play import Play
from .story import Model
from .waits import CONFLICTING

MOST_FETCHED, MOST_PUBLISHED = 32, 64
OID = re.compile("(?<![^ :])[0-9]+(?![^ :;])")         # of an answer: a number that is a word, or a part of an item

Command = Tuple[int, int]


class NoUses:
    """Stands for what a picture says of commands, which needs the whole history."""

    def may_build(self, _):
        """Whether an entry may be of a descriptor's build: it may."""
        return True

    def take(self, *_):
        """One more entry."""


class Trace:
    """The history of a play, entry by entry. `fault` says why it ends early, if it does: where something was done in one of the two
    alone the rows of here don't go with what the server made."""

    def __init__(self, play: Play):
        self.play, self.lines, self.fault = play, [], ""
        self.come: Dict[int, int] = {}                      # of each backend: to which of its commands
        self.here: Dict[Command, List[str]] = {}            # of each command its entries here
        for backend, command, text in play.run.steps:
            self.here.setdefault((backend, command), []).append(text)
        self.model = Model(Output([], []))
        self.model.uses = NoUses()
        self.numbers = {there: ours for ours, there in play.oids.items()}
        self.left: Dict[Tuple[Command, str], int] = {}      # of each command and kind: how many events are still to come
        for made in play.log:
            kind = (made.backend, made.command), made.event[0]
            self.left[kind] = self.left.get(kind, 0) + 1

    def text(self):
        """The whole history, and the server's answers."""
        try:
            for made in self.play.log:
                self.take(made)
        except Fault as fault:
            self.fault = str(fault)
        names = {str(there): str(ours) for there, ours in self.numbers.items()}
        answers = ["l %d %d %s" % (command + (OID.sub(lambda found: names.get(found.group(), found.group()), answer.text),))
                   for command, answer in sorted(self.play.answers.items())
                   if not self.fault or command[1] < self.come.get(command[0], 0)]
        return "\n".join(self.lines + answers + ["end", ""])

    def take(self, made: Made):
        """What a backend has made next."""
        command = made.backend, made.command
        self.left[command, made.event[0]] -= 1
        take = getattr(self, "take_" + made.event[0], None)
        if take:
            take(command, *[self.numbers.get(part, 0) if isinstance(part, int) else part for part in made.event[1:]])
        self.come[made.backend] = made.command

    def put(self, command: Command, text):
        """One more entry."""
        number = len(self.lines) + 1
        line = "h %d %d %s" % (command + (text,))
        self.model.take(entry_of(number, line))
        self.lines.append(line)

    def transaction(self, backend):
        """A backend's transaction, or None where none runs."""
        return self.model.transactions.running.get(backend)

    def take_start(self, command):
        """A backend is there."""
        self.put((command[0], 0), "start")

    def take_stop(self, command):
        """A backend leaves."""
        self.put(command, "stop")

    def take_look(self, command, answer):
        """A look; where nothing of ours waits it finds nothing."""
        waits = self.model.log.left(command[0]) > 0
        last = self.model.last.get(command[0])
        is_again = last and last.entry.event.kind == "look" and last.entry.event.parts["answer"] == "no"
        if answer == "yes" and waits:
            self.put(command, "look yes")
        elif not waits and not (is_again and self.transaction(command[0])):
            self.put(command, "look no")

    def take_fetch(self, command, count):
        """A fetch of what waits, or a reset."""
        if count == "reset":
            self.put(command, "fetch reset")
        while count != "reset" and self.model.log.left(command[0]):
            self.put(command, "fetch %d" % min(MOST_FETCHED, self.model.log.left(command[0])))

    def take_lock(self, command, rel, mode, answer=""):
        """A lock that is new, or refused."""
        if rel and answer == "ok" and not self.model.locks.find(command[0], rel, mode):
            self.put(command, "lock %d %s ok" % (rel, mode))
        held = next((lock for lock in self.model.locks.of_others(command[0], rel) if lock.mode in CONFLICTING[mode]), None)
        if rel and answer == "held" and held:
            self.put(command, "lock %d %s held %d %s" % (rel, mode, held.backend, held.mode))

    def take_unlock(self, command, rel, mode):
        """A lock is given back."""
        if self.model.locks.find(command[0], rel, mode):
            self.put(command, "unlock %d %s" % (rel, mode))

    def take_scan(self, command, purpose, *key):
        """A scan of a relation of the script."""
        if key[0]:
            text = "scan %s %s rows " % (purpose, " ".join(map(str, key)))
            entry = entry_of(1, "h %d %d %s0" % (command + (text,)))
            self.put(command, "%s%d" % (text, len(self.model.rows.answer(command[0], datum_of(entry.event)))))

    def take_write(self, command, *_):
        """A row; the command's write is entered with the last."""
        if not self.left[command, "write"]:
            for text in self.entries(command, "write"):
                self.put(command, text)

    def entries(self, command, kind):
        """A command's entries here of a kind."""
        return [text for text in self.here.get(command, ()) if text.split(" ")[0] == kind]

    def take_visible(self, command):
        """A transaction is visible."""
        transaction = self.transaction(command[0])
        if transaction and transaction.xid is not None:
            self.put(command, "visible %d" % transaction.xid)

    def take_publish(self, command, *_):
        """Messages are sent: those for the caches first, and with the last publish all that is left."""
        transaction = self.transaction(command[0])
        if not transaction or transaction.visible is None:
            return
        caches = sum(len(write.for_caches) for write in transaction.writes)
        for end in [caches] + [len(transaction.messages)] * (not self.left[command, "publish"]):
            while transaction.published < end:
                self.put(command, "publish %d" % min(MOST_PUBLISHED, end - transaction.published))

    def take_gone(self, command):
        """A transaction is taken back."""
        transaction = self.transaction(command[0])
        if transaction and transaction.writes:
            self.put(command, "gone %d" % transaction.command)

    def take_release(self, command):
        """Locks are released, with the last release of a command; what a level wrote is taken back before."""
        transaction = self.transaction(command[0])
        if self.left[command, "release"] or not transaction:
            return
        level = self.level(command)
        if level is not None and any(write.command >= level for write in transaction.writes) and self.entries(command, "gone"):
            self.put(command, "gone %d" % level)
        answer = self.play.answers.get(command)
        if level is not None or self.entries(command, "release") or answer and answer.text.startswith("error "):
            self.put(command, "release %d" % (transaction.command if level is None else level))

    def level(self, command) -> Optional[int]:
        """The first command of the level that a command releases the locks of here, or None where it is the transaction."""
        released = [int(text.split(" ")[1]) for text in self.entries(command, "release")]
        return next((number for number in released if not self.begins(command[0], number)), None)

    def begins(self, backend, number):
        """Whether a transaction begins with a command here."""
        running: Optional[int] = None
        for own, command, text in self.play.run.steps:
            if own == backend and text not in ("start", "stop"):
                running = command if running is None else running
                if command == number and running == number:
                    return True
                running = None if text == "release %d" % running else running
        return False
