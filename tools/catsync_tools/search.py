"""The schedules under which tools/explore runs a script, and what they lead to."""
import contextlib
import os
import random
import re
from typing import Dict, List, NamedTuple, Optional, Pattern, Set, Tuple

from .access import Accesses
from .findings import Answers, Findings, without_places
from .jobs import Jobs
from .history import history_of
from .orders import WHOLE, Search
from .outputs import PLACE
from .program import Program
from .runner import Runner
from .schedules import random_schedule
from .scripts import Turns
from .sentences import about
from .serial import SerialRuns, WholeAccesses, commands_of, transactions_of
from .shares import shares
from .turns import fewest_turns
from .walks import KnownWalks, Walks

FIRST = 256             # orders, before a search is split
SHARES = 64             # of a search that is split
SHARES_OF_PART = 16     # of each part of one
FAR_OVER = 10           # times as many orders as are to be run: no more than the first are
CHUNK = 64              # random schedules, of a task
MOST_SERIAL = 1000      # serial orders of each kind

TRANSACTIONS, COMMANDS = "transactions", "commands"     # what is made one after the other in a serial order


class Far(NamedTuple):
    """How far a task is: how many schedules it has run, and about which part of them that is."""
    schedules: int
    part: float
    is_cut: bool = False    # whether it has more than were to be run of it


class Piece:
    """What a task has found."""

    def __init__(self, places):
        self.findings = Findings(places)
        self.schedules, self.part, self.is_cut = 0, 0.0, False
        self.found: Optional[Turns] = None      # the schedule that is looked for
        self.reached: Dict[int, Tuple[Turns, Answers]] = {}     # of what is expected (trial.py)
        self.came: Dict[int, Dict[str, None]] = {}              # what came in its place

    @property
    def far(self):
        """How far it is."""
        return Far(self.schedules, self.part, self.is_cut)


class Settings(NamedTuple):
    """What is asked of a search."""
    places: bool = False                # answers that name other entries are other answers
    wanted: Tuple[Pattern, ...] = ()    # the texts that are looked for
    only_interleaved: bool = False      # answers of serial orders are passed over
    seed: str = "1"                     # of random schedules
    jobs: int = 1                       # processes


class Exploration:
    """A script, what is asked of it, and what was found so far."""

    def __init__(self, settings: Settings, source, program, progress):
        self.settings, self.source, self.progress = settings, source, progress
        self.program = Program(program)
        self.runner = Runner(source, self.program)
        self.accesses = Accesses(settings.places, self.runner.past)
        walks = Walks if settings.places else KnownWalks
        self.walks = walks(self.runner.run, self.accesses)
        self.findings = Findings(settings.places)
        self.serial: Dict[Answers, str] = {}    # the answers of serial orders, each with the first kind that has them
        self.is_serial_over = True
        self.schedules = 0
        self.is_random, self.is_over = False, False
        self.found: Optional[Turns] = None      # the schedule that was looked for
        self.far: List[Far] = []                # how far the last tasks came
        self.guess: Optional[int] = None        # about how many orders there are, where these are more than are to be run
        self.is_guessed = False                 # that they are more
        self.orders_shown = 0                   # how many were made, as was shown last

    # What is found

    @property
    def is_found(self):
        """Whether what is looked for is found."""
        return self.found is not None

    @property
    def looks_for(self):
        """Whether anything is looked for."""
        return bool(self.settings.wanted)

    def is_enough(self, piece: Piece, _before: Set[int]):
        """Whether what is looked for is found with what a task has found, after what those before it have."""
        return piece.found is not None

    def learn(self, piece: Piece):
        """Takes what a task has found."""
        self.findings.merge(piece.findings.sets)

    def add(self, piece: Piece, answers, steps):
        """One more schedule of a task; whether it is the one that is looked for."""
        piece.schedules += 1
        piece.findings.add(piece.findings.key(answers), steps)
        if self.settings.wanted and self.is_wanted(answers, steps):
            piece.found = fewest_turns(steps).turns
        return piece.found is not None

    def is_wanted(self, answers, steps):
        """Whether each text that is looked for is in an entry or an answer of a schedule."""
        if self.settings.only_interleaved and self.is_serial(answers):
            return False
        entries = self.runner.past + [(step.backend, step.command, step.text) for step in steps]
        lines = ["h %d %d %s" % entry for entry in entries] + [PLACE.sub("", answer) for answer in answers]
        return all(any(wanted.search(line) for line in lines) for wanted in self.settings.wanted)

    def is_serial(self, answers):
        """Whether a serial order of commands has these answers."""
        return without_places(answers) in self.serial

    # Serial orders

    def run_serial(self):
        """Runs the serial orders, first those of transactions. What they have led to is kept where a signal ends them too."""
        commands = self.source.script.commands()
        transactions = transactions_of(commands)
        try:
            self.run_serial_of(TRANSACTIONS, transactions)
            if not self.is_found and transactions != commands_of(commands):
                self.run_serial_of(COMMANDS, commands_of(commands))
        except KeyboardInterrupt:
            self.is_serial_over = False
            raise
        finally:
            self.findings.start_counting()

    def run_serial_of(self, kind, groups):
        """Runs the serial orders of transactions or of commands."""
        piece = Piece(self.settings.places)
        try:
            self.add_serial(piece, kind, SerialRuns(self.runner, groups))
        finally:
            self.learn(piece)
        self.found = piece.found

    def add_serial(self, piece: Piece, kind, runs: SerialRuns):
        """Adds the serial orders, until one is looked for."""
        search = Search(Walks(runs.run, WholeAccesses(self.runner.past)), self.runner.backends)
        for answers, _ in search.orders():
            if answers is None:
                continue
            if piece.schedules == MOST_SERIAL:
                self.is_serial_over = False
                break
            self.serial.setdefault(without_places(answers), kind)
            self.progress.show(0, 1, "%d serial orders of %s" % (piece.schedules, kind))     # how many there are isn't known
            if self.add(piece, answers, history_of(runs.last.steps, self.accesses).steps):
                break

    # All orders

    def orders_of(self, share, most=None):
        """A task: all orders of a share, with a pause after the first ones, so many."""
        def task():
            """What is found, after each order."""
            piece, search = Piece(self.settings.places), Search(self.walks, self.runner.backends, share)
            yield piece
            for answers, history in search.orders():
                if answers is None:
                    continue
                piece.part = search.done
                if piece.schedules == most:
                    piece.is_cut = True
                    yield piece
                    piece.is_cut = False
                found = self.add(piece, answers, history.steps)
                yield piece
                if found:
                    return
        return task

    def run_orders(self, most):
        """Runs all orders where there are at most so many; whether that is so. Where it isn't, the guess is that of the first
        ones, which is the same for any number of processes, but more than were run. Where that is FAR_OVER times as many, no
        others are run: the corner of the tree that they would be is left to random schedules."""
        if self.do([self.orders_of(WHOLE)], min(most, FIRST), 1, "orders", most):
            return True
        self.guess = guess_of(self.far) or 0
        self.is_guessed = FIRST < most and self.guess >= FAR_OVER * most
        if FIRST < most and not self.is_guessed and self.run_shares(self.shares(SHARES), most):
            return True
        self.guess = max(self.guess, most + 1)
        return False

    def run_shares(self, all_shares, most):
        """The same in shares. Where something is looked for the first orders of each share are run first, as many of each, so
        that these are the same for any number of processes; and then all of those shares that have more, where that is within
        the limit: what is found there counts in no other case."""
        if not self.looks_for:
            return self.do([self.orders_of(share) for share in all_shares], most, self.settings.jobs, "orders")
        part = most // len(all_shares)
        return self.do([self.orders_of(share, part) for share in all_shares], most, self.settings.jobs, "orders", in_rounds=True)

    def shares(self, count):
        """The shares of the search."""
        return shares(self.walks, self.runner.backends, count)

    def run_part(self, part, count):
        """Runs one part of the search, of so many."""
        mine = self.shares(SHARES_OF_PART * count)[part - 1::count]
        self.do([self.orders_of(share) for share in mine], None, self.settings.jobs, "orders")

    # Random schedules

    def drawn(self, numbers):
        """A task: the random schedules of these numbers."""
        def task():
            """What is found, after each schedule."""
            piece = Piece(self.settings.places)
            yield piece
            for number in numbers:
                draw = random.Random("%s/%d" % (self.settings.seed, number))
                run = self.runner.run(*random_schedule(draw, self.runner.steps))
                found = self.add(piece, run.answers, history_of(run.steps, self.accesses).steps)
                yield piece
                if found:
                    return
        return task

    def run_random(self, count, part=1, parts=1):
        """Runs so many random schedules, or a part of them. What was found before isn't counted any more."""
        self.findings.start_counting()
        numbers = range(part, count + 1, parts)
        self.is_random = True
        self.do([self.drawn(numbers[at:at + CHUNK]) for at in range(0, len(numbers), CHUNK)], None, self.settings.jobs,
                "random schedules", len(numbers))

    # Tasks

    def do(self, tasks, most, count, kind, shown=None, in_rounds=False):
        """Does tasks until one of them finds what is looked for; in rounds, up to the pause of each, and then all of them to the end.
        Whether they came to that before they had more schedules than so many: otherwise nothing is kept of several tasks, but for
        the first round's, since what they had found by then isn't the same each time."""
        jobs = Jobs(tasks, count, self.program.split_off)
        self.far = [Far(0, 0.0)] * len(tasks)
        self.is_over, is_within = False, True
        self.progress.begin()
        try:
            with contextlib.closing(jobs):
                is_within = self.watch(jobs, range(len(tasks)), most, (shown or most, kind))
                if in_rounds:
                    is_within = self.to_the_end(jobs, most, (shown or most, kind))
        finally:
            if is_within or len(tasks) == 1:
                self.keep(jobs)
        self.is_over = is_within
        return is_within

    def watch(self, jobs, numbers, most, shown, to_end=False):
        """Does these tasks, until one has found what is looked for, if not to the end; whether they stay within the limit."""
        for number, far in jobs.run(numbers, may_pause=not to_end):
            if far.schedules >= self.far[number].schedules:     # where it was begun anew it isn't as far yet
                self.far[number] = far
            self.program.interrupts.check()
            self.show(self.far, *shown)
            if not to_end and self.first_found(jobs) is not None:
                return True
            if most is not None and sum(one.schedules for one in self.far) > most:
                return False
        return True

    def to_the_end(self, jobs, most, shown):
        """The second round: all tasks that have more, if the first one hasn't found what is looked for; whether all is within the limit."""
        if self.first_found(jobs) is not None:
            return True
        self.keep(jobs)
        self.guess = max(self.guess or 0, guess_of(self.far) or 0)
        left = [number for number, far in enumerate(self.far) if far.is_cut]
        return self.watch(jobs, left, most, shown, to_end=True)

    def first_found(self, jobs):
        """The first task that has found what is looked for, if all before it have come to their end without it."""
        if not self.looks_for:
            return None
        before = set()
        for number, is_done in enumerate(jobs.is_done):
            piece = jobs.pieces.get(number)
            if piece is not None and self.is_enough(piece, before):
                return piece
            if not is_done:
                return None
        return None

    def keep(self, jobs):
        """Keeps what the tasks have found."""
        found = self.first_found(jobs)
        self.findings.start_counting()
        self.schedules = 0
        for number, piece in sorted(jobs.pieces.items()):
            self.learn(piece)
            self.schedules += piece.schedules
            if piece is found:
                break
        self.found = found.found if found is not None else None

    def show(self, far, most, kind):
        """Shows how far the search is; of orders also about how many there are, once it is split: the first ones alone have seen
        too little of the tree, so that the guess would be far too low, and with it the time that is left. Where there are more than
        are to be run it shows what comes after these."""
        done, guess = sum(one.schedules for one in far), guess_of(far) if len(far) > 1 else None
        count = done
        if kind == "orders":        # the first ones are made again in shares
            count = self.orders_shown = max(done, self.orders_shown)
        text = "%d of at most %d %s, %s" % (count, most, kind, self.so_far()) if most else "%d %s" % (count, kind)
        if guess is not None and guess >= done:
            text += "; some %s by an estimate" % about(guess) if int(about(guess)) >= count else ""
        then = ", and then %d random schedules" % most if most and guess is not None and guess > most else ""
        most = min(guess, most or guess) if guess is not None and guess >= done else most
        is_told = most and (guess is not None or kind != "orders")
        self.progress.show(done if is_told else 0, most or 1, text, then)

    def so_far(self):
        """What was found before the tasks at hand."""
        return "%d sets of answers" % len(self.findings.sets)


def guess_of(far):
    """About how many orders there are, by how far each task is: one that isn't begun is guessed to have as many as others. None
    where nothing is known."""
    begun = [one.schedules / one.part for one in far if one.schedules and one.part]
    return round(sum(begun) * len(far) / len(begun)) if begun else None


def lines_of(run):
    """The entries and answers of a run, without places."""
    return PLACE.sub("", run.output.decode("ascii")).splitlines()


def wanted_of(text):
    """The pattern of a text that is looked for: `*` stands for any text within a line."""
    return re.compile(".*".join(re.escape(part) for part in PLACE.sub("", text).split("*")))


def processors():
    """How many processors this process may use."""
    return len(os.sched_getaffinity(0)) if hasattr(os, "sched_getaffinity") else os.cpu_count() or 1
