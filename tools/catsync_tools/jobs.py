"""Spreads tasks over processes.

A task is a function that yields what it has found so far after each schedule (a `Piece`, which says by `far` how far that is), the
same object each time. With
one job the tasks are done in this process, else in children of it, which are given one task after the other and send how
far they are, and at the end what they found. Children can be stopped, and then send what they have.

A task may pause, by a piece whose `is_cut` says so. It goes on in a later run, where it was begun; or, where another process has
nothing else to do, from its beginning in that.
"""
import multiprocessing
import multiprocessing.connection
import signal
import time
from typing import Dict, Iterator, List, Tuple

from .faults import Fault
from .interrupts import SIGNALS, waiting

PAUSE = 0.1             # seconds between two messages that say how far a task is


class Jobs:
    """Tasks, and what was found by those that were begun. `prepare` is called in each child before its first task."""

    def __init__(self, tasks: List, jobs, prepare):
        self.tasks, self.count, self.prepare = tasks, min(jobs, len(tasks)), prepare
        self.pieces: Dict[int, object] = {}
        self.is_done = [False] * len(tasks)     # or paused
        self.paused: Dict[int, Iterator] = {}   # of this process
        self.children: List[tuple] = []
        self.places: Dict[int, object] = {}     # in which child a task was begun
        self.is_stopped = None

    def run(self, numbers, may_pause=True) -> Iterator[Tuple[int, tuple]]:
        """Does these tasks; yields the number of a task and how far it is, again and again. What it has found is in `pieces`
        where the task is over or pauses, and of the others too once this is closed. A task that may not pause goes on."""
        for number in numbers:
            self.is_done[number] = False
        return self.run_here(numbers, may_pause) if self.count <= 1 else self.run_in_children(numbers, may_pause)

    def steps_of(self, number, may_pause):
        """What a task yields, up to its pause, if it may: then it is kept."""
        task = self.paused.pop(number, None) or self.tasks[number]()
        for piece in task:
            yield piece
            if may_pause and piece.far.is_cut:
                self.paused[number] = task
                return

    def run_here(self, numbers, may_pause):
        """Does tasks in this process."""
        for number in numbers:
            for piece in self.steps_of(number, may_pause):
                self.pieces[number] = piece
                yield number, piece.far
            self.is_done[number] = True

    def run_in_children(self, numbers, may_pause):
        """Does tasks in children."""
        if not self.children:
            context = multiprocessing.get_context("fork")
            self.is_stopped = context.Event()
            self.start_children(context)
        yield from self.hand_out(list(numbers), may_pause)

    def close(self):
        """Stops the children, and takes what they still have."""
        if self.is_stopped is not None:
            self.is_stopped.set()
        for process, end in self.children:
            self.take_rest(end)
            process.join()
        self.children = []

    def start_children(self, context):
        """Starts the children. Signals wait meanwhile, so that none comes to a child before it passes over them."""
        with waiting() as held:
            try:
                for _ in range(self.count):
                    end, other_end = context.Pipe()
                    not_its_own = [end] + [other for _, other in self.children]
                    process = context.Process(target=self.serve, args=(other_end, not_its_own, held), daemon=True)
                    process.start()
                    other_end.close()
                    self.children.append((process, end))
            except OSError as error:
                raise Fault("a process of the search can't be started: %s" % error.strerror)

    def hand_out(self, left, may_pause):
        """Hands out tasks, and takes what comes back."""
        busy = {end for _, end in self.children if self.hand_next(end, left, may_pause)}
        while busy:
            for end in multiprocessing.connection.wait(list(busy)):
                number, far, is_done = self.take(end)
                if is_done and not self.hand_next(end, left, may_pause):
                    busy.discard(end)
                yield number, far

    def hand_next(self, end, left, may_pause):
        """Hands out the next task that was begun there or nowhere, else the next one; whether there is one."""
        if not left:
            return False
        number = next((one for one in left if self.places.get(one, end) is end), left[0])
        left.remove(number)
        self.places[number] = end
        end.send((number, may_pause))
        return True

    def take(self, end):
        """One message of a child: the task, how far it is, and whether it is over."""
        try:
            number, far, piece, is_done, fault = end.recv()
        except EOFError:
            raise Fault("a process of the search ended before its time")
        if fault is not None:
            raise Fault(fault)
        if piece is not None:
            self.pieces[number] = piece
            self.is_done[number] = is_done
        return number, far, piece is not None

    def take_rest(self, end):
        """What a child that is stopped still sends."""
        try:
            end.send(None)
            while True:
                self.take(end)
        except (EOFError, OSError, Fault):
            end.close()

    def serve(self, end, not_its_own, held):
        """A child: does the tasks that it is given. Signals, all but those of this mask waiting until now, are its parent's
        to hear. The parent's ends, which it has as well, are closed, so that it ends where its parent does."""
        for number in SIGNALS:
            signal.signal(number, signal.SIG_IGN)
        signal.pthread_sigmask(signal.SIG_SETMASK, held)
        for other in not_its_own:
            other.close()
        try:
            self.prepare()
            for number, may_pause in iter(end.recv, None):
                self.serve_task(end, number, may_pause)
        except (EOFError, OSError):
            pass
        except Fault as fault:
            end.send((0, 0, None, False, str(fault)))

    def serve_task(self, end, number, may_pause):
        """Does a task, and says now and then how far it is."""
        said, piece, is_cut = time.monotonic(), None, False
        for piece in self.steps_of(number, may_pause):
            is_cut = self.is_stopped.is_set()
            if is_cut:
                break
            if time.monotonic() - said > PAUSE:
                said = time.monotonic()
                end.send((number, piece.far, None, False, None))
        if piece is not None:
            end.send((number, piece.far, piece, not is_cut, None))
