"""Whether backends that wait for each other can be let by, as the server looks for it (deadlock.c). A backend waits for those who
hold its lock, and for those who wait for it before: of the second kind some can be passed.
"""
from typing import Dict, List, NamedTuple, Optional, Set

Queues = Dict[int, list]            # of relations: those who wait, in an order


class Behind(NamedTuple):
    """A backend waits for another that waits for the same relation, as that one is before it in its queue."""
    backend: int
    ahead: int
    rel: int


class Search:
    """One backend's look at those who wait."""

    def __init__(self, locks, waits, directly):
        self.locks, self.waits = locks, waits
        self.directly = directly                # of a backend: those whose locks or whose transaction it waits for
        self.orders: Queues = {}                # that are tried

    def queues(self, start, passed=()) -> Optional[Queues]:
        """The queues that are to change so that the backend waits for nobody who waits for it; None where none do it. Each place in
        a queue is given up that ends a circle, the latest found first."""
        orders = self.sorted(passed)
        if orders is None:
            return None
        self.orders = orders
        circle: List[Behind] = []
        for backend in [each for pair in passed for each in (pair.backend, pair.ahead)] + [start]:
            found = self.circle(backend)
            if found == []:
                return None
            circle = found or circle
        if not circle:
            return orders
        if len(passed) == len(self.waits):
            return None
        tries = (self.queues(start, (*passed, behind)) for behind in circle)
        return next((found for found in tries if found is not None), None)

    def circle(self, start) -> Optional[List[Behind]]:
        """Where the first circle that leads back to a backend goes over places in queues; None where there is no circle."""
        seen: Set[int] = set()

        def search(backend):
            if backend in seen:
                return [] if backend == start else None
            seen.add(backend)
            if backend not in self.waits:
                return None
            for other in self.directly(backend):
                found = search(other)
                if found is not None:
                    return found
            wait = self.waits[backend]
            for other in self.locks.ahead(wait, self.orders.get(wait.rel)):
                found = search(other)
                if found is not None:
                    return found + [Behind(backend, other, wait.rel)]
            return None

        return search(start)

    def sorted(self, passed) -> Optional[Queues]:
        """The queues of those that pass others, else as they are; None where they'd pass each other."""
        orders: Queues = {}
        for rel in {behind.rel for behind in passed}:
            left, order = list(self.locks.queues[rel]), []
            pairs = {(behind.backend, behind.ahead) for behind in passed if behind.rel == rel}
            while left:
                backends = {wait.backend for wait in left}
                last = next((wait for wait in reversed(left)
                             if not any((wait.backend, other) in pairs for other in backends)), None)
                if last is None:
                    return None
                left.remove(last)
                order.insert(0, last)
            orders[rel] = order
        return orders
