"""Random schedules."""
from typing import Dict, List

SWITCHES = (1, 2, 3, 4, 6, 9)       # of a schedule: how often the backend that goes on is put behind the others


def random_schedule(random, steps: Dict[int, int]):
    """Whose the first steps are, and in which order the backends then go on to their stop, of backends that have about so many
    steps each. There are few switches: the first of an order goes on to its stop, but at a few random places it becomes the last
    (PCT: Burckhardt, Kothari, Musuvathi, Nagarakatte: A randomized scheduler with probabilistic guarantees, ASPLOS 2010)."""
    order, left, first = random.sample(sorted(steps), len(steps)), dict(steps), []
    for place in sorted(random.randrange(sum(steps.values())) for _ in range(random.choice(SWITCHES))):
        go_on(order, left, first, place)
        running = next(backend for backend in order if left[backend])
        order.remove(running)
        order.append(running)
    return first, order


def go_on(order: List[int], left: Dict[int, int], first: List[int], place):
    """Goes on to a place in this order of backends."""
    for backend in order:
        count = min(left[backend], place - len(first))
        first += [backend] * count
        left[backend] -= count
