"""Where trucks run: which terminals are joined, and what each arc takes and costs."""

import heapq
from dataclasses import dataclass

from .terminals import kilometres

TRUCK_HOLDS = 33


@dataclass(frozen=True)
class Arc:
    """A way from one terminal to another: minutes, and cents for a truck and for a pallet."""

    tail: str
    head: str
    time: int
    truck: int
    pallet: int

    def record(self):
        return f"arc,{self.tail},{self.head},{self.time},{TRUCK_HOLDS},{self.truck},{self.pallet}"


def pairs(terminals, hubs, count):
    """Pairs that are joined both ways: hubs with each other, each terminal with its nearest hub, then the nearest."""
    both = [(one, two) for place, one in enumerate(terminals) for two in terminals[:place]]
    near = sorted((kilometres(one, two), one[0], two[0]) for one, two in both)
    between_hubs = [it for it in near if it[1] in hubs and it[2] in hubs]
    to_hubs = []
    for name, *_ in terminals:
        if name not in hubs:
            to_hubs.append(next(it for it in near if name in it and (it[1] in hubs or it[2] in hubs)))
    chosen = list(dict.fromkeys(between_hubs + to_hubs))
    return chosen + [it for it in near if it not in chosen][: count - len(chosen)]


def least_arcs(terminals, hubs):
    """How many arcs join hubs with each other and all other terminals with one hub, both ways."""
    return hubs * (hubs - 1) + 2 * (terminals - hubs)


def arcs(terminals, hubs, count):
    """The arcs of a day, those there and back one after the other; `count` is even, and at least `least_arcs`."""
    found = []
    for distance, one, two in pairs(terminals, hubs, count // 2):
        time, truck, pallet = 20 + round(distance / 70 * 60), 9000 + 110 * distance, 80 + distance // 2
        found += [Arc(one, two, time, truck, pallet), Arc(two, one, time, truck, pallet)]
    return found


def fastest(origin, found, holds):
    """The minutes in which freight gets from a terminal to each other one, with its holds on the way."""
    leaving = {}
    for arc in found:
        leaving.setdefault(arc.tail, []).append(arc)
    least, heap = {}, [(0, origin)]
    while heap:
        minutes, here = heapq.heappop(heap)
        if here not in least:
            least[here] = minutes
            ready = minutes + (holds[here] if here != origin else 0)
            for arc in leaving.get(here, []):
                heapq.heappush(heap, (ready + arc.time, arc.head))
    return least
