"""When shipments can leave, by the instance and under sides: the second reading's windows. A window is its first and its last moment."""

import math
from collections import namedtuple

from valued_records import NO_END

# What a side asks: of a shipment (but for the sides by trucks, which ask all), of an arc or a terminal, and of times.
Side = namedtuple("Side", "kind shipment arc terminal point until count", defaults=(None, None, None, 0, NO_END, 0))


def sides_of(problem, split):
    """The two sides of the fields of a split."""
    kind, *rest = split
    if kind == "trucks":
        run = {"arc": problem.arc(rest[:2]), "point": int(rest[2]), "until": int(rest[3]), "count": int(rest[4])}
        return Side("most", **run), Side("least", **{**run, "count": run["count"] + 1})
    shipment = problem.shipment(rest[0])
    if kind == "time":
        return tuple(Side(it, shipment, terminal=rest[1], point=int(rest[2])) for it in ("before", "from"))
    arc = problem.arc(rest[1:3])
    return Side("without", shipment, arc), Side("only" if kind == "arc" else "through", shipment, arc)


def is_rival(problem, one, other):
    first, second = problem.arcs[one], problem.arcs[other]
    return one != other and (first.tail == second.tail or first.head == second.head)


def meets(problem, side, k, arc, moment):
    """Whether a leg of the shipment with the number k by an arc at a whole moment is as a side asks."""
    in_run = side.arc == arc and side.point <= moment < side.until
    if side.kind in ("most", "least"):
        return not (side.kind == "most" and side.count == 0 and in_run)
    if k != side.shipment:
        return True
    tail = problem.arcs[arc].tail
    return {
        "without": lambda: arc != side.arc,
        "only": lambda: tail != problem.arcs[side.arc].tail or arc == side.arc,
        "through": lambda: not is_rival(problem, arc, side.arc),
        "before": lambda: tail != side.terminal or moment < side.point,
        "from": lambda: tail != side.terminal or moment >= side.point,
        "outside": lambda: not in_run,
    }[side.kind]()


def least_steps(problem):
    """The least sum of steps of the ways between each two terminals, and nothing for a way to where it begins."""
    least = {(one, two): 0 if one == two else math.inf for one in problem.holds for two in problem.holds}
    for _ in problem.holds:
        for arc in problem.arcs:
            for start in problem.holds:
                least[start, arc.head] = min(least[start, arc.head], least[start, arc.tail] + problem.step(arc))
    return least


def window_of(problem, least, shipment, arc):
    """The window of a shipment and an arc, or None."""
    if arc.tail == shipment.destination or arc.head == shipment.origin:
        return None
    first = shipment.release + least[shipment.origin, arc.tail]
    last = shipment.due - arc.time
    if arc.head != shipment.destination:
        onward = least[arc.head, shipment.destination] - problem.holds[shipment.destination]
        last = shipment.due - problem.step(arc) - onward
    return (first, last) if first <= last else None


def windows_of(problem):
    """For each shipment the windows of all arcs."""
    least = least_steps(problem)
    return [[window_of(problem, least, shipment, arc) for arc in problem.arcs] for shipment in problem.shipments]


def moments_of(problem, windows, sides, k):
    """For each arc the whole moments in the window of the shipment with the number k that are as the sides ask."""
    within = [range(it[0], it[1] + 1) if it else () for it in windows[k]]
    return [[m for m in moments if all(meets(problem, it, k, arc, m) for it in sides)] for arc, moments in enumerate(within)]


def windows_under(problem, windows, sides):
    """For each shipment the windows that sides narrow: of whole moments at which it can leave on a way from its origin to its destination."""
    return [row_under(problem, moments_of(problem, windows, sides, k), shipment) for k, shipment in enumerate(problem.shipments)]


def row_under(problem, moments, shipment):
    ready = {name: math.inf for name in problem.holds} | {shipment.origin: shipment.release}
    latest = {name: -1 for name in problem.holds} | {shipment.destination: math.inf}
    for _ in problem.holds:
        for arc, own in zip(problem.arcs, moments):
            ready[arc.head] = min([ready[arc.head], *(m + problem.step(arc) for m in own if m >= ready[arc.tail])])
            latest[arc.tail] = max([latest[arc.tail], *(m for m in own if m + problem.step(arc) <= latest[arc.head])])
    row = []
    for arc, own in zip(problem.arcs, moments):
        left = [m for m in own if m >= ready[arc.tail] and m + problem.step(arc) <= latest[arc.head]]
        row.append((left[0], left[-1]) if left else None)
    return row
