"""What a leaf is worth, and which classes a narrowing bars: the second reading of both, from docs/formats.md and docs/model.md.

Sets of shipments and walks are gone through as they are said, so this serves small instances. Sizes are counted as they are, which is
what grains come to where all sizes together have few of them.
"""

import heapq
import math
from collections import Counter
from functools import cached_property
from itertools import combinations

from valued_records import NO_END, Table
from valued_windows import Side, moments_of, windows_under

MOST_WAYS, MOST_NODES = 4, 65_536


def points_of(problem, added, number):
    """The points of each terminal as of a round, in order."""
    points = {name: {0} for name in problem.holds}
    for it in problem.shipments:
        points[it.origin].add(it.release)
        points[it.destination].add(it.due)
    for name, time, own in added:
        if own <= number:
            points[name].add(time)
    return {name: sorted(it) for name, it in points.items()}


def floor(points, moment):
    return max(it for it in points if it <= moment)


def ways_fit(problem, scale):
    """Whether sums of prices fit over sixteen times the points."""
    alone = sum(arc.freight * it.size + arc.truck * -(-it.size // arc.capacity) for arc in problem.arcs for it in problem.shipments)
    return 16 * scale < 2**32 and 16 * scale * MOST_NODES * alone < 2**127


class Node:
    """A node under sides, priced by a kind and a mode: over windows, and over points as of a round."""

    def __init__(self, problem, scale, windows, points, sides, price):
        """The price has the kind, the table (for `linear` and `even` an empty one) and whether forced classes are paid whole."""
        self.problem, self.scale, self.points, self.sides = problem, scale, points, sides
        self.kind, self.table, self.forced = price
        self.windows = windows_under(problem, windows, sides) if self.table.moments else windows
        self.numbers = range(len(problem.shipments))
        self.allowed = [self.allowed_of(k) for k in self.numbers]
        self.chains = [self.chain_of(k) if self.forced else [] for k in self.numbers]
        self.free = {it for chain in self.chains for it in chain}

    def allowed_of(self, k):
        """The classes that are allowed for a shipment, in order: arcs with points."""
        moments = moments_of(self.problem, self.windows, self.sides, k)
        return sorted({(arc, floor(self.points[self.problem.arcs[arc].tail], m)) for arc, own in enumerate(moments) for m in own})

    def chain_of(self, k):
        here, met, chain = self.problem.shipments[k].origin, set(), []
        while here != self.problem.shipments[k].destination and here not in met:
            leaving = [it for it in self.allowed[k] if self.problem.arcs[it[0]].tail == here]
            if len(leaving) != 1:
                break
            met.add(here)
            chain += leaving
            here = self.problem.arcs[leaving[0][0]].head
        return chain

    def head(self, k, kind):
        """Where and from which point on a shipment is ready after a class."""
        number, point = kind
        arc = self.problem.arcs[number]
        begun = max(point, self.windows[k][number][0]) if self.table.spans else point
        return arc.head, floor(self.points[arc.head], begun + self.problem.step(arc))

    def holding(self, kind):
        """The spans that hold for a class."""
        return [it for it in self.table.spans if it.arc == kind[0] and it.point <= kind[1] < it.until]

    def truck_price(self, k, kind):
        arc, size = self.problem.arcs[kind[0]], self.problem.shipments[k].size
        linear = size * (self.scale * arc.truck // arc.capacity)
        if kind in self.table.shares:
            weights, by_size = self.table.shares[kind]
            return weights.get(k, 0) + size * by_size
        users = [self.problem.shipments[it].size for it in self.numbers if kind in self.allowed[it]]
        if self.kind == "even" and sum(users) <= arc.capacity:
            return self.scale * arc.truck // len(users)
        return linear

    def cost(self, k, kind):
        """What a class costs a shipment: its price, and its freight."""
        held = self.holding(kind)
        price = sum(it.weights.get(k, 0) for it in held) if held else self.truck_price(k, kind)
        freight = self.scale * self.problem.arcs[kind[0]].freight * self.problem.shipments[k].size
        return (0 if kind in self.free else price) + freight

    def ways(self, k):
        """The arcs by which a shipment's walks go."""
        if not self.table.spans or not ways_fit(self.problem, self.scale):
            return []
        return [it.arc for it in self.sides if it.kind == "through" and it.shipment == k][:MOST_WAYS]

    def least(self, k, wanted):
        """The least cost of a walk of a shipment that has a class of each of some tests, or None. What it has so far is told bit by bit."""
        shipment, all_had = self.problem.shipments[k], (1 << len(wanted)) - 1
        bits = {kind: sum(1 << at for at, test in enumerate(wanted) if test(kind)) for kind in self.allowed[k]}
        steps = [(kind, self.cost(k, kind), self.head(k, kind)) for kind in self.allowed[k]]
        least, heap = {}, [(0, shipment.origin, 0, 0)]
        while heap:
            cost, here, ready, had = heapq.heappop(heap)
            if (here, had) == (shipment.destination, all_had):
                return cost
            if least.setdefault((here, ready, had), cost) < cost:
                continue
            for kind, own, (there, after) in steps:
                onward = (there, after, had | bits[kind])
                if self.problem.arcs[kind[0]].tail == here and kind[1] >= ready and cost + own < least.get(onward, math.inf):
                    least[onward] = cost + own
                    heapq.heappush(heap, (cost + own, *onward))
        return None

    @cached_property
    def least_costs(self):
        """The least cost of each shipment over the walks that go by its ways, or None."""
        return [self.least(k, [lambda kind, way=way: kind[0] == way for way in self.ways(k)]) for k in self.numbers]

    def is_empty(self):
        return None in self.least_costs

    def value(self, made=None):
        """What the node is worth, in parts of a unit, or None; with `made` where a shipment is made to go by a class, as these two tell."""
        costs = list(self.least_costs)
        if None in costs or not self.are_charges_paid:
            return None
        if made:
            costs[made[0]] = self.least(made[0], [lambda kind: kind == made[1]])
            if costs[made[0]] is None:
                return None
        charges = sum(it.charge for it in self.charged())
        return self.given(max(0, self.bases() + sum(costs) - charges))

    def bases(self):
        """What the trucks of forced classes cost."""
        loads = Counter()
        for k, chain in enumerate(self.chains):
            for kind in chain:
                loads[kind] += self.problem.shipments[k].size
        arcs = self.problem.arcs
        return self.scale * sum(arcs[kind[0]].truck * -(-load // arcs[kind[0]].capacity) for kind, load in loads.items())

    def charged(self):
        """The spans that are charged."""
        classes = {kind for own in self.allowed for kind in own} - self.free
        return [it for it in self.table.spans if any(it in self.holding(kind) for kind in classes)]

    @cached_property
    def are_charges_paid(self):
        """Whether the charges pay that are tested at a node: by a table by moments those of spans that are charged."""
        return not self.table.moments or all(self.needed_charge(it) <= it.charge for it in self.charged())

    def needed_charge(self, span):
        """The least charge by which a span pays for its weights."""
        arc = self.problem.arcs[span.arc]
        ends = [it for it in self.points[arc.tail] if it >= span.until]
        runs = zip([span.point, *span.groups], [*span.groups, min(ends, default=NO_END)])
        return sum(self.needed_part(span, arc, run) for run in runs)

    def needed_part(self, span, arc, run):
        windows = {k: self.windows[k][span.arc] for k in span.weights}
        leaving = [k for k, it in windows.items() if it and it[1] >= run[0] and it[0] < run[1]]
        sets = [chosen for count in range(1, len(leaving) + 1) for chosen in combinations(leaving, count)]
        return max([0, *(self.weight_above(span, arc, it) for it in sets)])

    def weight_above(self, span, arc, chosen):
        """By how much the weights of a set pass the money for its trucks."""
        size = sum(self.problem.shipments[k].size for k in chosen)
        return sum(span.weights[k] for k in chosen) - span.money * -(-size // arc.capacity)

    def given(self, value):
        """A value with what the gifts give, or None where a gift has no number, no such end, or stands beside forced classes."""
        least, most, due = 0, 0, max((it.due for it in self.problem.shipments), default=-1)
        for gift in self.table.gifts:
            points = self.points[self.problem.arcs[gift.arc].tail]
            counts = [it.count for it in self.sides if (it.kind, *it[2:3], *it[4:6]) == (gift.side, gift.arc, gift.point, gift.until)]
            if self.forced or not counts or gift.point not in points or (gift.until not in points and gift.until <= due):
                return None
            if gift.side == "least":
                least += gift.amount * max(counts)
            else:
                most += gift.amount * min(counts)
        return max(0, value + least - most)

    def bars(self, reaches):
        """The bars of the node: of each shipment the allowed classes that no walk has, or by which the node's value reaches what is asked."""
        if self.value() is None or not ways_fit(self.problem, self.scale):
            return []
        pairs = [(k, kind) for k in self.numbers for kind in self.allowed[k]]
        return [self.bar(k, kind) for k, kind in pairs if self.is_barred(k, kind, reaches)]

    def is_barred(self, k, kind, reaches):
        through = self.value(made=(k, kind))
        return through is None or reaches(through)

    def bar(self, k, kind):
        later = [it for it in self.points[self.problem.arcs[kind[0]].tail] if it > kind[1]]
        return Side("outside", k, kind[0], point=kind[1], until=min(later, default=NO_END))


def price_of(tables, kind, mode):
    """The price of a leaf or a narrowing, by the fields of its line."""
    table = tables[int(kind) - 1] if kind.isdigit() else Table()
    return kind, table, mode == "forced"
