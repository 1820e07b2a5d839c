"""An instance and the prices and the tree of a certificate, as the second reading of values takes them from text. Faults aren't looked for."""

import csv
from dataclasses import dataclass, field

NO_END = 100_001  # past all moments


@dataclass(frozen=True)
class Arc:
    tail: str
    head: str
    time: int
    capacity: int
    truck: int
    freight: int


@dataclass(frozen=True)
class Shipment:
    name: str
    origin: str
    destination: str
    size: int
    release: int
    due: int


@dataclass
class Problem:
    """An instance: holds by terminal, and arcs and shipments in their order."""

    holds: dict = field(default_factory=dict)
    arcs: list = field(default_factory=list)
    shipments: list = field(default_factory=list)

    def arc(self, ends):
        """The number of the arc with these ends."""
        return next(number for number, arc in enumerate(self.arcs) if [arc.tail, arc.head] == ends)

    def shipment(self, name):
        """The number of the shipment of this name."""
        return next(number for number, it in enumerate(self.shipments) if it.name == name)

    def step(self, arc):
        return arc.time + self.holds[arc.head]


@dataclass
class Span:
    arc: int
    point: int
    until: int
    money: int
    charge: int
    weights: dict = field(default_factory=dict)
    groups: list = field(default_factory=list)


@dataclass(frozen=True)
class Gift:
    arc: int
    point: int
    until: int
    side: str
    amount: int


@dataclass
class Table:
    """A table with what stands beside it; a share is under its class, as its weights and V."""

    moments: bool = False
    shares: dict = field(default_factory=dict)
    spans: list = field(default_factory=list)
    gifts: list = field(default_factory=list)


@dataclass
class Certificate:
    claim: int = 0
    scale: int = 1_000_000
    unit: int = 1
    points: list = field(default_factory=list)  # terminal, time and round
    tables: list = field(default_factory=list)
    tree: list = field(default_factory=list)  # the fields of its lines


def read(text):
    """The instance and the certificate of a text."""
    problem, stated, weights = Problem(), Certificate(), None
    for kind, *rest in csv.reader(text.splitlines()):
        if kind == "terminal":
            problem.holds[rest[0]] = int(rest[1]) if rest[1:] else 0
        elif kind == "arc":
            problem.arcs.append(Arc(*rest[:2], *map(int, rest[2:])))
        elif kind == "shipment":
            problem.shipments.append(Shipment(*rest[:3], *map(int, rest[3:])))
        elif kind == "answer":
            stated.claim = int(rest[2] if rest[0] == "unfinished" else rest[1])
        elif kind in ("scale", "unit"):
            setattr(stated, kind, int(rest[0]))
        elif kind == "point":
            stated.points.append((rest[0], *map(int, rest[1:])))
        elif kind in ("split", "leaf", "narrow"):
            stated.tree.append([kind, *rest])
        else:
            weights = read_price(problem, stated.tables, kind, rest, weights)
    return problem, stated


def read_price(problem, tables, kind, rest, weights):
    """Takes a line of tables, where it is one; where the weights of the line go that may follow it."""
    if kind == "table":
        tables.append(Table(moments=rest[1:] == ["moments"]))
    elif kind == "share":
        weights = {}
        tables[-1].shares[problem.arc(rest[:2]), int(rest[2])] = (weights, int(rest[3]))
    elif kind == "span":
        tables[-1].spans.append(Span(problem.arc(rest[:2]), *map(int, rest[2:])))
        weights = tables[-1].spans[-1].weights
    elif kind == "weight":
        weights[problem.shipment(rest[0])] = int(rest[1])
    elif kind == "group":
        tables[-1].spans[-1].groups.append(int(rest[0]))
    elif kind == "gift":
        tables[-1].gifts.append(Gift(problem.arc(rest[:2]), int(rest[2]), int(rest[3]), rest[4], int(rest[5])))
    return weights
