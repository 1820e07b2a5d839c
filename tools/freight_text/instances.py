"""The instance of records that have no fault, and the words of its fields."""

import heapq
from dataclasses import dataclass, field

from .records import Record

MOST = {"terminal": 100, "arc": 1000, "shipment": 500}
AMOUNT = 10**18
LATEST = 100_000
# The first fields of what may follow an instance and come before an answer: kept legs, and the present.
TOLD = ("kept", "now")

# Beyond so many digits a number is above every limit.
MANY_DIGITS = 60

# The fields of each kind of record after the first: what it is called, and its least and greatest number (None: a name).
FIELDS = {
    "terminal": (("NAME", None), ("HOLD", (0, 1000))),
    "arc": (("FROM", None), ("TO", None), ("TIME", (1, LATEST)), ("CAPACITY", (1, AMOUNT)), ("TRUCK", (0, AMOUNT)), ("FREIGHT", (0, AMOUNT))),
    "shipment": (("NAME", None), ("FROM", None), ("TO", None), ("SIZE", (1, AMOUNT)), ("RELEASE", (0, LATEST)), ("DUE", (0, LATEST))),
}


def number_of(digits):
    """The number that digits write, of any count; where it is above every limit, some number that is too."""
    return int(digits.lstrip("0")[:MANY_DIGITS] or "0")


@dataclass(frozen=True)
class Arc:
    tail: str
    head: str
    time: int
    capacity: int
    truck: int
    freight: int
    line: int


@dataclass(frozen=True)
class Shipment:
    name: str
    origin: str
    destination: str
    size: int
    release: int
    due: int
    line: int


@dataclass
class Instance:
    """Terminals with their holds, arcs by their two ends and shipments by their names, each in the input's order."""

    holds: dict[str, int] = field(default_factory=dict)
    arcs: dict[tuple[str, str], Arc] = field(default_factory=dict)
    shipments: dict[str, Shipment] = field(default_factory=dict)

    def add(self, record: Record):
        words = record.fields
        if record.kind == "terminal":
            self.holds[words[1]] = number_of(words[2]) if len(words) > 2 else 0
        elif record.kind == "arc":
            self.arcs[words[1], words[2]] = Arc(words[1], words[2], *map(number_of, words[3:7]), record.line)
        else:
            self.shipments[words[1]] = Shipment(*words[1:4], *map(number_of, words[4:7]), record.line)


def instance_of(records):
    """The instance of records that the program read without a fault; of what is told after it and of a certificate nothing is taken."""
    instance = Instance()
    for record in records:
        if record.kind in ("answer", *TOLD):
            break
        instance.add(record)
    return instance


def part_from(records, kind):
    """The records from the first of a kind on."""
    for place, record in enumerate(records):
        if record.kind == kind:
            return records[place:]
    return []


def certificate_part(records):
    return part_from(records, "answer")


def trucks_for(size, capacity):
    return -(-size // capacity)


def alone_cost(instance):
    """What all shipments cost that go over every arc alone, which the weight multiplies by 65,536 and the scale."""
    return sum(
        arc.freight * it.size + arc.truck * trucks_for(it.size, arc.capacity)
        for it in instance.shipments.values()
        for arc in instance.arcs.values()
    )


def least_times(instance, origin, avoided=frozenset()):
    """The least time of a walk from a terminal to each other, with the holds of the terminals between, past none to avoid."""
    outgoing = {}
    for arc in instance.arcs.values():
        outgoing.setdefault(arc.tail, []).append(arc)
    times, queue = {}, [(0, origin)]
    while queue:
        time, here = heapq.heappop(queue)
        if here in times:
            continue
        times[here] = time
        held = time + (instance.holds[here] if here != origin else 0)
        for arc in outgoing.get(here, ()):
            if arc.head not in times and arc.head not in avoided:
                heapq.heappush(queue, (held + arc.time, arc.head))
    return times
