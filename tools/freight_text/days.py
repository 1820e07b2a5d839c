"""What the records after an instance tell, kept legs and a day that is under way, and what is left of the day to be planned."""

from collections import defaultdict
from dataclasses import dataclass, field, replace
from typing import Optional

from .instances import TOLD, Instance, instance_of, least_times, number_of


@dataclass(frozen=True)
class KeptLeg:
    """A leg that is kept, when it arrives where that is told, and the line of its record."""

    tail: str
    head: str
    depart: int
    arrive: Optional[int]
    line: int


@dataclass
class Day:
    """The present, where it is told, and the kept legs of each shipment, in the order of their records."""

    now: Optional[int] = None
    legs: dict[str, list[KeptLeg]] = field(default_factory=lambda: defaultdict(list))

    def is_underway(self):
        """Whether more is told than legs that are kept."""
        return self.now is not None or any(it.arrive is not None for legs in self.legs.values() for it in legs)

    def is_settled(self, leg):
        """Whether a leg has left, or its arrival is told."""
        return leg.arrive is not None or self.now is not None and leg.depart < self.now

    def settled(self, name):
        """The legs of a shipment up to and with the last that is settled."""
        legs = self.legs.get(name, [])
        return legs[: max((place for place, it in enumerate(legs, 1) if self.is_settled(it)), default=0)]

    def promised(self, name):
        """The legs of a shipment after those."""
        return self.legs.get(name, [])[len(self.settled(name)) :]


def told_part(records):
    """The records from the first of a kept leg or of the present on, up to an answer."""
    kinds = [it.kind for it in records]
    end = kinds.index("answer") if "answer" in kinds else len(kinds)
    begin = next((place for place, kind in enumerate(kinds[:end]) if kind in TOLD), end)
    return records[begin:end]


def day_of(told):
    """What records without a fault tell after an instance."""
    day = Day()
    for it in told:
        if it.kind == "now":
            day.now = number_of(it.fields[1])
        else:
            arrive = number_of(it.fields[5]) if len(it.fields) > 5 else None
            day.legs[it.fields[1]].append(KeptLeg(*it.fields[2:4], number_of(it.fields[4]), arrive, it.line))
    return day


class Way:
    """Where a shipment is that goes by some legs, when it can go on, where it was before, and what is wrong with a leg."""

    def __init__(self, instance, shipment):
        self.instance, self.shipment = instance, shipment
        self.here, self.ready, self.arrival, self.passed, self.fault = shipment.origin, shipment.release, None, set(), None

    def go(self, leg):
        if leg.depart < self.ready:
            self.fault = self.fault or f"line {leg.line}: {self.shipment.name} leaves {self.here} at {leg.depart}, and can at {self.ready}"
        self.passed.add(self.here)
        self.here = leg.head
        self.arrival = leg.depart + self.instance.arcs[leg.tail, leg.head].time if leg.arrive is None else leg.arrive
        self.ready = self.arrival + self.instance.holds[leg.head]

    def is_delivered(self):
        return self.here == self.shipment.destination

    def rest_fault(self):
        """Why no way leads on from here in time; None where one does."""
        it = self.shipment
        if self.is_delivered():
            return f"{it.name} arrives at {self.arrival}, and is due at {it.due}" if self.arrival > it.due else None
        rest = least_times(self.instance, self.here, self.passed).get(it.destination)
        if rest is None:
            return f"no way leads on from {self.here} to {it.destination} for {it.name}, past no terminal where it was"
        arrival = self.ready + rest
        return f"from {self.here} {it.name} can be at {it.destination} at {arrival}, and is due at {it.due}" if arrival > it.due else None


def settled_way(instance, day, shipment):
    """Where a shipment stands after its settled legs: when it can go on, not before the present."""
    way = Way(instance, shipment)
    for leg in day.settled(shipment.name):
        way.go(leg)
    way.ready = max(way.ready, day.now or 0)
    return way


def stuck_fault(instance, day, shipment):
    """Why a shipment can't be carried on from its kept legs; None where it can."""
    way = settled_way(instance, day, shipment)
    for leg in day.promised(shipment.name):
        way.go(leg)
    return way.fault or way.rest_fault()


def first_stuck(instance, day):
    """The name of the first shipment that can't be carried on, and why; None where all can."""
    found = ((name, stuck_fault(instance, day, it)) for name, it in instance.shipments.items())
    return next((it for it in found if it[1]), None)


def left_of(instance, day):
    """What is left of a day on which no shipment is stuck: those that aren't delivered, from where they stand."""
    left = Instance(instance.holds, instance.arcs)
    for name, it in instance.shipments.items():
        way = settled_way(instance, day, it)
        if not way.is_delivered():
            left.shipments[name] = replace(it, origin=way.here, release=way.ready)
    return left


@dataclass(frozen=True)
class Told:
    """An instance, what is told after it, and why no plan goes on with that: the shipment that is stuck, or None."""

    instance: Instance
    day: Day
    stuck: Optional[tuple]

    def planned(self):
        """The instance that is planned: what is left of a day with which a plan goes on, or else all of it."""
        return left_of(self.instance, self.day) if self.day.is_underway() and not self.stuck else self.instance

    def duty_words(self):
        """What the plans do that are asked for; empty where every plan is."""
        if self.day.is_underway():
            return "goes on with the day"
        return "keeps the legs" if self.day.legs else ""


def told_of(records):
    """What records without a fault have up to an answer."""
    instance, day = instance_of(records), day_of(told_part(records))
    return Told(instance, day, first_stuck(instance, day) if day.legs or day.is_underway() else None)


def planned_of(records):
    """The instance that records without a fault hand on to be planned."""
    return told_of(records).planned()


def stuck_words(records, name):
    """Why the shipment that is stuck can't be carried on."""
    told = told_of(records)
    why = stuck_fault(told.instance, told.day, told.instance.shipments[name])
    return [f"no plan {told.duty_words()}: {why}"] if why else []


def promise_fault(instance, day, legs):
    """What keeps a plan from keeping the promises of a day or going on with it, by its legs of each shipment; None where nothing does."""
    for name, ways in legs.items():
        for kept, leg in zip(day.promised(name), ways):
            if (kept.tail, kept.head, kept.depart) != leg[:3]:
                return f"line {leg[4]}: {name} has to leave {kept.tail} for {kept.head} at {kept.depart}, as it is kept on line {kept.line}"
        if len(ways) < len(day.promised(name)):
            return f"{name} has {len(ways)} legs, and {len(day.promised(name))} are kept"
        passed = settled_way(instance, day, instance.shipments[name]).passed
        for leg in ways:
            if leg[1] in passed:
                return f"line {leg[4]}: {name} was at {leg[1]} before"
    return None
