"""The timetable of an answer: its legs and departures, with what they cost."""

from dataclasses import dataclass

from .days import told_of
from .instances import certificate_part, trucks_for
from .records import records_of


@dataclass(frozen=True)
class Leg:
    shipment: str
    tail: str
    head: str
    depart: int
    arrive: int


@dataclass(frozen=True)
class Departure:
    tail: str
    head: str
    depart: int
    arrive: int
    trucks: int
    load: int
    capacity: int

    @property
    def use(self):
        """The part of the trucks' capacity that is used, in percent."""
        return 100 * self.load // (self.trucks * self.capacity) if self.trucks else 0

    @property
    def key(self):
        """What tells a departure from every other."""
        return (self.tail, self.head, self.depart)


class Timetable:
    """An instance, the answer's kind and cost, and the legs and departures as they are printed.

    Both are bytes without a fault: `page.inputs` looks for faults before. Of a day that is under way the instance is what is left.
    """

    def __init__(self, instance_data, answer_data):
        self.told = told_of(records_of(instance_data))
        self.instance = self.told.planned()
        lines = certificate_part(records_of(answer_data))
        self.answer = lines[0].fields if lines else ("answer", "none")
        self.legs = [Leg(*it.fields[1:4], int(it.fields[4]), int(it.fields[5])) for it in lines if it.kind == "leg"]
        self.departures = [self.departure(it.fields) for it in lines if it.kind == "truck"]
        self.claims = [it for it in lines if it.kind in ("point", "table", "split", "leaf", "narrow")]
        self.places = {it.key: place for place, it in enumerate(self.departures)}
        self.freight, self.onward = {}, {}
        for leg in self.legs:
            self.freight.setdefault((leg.tail, leg.head, leg.depart), []).append(leg.shipment)
            self.onward[leg.shipment, leg.tail] = leg

    def departure(self, fields):
        arc = self.instance.arcs[fields[1], fields[2]]
        depart, trucks, load = map(int, fields[3:6])
        return Departure(arc.tail, arc.head, depart, depart + arc.time, trucks, load, arc.capacity)

    def departure_of(self, leg):
        """The place among the departures of the one by which a leg goes."""
        return self.places[leg.tail, leg.head, leg.depart]

    def legs_by_shipment(self):
        found = {name: [] for name in self.instance.shipments}
        for leg in self.legs:
            found[leg.shipment].append(leg)
        return found

    def aboard(self, departure):
        """The shipments that leave by a departure."""
        return self.freight.get(departure.key, [])

    def leaving(self, terminal):
        """The departures from a terminal, by the moment at which they leave."""
        return sorted((it for it in self.departures if it.tail == terminal), key=lambda it: it.depart)

    def arriving(self, terminal):
        """The departures to a terminal, by the moment at which they arrive."""
        return sorted((it for it in self.departures if it.head == terminal), key=lambda it: it.arrive)

    def next_leg(self, shipment, terminal):
        """The leg by which a shipment leaves a terminal; None at its destination."""
        return self.onward.get((shipment, terminal))

    def used_terminals(self):
        """The terminals where a truck leaves or arrives, in the instance's order."""
        used = {name for it in self.departures for name in (it.tail, it.head)}
        return [name for name in self.instance.holds if name in used]

    def costs_by_arc(self):
        """For each arc that is used: its trucks, what they cost, and what the flow over it costs."""
        found = {}
        for it in self.departures:
            arc = self.instance.arcs[it.tail, it.head]
            trucks, money, flow = found.get((it.tail, it.head), (0, 0, 0))
            found[it.tail, it.head] = (trucks + it.trucks, money + it.trucks * arc.truck, flow + it.load * arc.freight)
        return found

    def costs(self):
        """All trucks, what they cost, and what the flow costs."""
        return tuple(sum(it[place] for it in self.costs_by_arc().values()) for place in range(3))

    def trucks_alone(self):
        """How many trucks would run if no two shipments shared one."""
        return sum(trucks_for(self.instance.shipments[it.shipment].size, self.instance.arcs[it.tail, it.head].capacity) for it in self.legs)
