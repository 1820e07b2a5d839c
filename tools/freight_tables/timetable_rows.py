"""A timetable as rows: by terminal, by shipment, by truck. What stands in cells is made by the form of the file."""

from __future__ import annotations

BY_TERMINAL = ["Terminal", "Time", "Event", "Other terminal", "Trucks", "Load", "Capacity", "Shipments"]
BY_SHIPMENT = ["Shipment", "Leg", "From", "Departs", "To", "Arrives", "Size", "Ready", "Due", "Slack"]
BY_DEPARTURE = ["From", "To", "Departs", "Arrives", "Trucks", "Load", "Capacity", "Use in percent", "Shipments"]
BY_TRUCK = ["Truck", "Trip", "From", "Departs", "To", "Arrives", "Trucks of the departure", "Load of the departure", "Shipments"]


class Rows:
    """The rows of one answer. `form` makes cells of times, sizes and names; `rosters` are those of trucks, or None."""

    def __init__(self, answer, names, form, rosters):
        self.answer, self.names, self.form, self.rosters = answer, names, form, rosters
        self.aboard_each = answer.aboard()

    def terminal(self, name):
        return self.names.terminals[name]

    def aboard(self, departure):
        """The carrier's names of the shipments that leave by a departure."""
        return [self.names.shipments[it] for it in self.aboard_each.get((departure.tail, departure.head, departure.depart), [])]

    def capacity(self, departure):
        """The capacity of all its trucks; None without the instance."""
        return self.form.size(departure.trucks * departure.capacity) if departure.capacity else None

    def by_terminal(self):
        """What comes and what goes, by terminal and by time; what comes at a moment stands before what goes then."""
        order, rows = {name: place for place, name in enumerate(self.names.terminals)}, []
        for it in self.answer.departures:
            rows.append((order[it.tail], it.depart, "departs", it.tail, it.head, it))
            rows.append((order[it.head], it.arrive, "arrives", it.head, it.tail, it))
        for _, time, event, here, other, it in sorted(rows, key=lambda row: row[:3]):
            yield [self.terminal(here), self.form.time(time), event, self.terminal(other), it.trucks, self.form.size(it.load), self.capacity(it), self.form.list(self.aboard(it))]

    def by_shipment(self):
        """The legs of each shipment; how much time is left stands at its last one."""
        found = {name: [] for name in self.names.shipments}
        for leg in self.answer.legs:
            found[leg.shipment].append(leg)
        for name, legs in found.items():
            for number, leg in enumerate(legs, 1):
                ends = [self.terminal(leg.tail), self.form.time(leg.depart), self.terminal(leg.head), self.form.time(leg.arrive)]
                yield [self.names.shipments[name], number, *ends, *self.wanted(name, leg if number == len(legs) else None)]

    def wanted(self, name, last):
        """The size of a shipment, when it is ready and due, and what its last leg leaves of that; nothing without the instance."""
        if not self.answer.instance:
            return [None] * 4
        shipment = self.answer.instance.shipments[name]
        slack = self.form.duration(shipment.due - last.arrive) if last else None
        return [self.form.size(shipment.size), self.form.time(shipment.release), self.form.time(shipment.due), slack]

    def by_departure(self):
        for it in self.answer.departures:
            ends = [self.terminal(it.tail), self.terminal(it.head), self.form.time(it.depart), self.form.time(it.arrive)]
            use = it.use if it.capacity else None
            yield [*ends, it.trucks, self.form.size(it.load), self.capacity(it), use, self.form.list(self.aboard(it))]

    def by_truck(self):
        """The departures that each truck runs, one after the other."""
        for truck in self.rosters:
            for trip, it in enumerate(truck.departures, 1):
                ends = [self.terminal(it.tail), self.form.time(it.depart), self.terminal(it.head), self.form.time(it.arrive)]
                yield [truck.number, trip, *ends, it.trucks, self.form.size(it.load), self.form.list(self.aboard(it))]

    def table(self, view):
        """The headings and rows of a view: terminal, shipment or truck. Without rosters the last is by departure."""
        if view == "terminal":
            return BY_TERMINAL, list(self.by_terminal())
        if view == "shipment":
            return BY_SHIPMENT, list(self.by_shipment())
        if self.rosters is None:
            return BY_DEPARTURE, list(self.by_departure())
        return BY_TRUCK, list(self.by_truck())
