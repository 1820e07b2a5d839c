"""What the script of a page knows things by: the places of terminals, shipments and departures."""


def numbers(values):
    """Numbers as an attribute holds them: ascending, each once."""
    return " ".join(map(str, sorted(set(values))))


class Marks:
    """The attributes of rows and lines.

    `data-t`, `data-s` and `data-l` are the terminals, shipments and truck lines by which a filter finds an item, each by its
    place; `data-show` is what it shows in the chart: one shipment (s) or truck line (l) by its place, or all of its truck lines (g).
    """

    def __init__(self, timetable):
        self.timetable = timetable
        self.terminals = {name: place for place, name in enumerate(timetable.instance.holds)}
        self.shipments = {name: place for place, name in enumerate(timetable.instance.shipments)}

    def lights(self, shipments, lines):
        """What lights an item up: these shipments and these truck lines."""
        return f' data-s="{numbers(self.shipments[it] for it in shipments)}" data-l="{numbers(lines)}"'

    def found(self, terminals, shipments, lines):
        """By what an item is found."""
        return f' data-t="{numbers(self.terminals[it] for it in terminals)}"' + self.lights(shipments, lines)

    def shipment(self, name, legs):
        """Of a shipment: found by all that it passes."""
        terminals = [it.tail for it in legs] + [it.head for it in legs]
        lines = [self.timetable.departure_of(it) for it in legs]
        return f' data-show="s{self.shipments[name]}"' + self.found(terminals, [name], lines)

    def shows_line(self, departure):
        return f' data-show="l{self.timetable.places[departure.key]}"'

    def departure(self, departure, terminals=None):
        """Of a departure: found by its ends, or by these terminals alone."""
        ends = (departure.tail, departure.head) if terminals is None else terminals
        found = self.found(ends, self.timetable.aboard(departure), [self.timetable.places[departure.key]])
        return self.shows_line(departure) + found

    def run(self, departure):
        """Of a departure within a truck's sheet, which is found as a whole."""
        return self.shows_line(departure) + self.lights(self.timetable.aboard(departure), [self.timetable.places[departure.key]])

    def departures(self, departures, terminals=None):
        """Of something that is found by any of these departures: by their ends too, or by these terminals alone."""
        if terminals is None:
            terminals = [name for it in departures for name in (it.tail, it.head)]
        shipments = [name for it in departures for name in self.timetable.aboard(it)]
        return ' data-show="g"' + self.found(terminals, shipments, [self.timetable.places[it.key] for it in departures])
