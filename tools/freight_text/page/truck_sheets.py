"""A sheet for each truck: the departures that it runs, one after the other."""

from html import escape

from .html_tables import link, table
from .tables import freight_words
from .terminal_sheets import counted


class TruckSheets:
    """The sheets of all trucks of a fleet, and a table of these trucks."""

    def __init__(self, trucks, timetable, display, marks):
        self.trucks = [it for it in trucks if it.departures]
        self.timetable, self.display, self.marks = timetable, display, marks

    def anchor(self, place):
        """The id of the sheet of the truck at a place."""
        return f"truck-{place}"

    def ends(self, truck):
        """When and where a truck begins, and when and where it ends."""
        first, last, clock = truck.departures[0], truck.departures[-1], self.display.clock
        return clock.time(first.depart), first.tail, clock.time(last.arrive), last.head

    def index_row(self, place, truck):
        leaves, _, arrives, _ = self.ends(truck)
        names = [truck.departures[0].tail] + [it.head for it in truck.departures]
        way = " → ".join(self.display.terminal(it) for it in names)
        return (link(self.anchor(place), f"Truck {truck.number}"), len(truck.departures), leaves, way, arrives)

    def marks_of(self, truck):
        return self.marks.departures(truck.departures)

    def index(self):
        heads = ("truck", "#runs", "#leaves", "*way", "#arrives")
        caption = "Each truck's way from its first terminal to its last. Its sheet stands behind its number."
        return table(caption, heads, [self.index_row(place, it) for place, it in enumerate(self.trucks)], [self.marks_of(it) for it in self.trucks])

    def run_row(self, it):
        clock, load = self.display.clock, self.display.sizes.text(it.load)
        load += f" in {it.trucks} trucks" if it.trucks > 1 else ""
        freight = freight_words(self.timetable, self.display, self.timetable.aboard(it))
        return (clock.time(it.depart), self.display.terminal(it.tail), self.display.terminal(it.head), clock.time(it.arrive), load, freight)

    def run_table(self, truck):
        heads = ("#leaves", "from", "to", "#arrives", "#load", "*shipments (size)")
        marks = [self.marks.run(it) for it in truck.departures]
        return table(f"What truck {truck.number} runs", heads, [self.run_row(it) for it in truck.departures], marks)

    def sheet(self, place, truck):
        leaves, tail, arrives, head = self.ends(truck)
        display = self.display
        words = f"{counted(len(truck.departures), 'run', 'runs')}, from {display.terminal(tail)} at {leaves} to {display.terminal(head)} at {arrives}."
        if any(it.trucks > 1 for it in truck.departures):
            words += " Where several trucks run one line, the shipments are those of all of them."
        return (
            f'<section class="sheet" id="{self.anchor(place)}"{self.marks_of(truck)}><h3>Truck {truck.number}</h3>'
            f'<p class="note">{escape(words)}</p>{self.run_table(truck)}</section>'
        )

    def html(self):
        return self.index() + "".join(self.sheet(place, it) for place, it in enumerate(self.trucks))
