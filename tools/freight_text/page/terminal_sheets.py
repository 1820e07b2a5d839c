"""A sheet for each terminal: what goes out when and with what, and what comes in, for where."""

from html import escape

from .html_tables import link, table, unbroken
from .tables import freight_words, load_words


def counted(count, one, many):
    return f"{count:,} {one if count == 1 else many}"


class TerminalSheets:
    """The sheets of all terminals where trucks leave or arrive, and a table of these terminals."""

    def __init__(self, timetable, display, marks):
        self.timetable, self.display, self.marks = timetable, display, marks
        self.names = timetable.used_terminals()

    def anchor(self, name):
        return f"terminal-{self.marks.terminals[name]}"

    def index_row(self, name):
        clock, out, come = self.display.clock, self.timetable.leaving(name), self.timetable.arriving(name)
        first = clock.time(out[0].depart) if out else ""
        last = clock.time(come[-1].arrive) if come else ""
        sizes = self.display.sizes.text
        sums = [sizes(sum(it.load for it in part)) for part in (out, come)]
        return (
            link(self.anchor(name), self.display.terminal(name)),
            sum(it.trucks for it in out), sums[0], first, sum(it.trucks for it in come), sums[1], last,
        )  # fmt: skip

    def index(self):
        heads = ("terminal", "#trucks out", "#size out", "#first leaves", "#trucks in", "#size in", "#last arrives")
        marks = [self.marks.departures(self.timetable.leaving(it) + self.timetable.arriving(it), [it]) for it in self.names]
        caption = "What leaves each terminal and what comes. The sheet of a terminal stands behind its name."
        return table(caption, heads, [self.index_row(it) for it in self.names], marks)

    def out_table(self, name):
        clock, rows, departures = self.display.clock, [], self.timetable.leaving(name)
        for it in departures:
            freight = freight_words(self.timetable, self.display, self.timetable.aboard(it))
            rows.append((clock.time(it.depart), self.display.terminal(it.head), it.trucks, load_words(it, self.display), freight))
        heads = ("#leaves", "to", "#trucks", "#load", "*shipments (size)")
        return self.table(name, f"What goes out of {self.display.terminal(name)}", heads, rows, departures)

    def in_table(self, name):
        clock, rows, departures = self.display.clock, [], self.timetable.arriving(name)
        for it in departures:
            aboard = self.timetable.aboard(it)
            here = [one for one in aboard if self.timetable.next_leg(one, name) is None]
            onward = ", ".join(self.onward_words(one, name) for one in aboard if one not in here)
            stays = freight_words(self.timetable, self.display, here)
            rows.append((clock.time(it.arrive), self.display.terminal(it.tail), it.trucks, stays, onward))
        heads = ("#arrives", "from", "#trucks", "*for here (size)", "*goes on (size), to, at")
        return self.table(name, f"What comes into {self.display.terminal(name)}", heads, rows, departures)

    def onward_words(self, shipment, name):
        """A shipment that passes, with where it goes on to, and when."""
        leg = self.timetable.next_leg(shipment, name)
        freight = freight_words(self.timetable, self.display, [shipment])
        return f"{freight} → {self.display.terminal(leg.head)} {unbroken(self.display.clock.time(leg.depart))}"

    def table(self, name, caption, heads, rows, departures):
        return table(caption, heads, rows, [self.marks.departure(it, [name]) for it in departures]) if rows else ""

    def sheet(self, name):
        out, come = self.timetable.leaving(name), self.timetable.arriving(name)
        hold = self.timetable.instance.holds[name]
        words = f"{counted(len(out), 'truck line', 'truck lines')} out, {len(come):,} in."
        if hold:
            words += f" Freight that passes through leaves {self.display.clock.span(hold)} after its arrival or later."
        return (
            f'<section class="sheet" id="{self.anchor(name)}"><h3>{escape(self.display.terminal(name))}</h3>'
            f'<p class="note">{escape(words)}</p>{self.out_table(name)}{self.in_table(name)}</section>'
        )

    def html(self):
        return self.index() + "".join(self.sheet(it) for it in self.names)
