"""The picture of a timetable in time and space, as SVG.

It comes in parts of one scale, so that the names of terminals and the times can stay in sight while its lines are scrolled.
"""

from html import escape

from .row_order import row_order

WIDTH, HEAD, LEFT, RIGHT = 1080, 26, 26, 34
# The height of a row, of pictures with at most so many rows.
ROWS = ((12, 44), (24, 34), (48, 28), (1000, 23))
# What a letter of a label takes, how high it is, and where it stands beside the middle of its line.
LETTER, HIGH, BESIDE = 6.4, 12, 4
# What a capital and another letter of a name take on paper, where it's larger, and how many letters are shown.
CAPITAL, SMALL, NAME_LETTERS = 10.5, 8, 22


def use_class(departure):
    """How well the trucks are used, in three steps."""
    return "full" if departure.use >= 90 else "half" if departure.use >= 50 else "low"


def shortened(text):
    return text if len(text) <= NAME_LETTERS else text[: NAME_LETTERS - 1] + "…"


def breadth(text):
    """What a name takes at the side."""
    return sum(CAPITAL if it.isupper() else SMALL for it in text)


class Labels:
    """Where labels stand. One that would cover another is left out."""

    def __init__(self):
        self.boxes = []

    def place(self, x, y, text, attributes):
        box = (x, y - HIGH, x + LETTER * len(text), y)
        if any(box[0] < it[2] and it[0] < box[2] and box[1] < it[3] and it[1] < box[3] for it in self.boxes):
            return ""
        self.boxes.append(box)
        return f'<text{attributes} x="{round(x, 1)}" y="{round(y, 1)}">{escape(text)}</text>'


class Picture:
    """A row for each terminal that a truck leaves or enters, time from left to right, a line for each departure."""

    def __init__(self, timetable, display, marks):
        self.timetable, self.display, self.marks = timetable, display, marks
        names = row_order(timetable.used_terminals(), timetable.departures)
        row = next(high for most, high in ROWS if len(names) <= most)
        self.rows = {name: row // 2 + row * place for place, name in enumerate(names)}
        self.height = row * len(names) + 4
        self.left = round(12 + max([40] + [breadth(shortened(display.terminal(it))) for it in names]))
        releases = [it.release for it in timetable.instance.shipments.values()]
        times = releases + [it.depart for it in timetable.legs] + [it.arrive for it in timetable.legs]
        self.first, self.last = (min(times), max(times)) if times else (0, 1)

    @property
    def shape(self):
        """How much wider than high the whole picture is."""
        return (self.left + WIDTH) / (HEAD + self.height)

    def x(self, time):
        return round(LEFT + (WIDTH - LEFT - RIGHT) * float(time - self.first) / max(1, self.last - self.first), 1)

    def times(self):
        """The times at the head."""
        clock = self.display.clock
        return "".join(
            f'<text x="{self.x(it)}" y="{HEAD - 9}" text-anchor="middle">{escape(clock.tick(it))}</text>' for it in self.ticks()
        )

    def ticks(self):
        return self.display.clock.ticks(self.first, self.last)

    def names(self):
        """The names at the side."""
        texts = []
        for name, y in self.rows.items():
            shown = self.display.terminal(name)
            title = f"<title>{escape(shown)}</title>" if shortened(shown) != shown else ""
            texts.append(f'<text x="6" y="{y + 4}">{escape(shortened(shown))}{title}</text>')
        return "".join(texts)

    def grid(self):
        lines = [f'<path class="grid" d="M{self.x(it)} 0V{self.height}"/>' for it in self.ticks()]
        lines += [f'<path class="row" d="M0 {y}H{WIDTH}"/>' for y in self.rows.values()]
        return "".join(lines)

    def title(self, departure):
        display = self.display
        trucks = f"{departure.trucks} truck{'' if departure.trucks == 1 else 's'}"
        aboard = ", ".join(display.shipment(it) for it in self.timetable.aboard(departure))
        times = f"{display.clock.time(departure.depart)} to {display.clock.time(departure.arrive)}"
        return f"{display.way(departure.tail, departure.head)}, {times}: {trucks}, {self.load(departure)}; {aboard}"

    def load(self, departure):
        sizes = self.display.sizes
        return f"{sizes.text(departure.load)} of {sizes.text(departure.trucks * departure.capacity)}"

    def departures(self):
        lines, texts, labels = [], [], Labels()
        for place, it in enumerate(self.timetable.departures):
            x1, y1, x2, y2 = self.x(it.depart), self.rows[it.tail], self.x(it.arrive), self.rows[it.head]
            width = min(9, 1.5 + 1.5 * it.trucks)
            lines.append(
                f'<path class="departure {use_class(it)}" d="M{x1} {y1}L{x2} {y2}" stroke-width="{width}"{self.marks.departure(it)}>'
                f"<title>{escape(self.title(it))}</title></path>"
            )
            attributes = f' class="load" data-load="{place}"'
            texts.append(labels.place((x1 + x2) / 2 + BESIDE, (y1 + y2) / 2 - BESIDE, self.load(it), attributes))
        return "".join(lines + texts)

    def ways(self):
        """Each shipment's way, with the waits before and between its legs, from its release on."""
        lines = []
        for name, legs in self.timetable.legs_by_shipment().items():
            shipment = self.timetable.instance.shipments[name]
            points = [(self.x(shipment.release), self.rows[shipment.origin])]
            for leg in legs:
                points += [(self.x(leg.depart), self.rows[leg.tail]), (self.x(leg.arrive), self.rows[leg.head])]
            path = " ".join(f"{x},{y}" for x, y in points)
            lines.append(f'<polyline class="way" data-way="{self.marks.shipments[name]}" points="{path}"/>')
        return "".join(lines)

    def part(self, kind, width, height, content, more=' aria-hidden="true"'):
        return f'<svg class="{kind}" width="{width}" height="{height}" viewBox="0 0 {width} {height}"{more}>{content}</svg>'

    def html(self, label):
        """The whole picture: a corner, the times, the names and the lines, in a box that scrolls. `label` says what it is."""
        more = f' role="img" aria-label="{escape(label)}"'
        parts = (
            '<div class="corner"></div>',
            self.part("times", WIDTH, HEAD, self.times()),
            self.part("names", self.left, self.height, self.names()),
            self.part("lines", WIDTH, self.height, self.grid() + self.departures() + self.ways(), more),
        )
        columns = f"minmax(0,{self.left}fr) minmax(0,{WIDTH}fr)"
        style = f"--columns:{columns};--height:{HEAD + self.height + 20}px;--shape:{self.shape:.3f}"
        return f'<div class="chart" style="{style}" tabindex="0" role="group" aria-label="Chart, scrolled by arrow keys">{"".join(parts)}</div>'
