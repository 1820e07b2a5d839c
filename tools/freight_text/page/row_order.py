"""The order of a picture's rows: terminals that many trucks join stand near each other, so that lines are short."""

from collections import defaultdict

PASSES = 12


class Rows:
    """An order of terminals, and how many trucks join each two of them."""

    def __init__(self, names, departures):
        self.order = list(names)
        self.place = {name: place for place, name in enumerate(self.order)}
        self.trucks = defaultdict(lambda: defaultdict(int))
        for it in departures:
            self.trucks[it.tail][it.head] += it.trucks
            self.trucks[it.head][it.tail] += it.trucks

    def length(self):
        """The rows that all lines pass, each counted by its trucks; twice, once from each end."""
        return sum(trucks * abs(self.place[one] - self.place[two]) for one, near in self.trucks.items() for two, trucks in near.items())

    def swap(self, place):
        """Lets two neighbours change places, and says by how much that lengthens the lines."""
        upper, lower = self.order[place], self.order[place + 1]
        more = 0
        for name, sign in ((upper, 1), (lower, -1)):
            for other, trucks in self.trucks[name].items():
                if other not in (upper, lower):
                    more += sign * trucks * (1 if self.place[other] < place else -1)
        self.order[place : place + 2] = lower, upper
        self.place[upper], self.place[lower] = place + 1, place
        return more

    def sift(self, name):
        """Moves a terminal to where the lines are shortest; whether that shortened them."""
        more = least = 0
        start = best = self.place[name]
        path = list(range(start - 1, -1, -1)) + list(range(len(self.order) - 1))
        for place in path:
            more += self.swap(place)
            if more < least:
                least, best = more, self.place[name]
        for place in range(len(self.order) - 2, best - 1, -1):
            self.swap(place)
        return least < 0


def row_order(names, departures):
    """The terminals from top to bottom: as in the input where that is as good."""
    rows = Rows(names, departures)
    for _ in range(PASSES):
        if not [name for name in names if rows.sift(name)]:
            break
    return rows.order
