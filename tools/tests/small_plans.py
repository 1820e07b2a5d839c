"""Small instances, and all their plans, by trying each: what the cheapest and the dearest cost, and their lines."""

import itertools


class Small:
    """An instance of a few shipments and little time, of random records. Its plans leave at whole moments: one that leaves at others costs no less
    than the one that leaves at their whole parts."""

    def __init__(self, draw):
        self.names = "ABCD"[: draw.randrange(3, 5)]
        self.holds = {name: draw.choice((0, 0, 1)) for name in self.names}
        pairs = [pair for pair in itertools.permutations(self.names, 2) if draw.random() < 0.6]
        self.arcs = [(*pair, draw.randrange(1, 4), 10, draw.choice((0, 60, 70, 100)), draw.randrange(2)) for pair in pairs]
        self.shipments = [self._shipment(draw, number) for number in range(draw.randrange(2, 6))]

    def _shipment(self, draw, number):
        origin, destination = draw.sample(self.names, 2)
        release = draw.randrange(4)
        return (f"S{number + 1}", origin, destination, draw.randrange(4, 7), release, release + draw.randrange(2, 7))

    def text(self):
        """Its records."""
        terminals = [f"terminal,{name},{hold}" for name, hold in self.holds.items()]
        arcs = ["arc," + ",".join(map(str, it)) for it in self.arcs]
        shipments = ["shipment," + ",".join(map(str, it)) for it in self.shipments]
        return "\n".join([*terminals, *arcs, *shipments, ""])

    def routes(self, shipment):
        """The routes of a shipment with times, each a list of arcs and moments."""
        _, origin, destination, _, release, due = shipment
        return list(self._onward(origin, destination, release, due, {origin}))

    def _onward(self, here, there, ready, due, met):
        if here == there:
            yield ()
            return
        for arc in self.arcs:
            tail, head, time, *_ = arc
            if tail != here or head in met:
                continue
            for moment in range(ready, due - time + 1):
                for rest in self._onward(head, there, moment + time + self.holds[head], due, met | {head}):
                    yield ((arc, moment), *rest)

    def plans(self):
        """All plans: for each shipment one of its routes."""
        return itertools.product(*map(self.routes, self.shipments))

    def loads(self, plan):
        """The load of each departure, by moment and arc."""
        found = {}
        for shipment, route in zip(self.shipments, plan):
            for arc, moment in route:
                found[moment, arc] = found.get((moment, arc), 0) + shipment[3]
        return found

    def cost(self, plan):
        """What the trucks and the freight of a plan cost."""
        trucks = sum(-(-load // arc[3]) * arc[4] for (_, arc), load in self.loads(plan).items())
        return trucks + sum(shipment[3] * arc[5] for shipment, route in zip(self.shipments, plan) for arc, _ in route)

    def lines(self, plan):
        """The legs and the trucks of a plan, as they stand in an answer."""
        legs = [(moment, place, shipment[0], arc) for place, (shipment, route) in enumerate(zip(self.shipments, plan)) for arc, moment in route]
        trucks = sorted((moment, self.arcs.index(arc), -(-load // arc[3]), load) for (moment, arc), load in self.loads(plan).items())
        return [f"leg,{name},{arc[0]},{arc[1]},{moment},{moment + arc[2]}" for moment, _, name, arc in sorted(legs, key=lambda it: it[:2])] + [
            f"truck,{self.arcs[place][0]},{self.arcs[place][1]},{moment},{count},{load}" for moment, place, count, load in trucks
        ]


class Detour(Small):
    """One with a way round on which trucks have room: which shipments take it, prices alone don't tell, so searches split."""

    def __init__(self, draw):
        self.names = "ABC"
        self.holds = dict.fromkeys(self.names, 0)
        self.arcs = [("A", "B", 4, 10, draw.randrange(55, 76), 1), ("A", "C", 2, 10, draw.randrange(90, 121), 1), ("C", "B", 2, 10, 0, 0)]
        freight = [("A", "B", draw.randrange(4, 7)) for _ in range(3)] + [("A", "C", draw.randrange(7, 11))]
        self.shipments = [(f"S{number}", *it, 0, 6) for number, it in enumerate(freight, 1)]
