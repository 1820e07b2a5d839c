"""Which part of a certificate fails, in words, and the place where it can be seen outside the proof."""

from collections import Counter

from .days import promise_fault, told_of
from .instances import certificate_part, least_times, trucks_for
from .money_rule import Run, money_fault

PARTS = {
    1: "the leg lines aren't a plan in order",
    2: "COST isn't the plan's",
    3: "the truck lines aren't the plan's departures",
    4: "the points aren't in order, too many in a round, initial, or twice",
    5: "a table isn't in order, a share, a span or a gift breaks its rule, or the unit doesn't divide what plans cost",
    6: "the splits and leaves, with the narrowings before them, aren't one tree",
    7: "some leaf is worth less than the claim",
    8: "the shipment isn't too late, or its fastest time is another",
}
STUCK = "the shipment isn't the first that is stuck"

ALONE = (
    "this is a timetable alone, without the lines that show its claim. Its legs are a plan, and its cost and its trucks are"
    " right; to have the claim checked hand on the whole answer, which plan keeps with --certificate FILE"
)

# The lines of a tree, and how many more leaves each wants.
WANTED = {"split": 1, "leaf": -1, "narrow": 0}
MOST_SPLITS, MOST_NARROWINGS = 100_000, 50_000

# The lines of tables.
TABLE_LINES = ("table", "share", "span", "weight", "group", "gift")


def lines_of(certificate, kind):
    return [it for it in certificate if it.kind == kind]


def legs_of(certificate):
    """The legs of each shipment as they stand: ends, departure, arrival and line."""
    found = {}
    for it in lines_of(certificate, "leg"):
        found.setdefault(it.fields[1], []).append((it.fields[2], it.fields[3], int(it.fields[4]), int(it.fields[5]), it.line))
    return found


def order_fault(instance, certificate):
    places = {name: place for place, name in enumerate(instance.shipments)}
    keys = [(int(it.fields[4]), places[it.fields[1]], it.line) for it in lines_of(certificate, "leg")]
    for one, two in zip(keys, keys[1:]):
        if one[:2] >= two[:2]:
            return f"line {two[2]}: legs ascend by departure and then by the shipment's place in the input"
    return None


def route_fault(instance, shipment, legs):
    """What is wrong with the legs of a shipment, if something is."""
    if not legs:
        return f"shipment {shipment.name} has no leg"
    here, ready, met = shipment.origin, shipment.release, {shipment.origin}
    for tail, head, depart, arrive, line in legs:
        arc = instance.arcs[tail, head]
        if tail != here:
            return f"line {line}: {shipment.name} leaves {tail} and is at {here}"
        if depart < ready:
            return f"line {line}: {shipment.name} leaves {tail} at {depart}, and can at {ready}"
        if arrive != depart + arc.time:
            return f"line {line}: the arc takes {arc.time}, so {shipment.name} arrives at {depart + arc.time}"
        if head in met:
            return f"line {line}: {shipment.name} comes to {head} a second time"
        here, ready = head, arrive + instance.holds[head]
        met.add(head)
    if here != shipment.destination:
        return f"line {legs[-1][4]}: {shipment.name} ends at {here}, and has to go to {shipment.destination}"
    if legs[-1][3] > shipment.due:
        return f"line {legs[-1][4]}: {shipment.name} arrives at {legs[-1][3]}, and is due at {shipment.due}"
    return None


def plan_fault(instance, certificate):
    fault = order_fault(instance, certificate)
    legs = legs_of(certificate)
    for shipment in instance.shipments.values():
        fault = fault or route_fault(instance, shipment, legs.get(shipment.name, []))
    return fault


def departures_of(instance, certificate):
    """The load of each departure, by departure and then by the arc's place."""
    places = {ends: place for place, ends in enumerate(instance.arcs)}
    loads = {}
    for name, legs in legs_of(certificate).items():
        for tail, head, depart, _, _ in legs:
            key = (depart, places[tail, head], tail, head)
            loads[key] = loads.get(key, 0) + instance.shipments[name].size
    return dict(sorted(loads.items()))


def cost_fault(instance, certificate):
    trucks = sum(
        instance.arcs[tail, head].truck * trucks_for(load, instance.arcs[tail, head].capacity)
        for (_, _, tail, head), load in departures_of(instance, certificate).items()
    )
    flow = sum(
        instance.arcs[tail, head].freight * instance.shipments[name].size
        for name, legs in legs_of(certificate).items()
        for tail, head, *_ in legs
    )
    answer = certificate[0]
    return f"line {answer.line}: the plan costs {trucks + flow:,} (trucks {trucks:,}, flow {flow:,}), not {int(answer.fields[2]):,}"


def truck_fault(instance, certificate):
    wanted = []
    for (depart, _, tail, head), load in departures_of(instance, certificate).items():
        wanted.append((tail, head, depart, trucks_for(load, instance.arcs[tail, head].capacity), load))
    stated = lines_of(certificate, "truck")
    for line, want in zip(stated, wanted):
        if (*line.fields[1:3], *map(int, line.fields[3:6])) != want:
            return f"line {line.line}: the next departure is truck,{','.join(map(str, want))}"
    if len(stated) > len(wanted):
        return f"line {stated[len(wanted)].line}: the plan has no further departure"
    return f"the line truck,{','.join(map(str, wanted[len(stated)]))} is missing"


def initial_points(instance, promises):
    """The initial points but for 0 at each terminal: releases, due times, and where and when promised legs leave."""
    points = {(it.tail, it.depart) for it in promises}
    for it in instance.shipments.values():
        points.update(((it.origin, it.release), (it.destination, it.due)))
    return points


def point_fault(instance, certificate, promises=()):
    met, last, count = set(), 0, 0
    initial = initial_points(instance, promises)
    for it in lines_of(certificate, "point"):
        terminal, time, number = it.fields[1], int(it.fields[2]), int(it.fields[3])
        count = count + 1 if number == last else 1
        if number < last:
            return f"line {it.line}: round {number} comes after round {last}"
        if count > 8:
            return f"line {it.line}: it is the ninth point of round {number}"
        if time == 0 or (terminal, time) in initial:
            return f"line {it.line}: {time} is an initial point of {terminal}"
        if (terminal, time) in met:
            return f"line {it.line}: the point stands twice"
        met.add((terminal, time))
        last = number
    return None


def scale_of(certificate):
    scales = lines_of(certificate, "scale")
    return int(scales[0].fields[1]) if scales else 1_000_000


class TableReader:
    """Goes over the lines of tables and keeps the share in hand, and the spans and the gifts of the table."""

    def __init__(self, instance, scale):
        self.instance, self.scale = instance, scale
        self.arc_place = {ends: place for place, ends in enumerate(instance.arcs)}
        self.shipment_place = {name: place for place, name in enumerate(instance.shipments)}
        self.share, self.last_share, self.last_span, self.last_weight, self.last_moment, self.runs = None, None, None, None, None, []

    def take(self, it):
        """Takes a line, and says what is wrong with it, with the share before it, or with the money of the table before it."""
        fault = self.rule_fault() if it.kind in ("table", "share", "span", "gift") else None
        if it.kind == "table":
            fault = fault or self.money_fault()
            self.share, self.last_share, self.last_span, self.runs = None, None, None, []
        elif it.kind == "gift":
            self.share = None
            self.keep_run(it)
        elif it.kind == "span":
            fault = fault or self.span_fault(it)
            self.keep_run(it)
            self.share, self.last_weight, self.last_moment = None, None, int(it.fields[3])
        elif it.kind == "share":
            key = (self.arc_place[it.fields[1], it.fields[2]], int(it.fields[3]))
            if self.last_share is not None and key <= self.last_share:
                fault = fault or f"line {it.line}: shares ascend by the arc's place in the input and then by point"
            self.last_share, self.last_weight, self.share = key, None, [it, 0]
        elif it.kind == "group":
            fault = self.moment_fault(it)
        else:
            place = self.shipment_place[it.fields[1]]
            if self.last_weight is not None and place <= self.last_weight:
                fault = fault or f"line {it.line}: weights ascend by the shipment's place in the input"
            self.last_weight = place
            if self.share is not None:
                self.share[1] += int(it.fields[2])
        return fault

    def span_fault(self, it):
        """What is wrong with the place of a span, of those of its table."""
        place = (self.arc_place[it.fields[1], it.fields[2]], *map(int, it.fields[3:5]))
        before, self.last_span = self.last_span, place
        if before is not None and place <= before:
            return f"line {it.line}: spans ascend by the arc's place in the input, then by POINT and then by UNTIL"
        return None

    def keep_run(self, it):
        """Keeps a span or a gift."""
        side, money = ("span", it.fields[5]) if it.kind == "span" else it.fields[5:7]
        self.runs.append(Run(it.line, tuple(it.fields[1:3]), *map(int, it.fields[3:5]), side, int(money)))

    def money_fault(self):
        """What is wrong with the money of the table's spans and gifts."""
        return money_fault(self.runs, {ends: self.scale * arc.truck for ends, arc in self.instance.arcs.items()})

    def moment_fault(self, it):
        """What is wrong with the moment of a group; it is kept."""
        moment, before = int(it.fields[1]), self.last_moment
        self.last_moment = moment
        if before < moment < self.runs[-1].until:
            return None
        return f"line {it.line}: the MOMENTs of a span ascend, after its POINT and before its UNTIL"

    def rule_fault(self):
        if self.share is None:
            return None
        it, weights = self.share
        arc = self.instance.arcs[it.fields[1], it.fields[2]]
        paid, most = weights + arc.capacity * int(it.fields[4]), self.scale * arc.truck
        return f"line {it.line}: the share pays {paid:,}, and scale times TRUCK is {most:,}" if paid > most else None


def table_fault(instance, certificate):
    reader = TableReader(instance, scale_of(certificate))
    for it in certificate:
        if it.kind in TABLE_LINES:
            fault = reader.take(it)
            if fault:
                return fault
    return reader.rule_fault() or reader.money_fault() or unit_fault(instance, certificate) or "the CHARGE of a span doesn't pay for the weights of its groups"


def unit_fault(instance, certificate):
    """The first cost that the unit doesn't divide."""
    for unit in lines_of(certificate, "unit"):
        number = int(unit.fields[1])
        for (tail, head), arc in instance.arcs.items():
            costs = [arc.truck] + [arc.freight * it.size for it in instance.shipments.values()]
            for cost in costs:
                if cost % number:
                    return f"line {unit.line}: {number:,} doesn't divide {cost:,}, a cost from {tail} to {head}"
    return None


def tree_fault(instance, certificate):
    nodes = [it for it in certificate if it.kind in WANTED]
    wanted = 1
    for it in nodes:
        if wanted == 0:
            return f"line {it.line}: the tree is whole before it"
        wanted += WANTED[it.kind]
    if wanted:
        return f"{wanted:,} more {'leaf is' if wanted == 1 else 'leaves are'} wanted"
    counts = Counter(it.kind for it in nodes)
    if counts["split"] > MOST_SPLITS:
        return f"{counts['split']:,} splits, and {MOST_SPLITS:,} are allowed"
    return f"{counts['narrow']:,} narrowings, and {MOST_NARROWINGS:,} are allowed"


def leaf_fault(instance, certificate):
    return "which leaf it is isn't looked for here"


def infeasible_fault(instance, certificate):
    answer = certificate[0]
    it = instance.shipments[answer.fields[2]]
    time = least_times(instance, it.origin).get(it.destination)
    words = "has no route" if time is None else f"takes {time} at the fastest"
    return f"line {answer.line}: {it.name} {words}, and has {it.due - it.release} from release to due"


PLACES = {
    1: plan_fault, 2: cost_fault, 3: truck_fault, 4: point_fault, 5: table_fault, 6: tree_fault, 7: leaf_fault, 8: infeasible_fault,
}  # fmt: skip


def is_alone(certificate):
    """Whether the lines are a timetable without any that show its claim."""
    return not any(it.kind in ("point", "table", *WANTED) for it in certificate)


def stuck_fault(told, answer):
    """What is wrong with an answer that no plan goes on."""
    if not told.stuck:
        return f"line {answer.line}: no shipment is stuck, since a plan {told.duty_words()}"
    return f"line {answer.line}: the first that is stuck is {told.stuck[0]}: {told.stuck[1]}"


def place_of(told, certificate, number):
    """Where a part of a certificate fails, after what is told of an instance."""
    instance, day = told.planned(), told.day
    if number == 1:
        return plan_fault(instance, certificate) or promise_fault(told.instance, day, legs_of(certificate))
    if number == 4:
        return point_fault(instance, certificate, [leg for name in instance.shipments for leg in day.promised(name)])
    return PLACES[number](instance, certificate)


def explanation(records, number):
    """One or two lines on a rejected certificate: the part that fails, and where."""
    certificate, told = certificate_part(records), told_of(records)
    if number == 6 and is_alone(certificate):
        return [f"part 6 of the certificate fails: {ALONE}"]
    if number == 8 and certificate[0].fields[1] == "stuck":
        return [f"the answer stuck is false: {STUCK}", stuck_fault(told, certificate[0])]
    if number == 1 and certificate[0].fields[1] == "stuck":
        return [f"part 1 of the certificate fails: {PARTS[1]}", f"line {certificate[0].line}: an answer stuck tells no timetable"]
    if told.stuck:
        return [f"no plan {told.duty_words()}, so an answer stuck is the one that is accepted", told.stuck[1]]
    place = place_of(told, certificate, number)
    return [f"part {number} of the certificate fails: {PARTS[number]}"] + ([place] if place else [])
