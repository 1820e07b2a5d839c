"""The tables of a whole timetable: shipments, departures, and costs by arc."""

from .html_tables import table, unbroken


def freight_words(timetable, display, names):
    """Shipments with their sizes, as "P1 (12), P4 (6)"."""
    sizes = timetable.instance.shipments
    return ", ".join(unbroken(f"{display.shipment(it)} ({display.sizes.text(sizes[it].size)})") for it in names)


def load_words(departure, display):
    """What a departure carries of what its trucks can, as "18 of 33"."""
    return f"{display.sizes.text(departure.load)} of {display.sizes.text(departure.trucks * departure.capacity)}"


def shipment_row(name, legs, timetable, display):
    it, clock = timetable.instance.shipments[name], display.clock
    route = " → ".join(display.terminal(end) for end in [it.origin] + [leg.head for leg in legs])
    ends = clock.time(legs[0].depart), clock.time(legs[-1].arrive)
    due = clock.time(it.due), clock.span(it.due - legs[-1].arrive)
    return (display.shipment(name), display.sizes.text(it.size), route, clock.time(it.release), *ends, *due)


def shipment_table(timetable, display, marks):
    ways = timetable.legs_by_shipment().items()
    rows = [shipment_row(name, legs, timetable, display) for name, legs in ways]
    heads = ("shipment", "#size", "*route", "#release", "#leaves", "#arrives", "#due", "#slack")
    caption = "Each shipment's way. Slack is the time from its arrival to its due time."
    return table(caption, heads, rows, [marks.shipment(name, legs) for name, legs in ways])


def departure_table(timetable, display, marks):
    clock, rows = display.clock, []
    for it in timetable.departures:
        aboard = ", ".join(display.shipment(name) for name in timetable.aboard(it))
        times = clock.time(it.depart), clock.time(it.arrive)
        rows.append((display.way(it.tail, it.head), *times, it.trucks, load_words(it, display), f"{it.use} %", aboard))
    heads = ("truck line", "#leaves", "#arrives", "#trucks", "#load", "#use", "*shipments")
    caption = "Each truck line: the trucks that leave a terminal for another at one moment, and what they carry of what they can."
    return table(caption, heads, rows, [marks.departure(it) for it in timetable.departures])


def cost_table(timetable, display):
    money = display.money.text
    costs = sorted(timetable.costs_by_arc().items(), key=lambda it: -it[1][1] - it[1][2])
    rows = [(display.way(*ends), trucks, money(paid), money(flow), money(paid + flow)) for ends, (trucks, paid, flow) in costs]
    trucks, paid, flow = timetable.costs()
    rows.append(("all", trucks, money(paid), money(flow), money(paid + flow)))
    return table("What trucks and flow cost over each arc, the dearest first.", ("arc", "#trucks", "#truck cost", "#flow cost", "#cost"), rows)
