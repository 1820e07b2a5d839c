"""A whole answer as JSON, as docs/answer.schema.json has it."""

FORMAT = "freight answer 1"


def gap_percent(cost, bound):
    """How much of the cost another plan can save at most, in percent with one decimal, rounded up."""
    tenths = -(-1000 * (cost - bound) // cost) if cost else 0
    return f"{tenths // 10}.{tenths % 10}"


def quoted(fields, names, form):
    """What a quote says; that of a named shipment has what it adds between the two plans in hand, and which of them isn't proved the cheapest."""
    found = {"shipment": names.shipments[fields[0]], "least": form.money(int(fields[1])), "most": form.money(int(fields[2]))}
    return {**found, "added": form.money(int(fields[3])), "unproved": fields[4]} if len(fields) > 3 else found


def claim(answer, names, form):
    """What the first line of an answer says."""
    kind, fields = answer.kind, answer.fields
    if kind == "quote":
        return quoted(fields, names, form)
    if kind == "bound":
        return {"bound": form.money(int(fields[0]))}
    if kind == "stuck":
        return {"shipment": names.shipments[fields[0]]}
    if kind == "infeasible":
        fastest = None if fields[1] == "none" else form.duration(int(fields[1]))
        return {"shipment": names.shipments[fields[0]], "fastest": fastest}
    cost = int(fields[0])
    bound = {"optimal": cost, "direct": None}.get(kind, int(fields[1]) if kind == "unfinished" else None)
    return {
        "cost": form.money(cost),
        "bound": None if bound is None else form.money(bound),
        "gap": None if bound is None else form.money(cost - bound),
        "gap_percent": None if bound is None else gap_percent(cost, bound),
        "spent": fields[2] if kind == "unfinished" else None,
    }


def trip(rows, departure):
    """The ends of a departure and their times."""
    return {
        "from": rows.terminal(departure.tail),
        "to": rows.terminal(departure.head),
        "departs": rows.form.time(departure.depart),
        "arrives": rows.form.time(departure.arrive),
    }


def timetable(answer, rows):
    """The legs, the truck lines, and the rosters of trucks where `fleet` was read."""
    found = {
        "legs": [{"shipment": rows.names.shipments[it.shipment], **trip(rows, it)} for it in answer.legs],
        "trucks": [
            {**trip(rows, it), "trucks": it.trucks, "load": rows.form.size(it.load), "capacity": rows.capacity(it), "shipments": rows.aboard(it)}
            for it in answer.departures
        ],
    }
    if rows.rosters is not None:
        found["rosters"] = [{"truck": it.number, "trips": [trip(rows, each) for each in it.departures]} for it in rows.rosters]
    return found


def whole(answer, rows):
    """An answer with its units and its zero of time."""
    names, calendar = rows.names, rows.form.calendar
    content = {"format": FORMAT, "answer": answer.kind, **claim(answer, names, rows.form)}
    content["currency"] = names.currency
    content["zero"] = calendar.iso(0) if calendar.day else None
    content["zone"] = calendar.zone.key if calendar.zone else None
    return {**content, **(timetable(answer, rows) if answer.has_timetable() else {})}
