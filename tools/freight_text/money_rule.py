"""The money rule of a table's spans and gifts: where they have more for a truck than it costs."""

from collections import defaultdict, namedtuple

# The AMOUNTs of a table's gifts come together to less.
GIFT_LIMIT = 2**90

# A span or a gift: its line, the ends of its arc, its times, "span", "least" or "most", and its MONEY or AMOUNT.
Run = namedtuple("Run", "line arc point until side money")


def amounts_fault(runs):
    """What is wrong with the amounts of all gifts together, if something is."""
    gifts = [it for it in runs if it.side != "span"]
    total = sum(it.money for it in gifts)
    return f"line {gifts[-1].line}: the AMOUNTs of the table's gifts sum to {total:,}, and have to be below 2^90" if total >= GIFT_LIMIT else None


def changes_of(runs):
    """At each time at which a run of an arc begins or ends: the runs that end there, and those that begin."""
    changes = defaultdict(lambda: ([], []))
    for it in runs:
        changes[it.until][0].append(it)
        changes[it.point][1].append(it)
    return sorted(changes.items())


def arc_fault(runs, truck):
    """The first class of an arc at which its runs have more than the truck costs, which is counted in parts of prices."""
    spans, held = 0, dict.fromkeys(("span", "least", "most"), 0)
    for at, (ended, begun) in changes_of(runs):
        for sign, changed in ((-1, ended), (1, begun)):
            for it in changed:
                held[it.side] += sign * it.money
                spans += sign * (it.side == "span")
        paid = held["span"] if spans else truck
        if paid + held["least"] > truck + held["most"]:
            line = max(it.line for it in ended + begun)
            return f"line {line}: at {at} {held_words(spans, paid, held['least'])}, and {most_words(truck, held['most'])}"
    return None


def held_words(spans, paid, least):
    """What the runs of an arc have for a truck: its spans, or all that it costs where there are none, and its gifts."""
    whose = f"the spans of the arc have {paid:,}" if spans else f"no span of the arc holds, so shipments pay {paid:,}"
    return whose + (f" and its gifts with least have {least:,}" if least else "")


def most_words(truck, most):
    """What they may have."""
    return f"scale times TRUCK is {truck:,}" + (f", together with its gifts with most {truck + most:,}" if most else "")


def money_fault(runs, trucks):
    """What is wrong with the money of a table's spans and gifts, if something is; for each arc what a truck costs in parts of prices."""
    by_arc = defaultdict(list)
    for it in runs:
        by_arc[it.arc].append(it)
    faults = [amounts_fault(runs)] + [arc_fault(of, trucks[arc]) for arc, of in by_arc.items()]
    return next((it for it in faults if it), None)
