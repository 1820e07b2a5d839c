"""What is to be carried on a day, each shipment by a time at which it can be there."""

from .arcs import fastest

DAY = 1440


def due_time(draws, service_days):
    """From 6:00 to 17:30 of the last day of service or of the one before it; the day of release isn't counted."""
    least = max(1, service_days - 1)
    return DAY * (least + draws.below(service_days - least + 1)) + 30 * (12 + draws.below(24))


def shipments(terminals, arcs, holds, draws, options):
    """The records of the shipments. One that its fastest way brings too late gets as many days more as it needs."""
    choices = [(name, weight) for name, _, _, weight in terminals]
    times = {}
    for number in range(1, options.shipments + 1):
        origin = draws.weighted(choices)
        destination = draws.weighted([it for it in choices if it[0] != origin])
        size = 1 + draws.below(options.pallets)
        release = 15 * (32 + draws.below(48))
        due = due_time(draws, options.service_days)
        if origin not in times:
            times[origin] = fastest(origin, arcs, holds)
        while due < release + times[origin][destination]:
            due += DAY
        yield f"shipment,P{number:03},{origin},{destination},{size},{release},{due}"
