"""Instances for the benchmarks: random but the same at every run."""
import random


def instance(terminals, arcs, shipments, seed=1):
    """CSV records of an instance with a ring both ways, so that every shipment can be carried."""
    draw = random.Random(seed)
    pairs = [(i, (i + step) % terminals) for i in range(terminals) for step in (1, terminals - 1)]
    taken = set(pairs)
    while len(pairs) < arcs:
        pair = (draw.randrange(terminals), draw.randrange(terminals))
        if pair[0] != pair[1] and pair not in taken:
            taken.add(pair)
            pairs.append(pair)
    lines = [f"terminal,T{i},{draw.randrange(30)}" for i in range(terminals)]
    for tail, head in pairs[:arcs]:
        lines.append(f"arc,T{tail},T{head},{60 + draw.randrange(241)},{10 + draw.randrange(11)},{100 + draw.randrange(101)},{draw.randrange(3)}")
    for number in range(shipments):
        origin = draw.randrange(terminals)
        destination = (origin + 1 + draw.randrange(terminals - 1)) % terminals
        release = draw.randrange(5000)
        due = release + 400 * terminals + draw.randrange(2000)
        lines.append(f"shipment,S{number},T{origin},T{destination},{1 + draw.randrange(12)},{release},{due}")
    return "\n".join(lines) + "\n"


def generated(seed, terminals, shipments):
    """CSV records of an instance made from a number: a ring both ways, and an arc across from each terminal."""
    state = seed

    def draw(below):
        nonlocal state
        state = (1103515245 * state + 12345) % 2**31
        return state // 65536 % below

    lines = [f"terminal,T{i + 1}" for i in range(terminals)]
    taken = set()
    for tail in range(terminals):
        for step in (1, terminals - 1, terminals // 2):
            head = (tail + step) % terminals
            if (tail, head) not in taken:
                taken.add((tail, head))
                time, capacity, truck, freight = 60 + draw(241), 10 + draw(11), 100 + draw(101), draw(3)
                lines.append(f"arc,T{tail + 1},T{head + 1},{time},{capacity},{truck},{freight}")
    for number in range(shipments):
        origin = draw(terminals)
        destination = (origin + 1 + draw(terminals - 1)) % terminals
        size, release = 1 + draw(12), draw(5000)
        due = release + 300 * terminals + draw(2000)
        lines.append(f"shipment,S{number + 1},T{origin + 1},T{destination + 1},{size},{release},{due}")
    return "\n".join(lines) + "\n"


def _carrier(names, arcs, ways, shipments, slack, seed):
    """CSV records of a carrier's instance, in minutes, pallets and cents: arcs both ways between the pairs in `arcs`, with times in
    `ways`, and shipments between any two terminals, each with up to `slack` minutes more than its fastest way takes."""
    draw = random.Random(seed)
    lines = [f"terminal,{name}" for name in names]
    time = {}
    for (tail, head), minutes in zip(arcs, ways):
        for ends in ((tail, head), (head, tail)):
            time[ends] = minutes
            lines.append(f"arc,{names[ends[0]]},{names[ends[1]]},{minutes},33,{15_000 + 120 * minutes},{20 + minutes // 3}")
    fastest = {(i, j): 0 if i == j else time.get((i, j), 10**9) for i in range(len(names)) for j in range(len(names))}
    for via in range(len(names)):
        for pair in fastest:
            fastest[pair] = min(fastest[pair], fastest[pair[0], via] + fastest[via, pair[1]])
    for number in range(shipments):
        origin, destination = draw.sample(range(len(names)), 2)
        release = draw.randrange(1440)
        due = release + fastest[origin, destination] + draw.randrange(slack + 1)
        lines.append(f"shipment,P{number + 1},{names[origin]},{names[destination]},{1 + draw.randrange(15)},{release},{due}")
    return "\n".join(lines) + "\n"


def line(terminals, shipments, slack, seed=1):
    """Terminals along one road."""
    draw = random.Random(seed)
    arcs = [(i, i + 1) for i in range(terminals - 1)]
    return _carrier([f"L{i + 1}" for i in range(terminals)], arcs, [90 + draw.randrange(200) for _ in arcs], shipments, slack, seed)


def hubs(count, spokes, shipments, slack, seed=1):
    """Hubs that are joined to each other, each with so many terminals around it."""
    draw = random.Random(seed)
    names = [f"H{hub + 1}" for hub in range(count)] + [f"H{hub + 1}S{spoke + 1}" for hub in range(count) for spoke in range(spokes)]
    arcs = [(i, j) for i in range(count) for j in range(i)] + [(hub, count + hub * spokes + spoke) for hub in range(count) for spoke in range(spokes)]
    ways = [240 + draw.randrange(240) if head < count else 40 + draw.randrange(120) for _, head in arcs]
    return _carrier(names, arcs, ways, shipments, slack, seed)


def cases():
    """What each instance of the tables is called, and its records: generated ones, and a carrier's lines and hubs with little and much
    time beside the fastest way."""
    for terminals, shipments, seeds in ((6, 15, (1, 2, 3)), (8, 30, (1, 2, 3, 7)), (10, 40, (1, 2, 3)), (12, 50, (1, 2, 3)), (20, 60, (1, 2, 3))):
        for seed in seeds:
            yield f"{terminals}x{shipments} seed {seed}", generated(seed, terminals, shipments)
    for slack in (120, 720):
        yield f"line 6 with 20, slack {slack}", line(6, 20, slack)
        yield f"hub of 10 with 30, slack {slack}", hubs(1, 9, 30, slack)
        yield f"hubs 2x6 with 30, slack {slack}", hubs(2, 6, 30, slack)
