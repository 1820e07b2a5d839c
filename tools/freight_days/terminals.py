"""The terminals of a day: towns of France, then light ones that are drawn around them."""

import math

# Name, kilometres east and north of a corner of the map, and the weight with which shipments begin or end there.
TOWNS = (
    ("PARIS", 600, 810, 14), ("LYON", 790, 470, 9), ("MARSEILLE", 850, 150, 8), ("LILLE", 650, 1010, 7), ("TOULOUSE", 520, 170, 6),
    ("BORDEAUX", 370, 330, 6), ("NANTES", 300, 630, 6), ("STRASBOURG", 1000, 790, 5), ("RENNES", 300, 740, 5), ("NICE", 990, 190, 4),
    ("MONTPELLIER", 720, 190, 4), ("ROUEN", 510, 900, 4), ("REIMS", 720, 860, 3), ("DIJON", 800, 630, 3), ("TOURS", 470, 650, 3),
    ("GRENOBLE", 860, 410, 3), ("ORLEANS", 560, 710, 3), ("CLERMONT", 660, 470, 3), ("METZ", 880, 850, 3), ("NANCY", 890, 800, 3),
    ("LE_MANS", 440, 730, 2), ("CAEN", 400, 880, 2), ("BREST", 100, 800, 2), ("LIMOGES", 510, 470, 2), ("AMIENS", 600, 920, 2),
    ("BESANCON", 880, 640, 2), ("MULHOUSE", 990, 690, 2), ("PERPIGNAN", 650, 80, 2), ("PAU", 380, 130, 2), ("VALENCE", 800, 370, 2),
)  # fmt: skip
FIRST_HUBS = ("PARIS", "LYON", "TOULOUSE", "NANTES", "DIJON")
# How far east or west, north or south of its town a drawn terminal lies at most, in kilometres.
AROUND = 60


def terminals(count, draws):
    """The heaviest towns, and after all of them T31 and so on: each lies near a town, near heavy ones more often."""
    found = list(TOWNS[:count])
    towns = [(town, town[3]) for town in TOWNS]
    for number in range(len(found) + 1, count + 1):
        _, east, north, _ = draws.weighted(towns)
        east, north = (it + draws.below(2 * AROUND + 1) - AROUND for it in (east, north))
        found.append((f"T{number}", east, north, 1))
    return found


def hubs(found, count):
    """The names of the hubs among some terminals: five towns that lie well, then the heaviest others."""
    names = [name for name, *_ in found]
    return ([it for it in FIRST_HUBS if it in names] + [it for it in names if it not in FIRST_HUBS])[:count]


def kilometres(one, two):
    """By road: the way of the crow and a quarter."""
    return round(1.25 * math.hypot(one[1] - two[1], one[2] - two[2]))
