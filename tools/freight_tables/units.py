"""The units in which the program counts: as fine as the tables' own decimals, and no finer."""

from __future__ import annotations

from dataclasses import dataclass
from decimal import Decimal

from freight_text.instances import FIELDS

from .calendars import clock_text
from .carrier_days import MOMENTS, RECORDS, SIZES
from .decimals import places

# The field of the program for each column that is a number.
NUMBERS = {
    "terminals": {"hold": "HOLD"},
    "lanes": {"time": "TIME", "capacity": "CAPACITY", "truck_cost": "TRUCK", "unit_cost": "FREIGHT"},
    "shipments": {"size": "SIZE", "release": "RELEASE", "due": "DUE"},
}
TIMES = ("hold", "time", *MOMENTS)


@dataclass(frozen=True)
class Units:
    """The seconds of a unit of time, and the decimals of a unit of size and of money."""

    seconds: int
    size_decimals: int
    money_decimals: int

    def whole(self, column, value):
        """A value of a column as the program counts it."""
        if column in TIMES:
            return value // self.seconds
        decimals = self.size_decimals if column in SIZES else self.money_decimals
        # Money for a unit of size is money for as many of the program's units as that has.
        return int(value.scaleb(decimals - (self.size_decimals if column == "unit_cost" else 0)))


def values(day, *columns):
    return [entry.value(it) for entries in day.entries.values() for entry in entries for it in columns if entry.value(it) is not None]


def units_of(day):
    """The units of a day: a minute, or a second where some time has seconds; and decimals enough for every size and all money."""
    seconds = 60 if all(it % 60 == 0 for it in values(day, *TIMES)) else 1
    size = max(map(places, values(day, *SIZES)), default=0)
    money = [places(it) for it in values(day, "truck_cost")] + [places(it.scaleb(-size)) for it in values(day, "unit_cost")]
    return Units(seconds, size, max(money, default=0))


def shown_limit(units, column, limit):
    """A limit of the program in the words of the tables."""
    if column in TIMES:
        return f"{clock_text(limit * units.seconds)} h"
    decimals = units.size_decimals if column in SIZES else units.money_decimals
    shift = units.size_decimals if column == "unit_cost" else 0
    return f"{Decimal(limit).scaleb(shift - decimals).normalize():,f}"


def why_seconds(units, column):
    """Why the unit of time is a second, beside a time that is out of range."""
    return "; the unit is a second, since some time isn't whole minutes" if column in TIMES and units.seconds == 1 else ""


def check_ranges(day, units, faults):
    """That each number is within the limits of the program."""
    for table, columns in NUMBERS.items():
        limits = dict(FIELDS[RECORDS[table]])
        for entry in day.entries[table]:
            for column, name in columns.items():
                value = entry.value(column)
                if value is None:
                    continue
                least, most = limits[name]
                whole = units.whole(column, value)
                if value < 0 or whole < least:
                    faults.add(entry.cells[column], "it has to be above 0" if least else "it has to be 0 or more")
                elif whole > most:
                    from_zero = " after the zero of time" if column in ("release", "due") else ""
                    faults.add(entry.cells[column], f"it has to be at most {shown_limit(units, column, most)}{from_zero}{why_seconds(units, column)}")
