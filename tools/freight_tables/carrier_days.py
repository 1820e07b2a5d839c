"""A carrier's day: the entries of all tables, checked against each other and against what the program takes."""

from __future__ import annotations

from dataclasses import dataclass, field

from freight_text.instances import MOST

from .calendars import Calendar, day_in
from .decimals import Unread
from .entries import Entry, Manner, Reader, manner_of
from .faults import near, quoted
from .heading_words import WORDS
from .headings import BRACKETS

TABLES = tuple(WORDS)
# What the program calls the rows of each table.
RECORDS = {"terminals": "terminal", "lanes": "arc", "shipments": "shipment"}
ALL = "the tables"
MOMENTS, SIZES = ("release", "due"), ("capacity", "size")


@dataclass
class Day:
    """Entries by table, the terminals' names, how each file was read, the currencies and units of size met, and the day's calendar."""

    entries: dict[str, list[Entry]] = field(default_factory=lambda: {it: [] for it in TABLES})
    terminals: list[str] = field(default_factory=list)
    manners: dict[str, Manner] = field(default_factory=dict)
    currencies: dict[str, object] = field(default_factory=dict)
    size_units: list[str] = field(default_factory=list)
    calendar: Calendar = Calendar(None)

    @property
    def currency(self):
        """The code of the money's currency, or None."""
        return next(iter(self.currencies), None)

    @property
    def size_unit(self):
        """What sizes are counted in, where headings say it in one way, or None."""
        return self.size_units[0] if len(self.size_units) == 1 else None

    def names(self, table):
        return [it.value("name") for it in self.entries[table] if it.value("name")]

    def has_terminals(self):
        return bool(self.entries["terminals"])


def size_units(tables):
    """What the headings of sizes and capacities have in brackets, each once."""
    found = [BRACKETS.findall(table.headings.get(column, "")) for table in tables for column in SIZES]
    return list(dict.fromkeys(it[-1].strip() for it in found if it))


def day_of(tables, options, faults):
    """The day of some tables. What is wrong with it is among the faults."""
    day = Day(size_units=size_units(tables))
    sources = list(dict.fromkeys(table.sheet.source for table in tables))
    day.manners = {it: manner_of([table for table in tables if table.sheet.source == it], options) for it in sources}
    for table in tables:
        reader = Reader(table, day.manners[table.sheet.source], options.time_unit, faults)
        day.entries[table.kind] += reader.entries()
        for code, cell in reader.currencies.items():
            day.currencies.setdefault(code, cell)
    check_currencies(day, faults)
    check_terminals(day, faults)
    for table in ("lanes", "shipments"):
        check_ends(day, table, faults)
    check_twice(day, "lanes", ("origin", "destination"), faults)
    check_twice(day, "shipments", ("name",), faults)
    check_counts(day, faults)
    place_times(day, options, faults)
    return day


def check_currencies(day, faults):
    for code, cell in list(day.currencies.items())[1:]:
        faults.add(cell, f"it is in {code}, and other money in {day.currency}")


def check_terminals(day, faults):
    """Terminals are those of their table, or where there is none, those of the lanes."""
    check_twice(day, "terminals", ("name",), faults)
    ends = [it.value(column) for it in day.entries["lanes"] for column in ("origin", "destination")]
    names = day.names("terminals") if day.has_terminals() else [it for it in ends if it]
    day.terminals = list(dict.fromkeys(names))


def check_ends(day, table, faults):
    where = "the table of terminals" if day.has_terminals() else "the lanes"
    for entry in day.entries[table]:
        for column in ("origin", "destination"):
            name = entry.value(column)
            if name and name not in day.terminals:
                faults.add(entry.cells[column], f"no terminal of {where} has this name{near(name, day.terminals)}")
        if entry.value("origin") and entry.value("origin") == entry.value("destination"):
            faults.add(entry.cells["destination"], "it is the origin too")


def check_twice(day, table, columns, faults):
    """That no two entries of a table have the same name, or the same ends."""
    found = {}
    for entry in day.entries[table]:
        key = tuple(entry.value(it) for it in columns)
        if None in key:
            continue
        cell, other = entry.cells[columns[-1]], found.get(key)
        if other:
            place = f"row {other.row}" if other.source == cell.source else f"{other.source}, row {other.row},"
            what = "this name" if len(columns) == 1 else f"a lane from {quoted(key[0])} to here"
            faults.add(cell, f"{place} has {what} too")
        found.setdefault(key, cell)


def check_counts(day, faults):
    """That there are lanes, and of nothing more than the program takes."""
    for table in ("lanes", "shipments"):
        if not day.entries[table]:
            faults.add_at(ALL, 0, f"none of {table} was found")
    for table, entries in day.entries.items():
        most = MOST[RECORDS[table]]
        if len(entries) > most:
            faults.add(entries[most].cells.get("name") or entries[most].cells["origin"], f"these are {len(entries):,} {table}, and one day may have {most:,}")
    if not day.has_terminals() and len(day.terminals) > MOST["terminal"]:
        faults.add_at(ALL, 0, f"the lanes have {len(day.terminals):,} terminals, and one day may have {MOST['terminal']:,}")


def moment_cells(day):
    return [(it.cells[column], it.value(column)) for it in day.entries["shipments"] for column in MOMENTS if it.value(column)]


def place_times(day, options, faults):
    """Finds the zero of time, and puts seconds from it in the place of moments."""
    found = moment_cells(day)
    dates = [day_in(options.zone, moment) for _, moment in found if moment.day]
    if dates and options.day:
        faults.add(next(cell for cell, moment in found if moment.day), "it has a date, and --day is for clock times without one")
    if options.zone and found and not dates and not options.day:
        faults.add_at(ALL, 0, "--zone needs dates, and the clock times have none: say --day, as --day 2026-12-31")
    day.calendar = Calendar(min(dates) if dates else options.day, options.zone)
    for cell, moment in found:
        if dates and not moment.day:
            faults.add(cell, "it has no date, and others have one")
    for entry in day.entries["shipments"]:
        for column in MOMENTS:
            moment = entry.value(column)
            is_placed = moment is not None and (moment.day or not dates)
            entry.values[column] = seconds_of(day.calendar, entry.cells[column], moment, faults) if is_placed else None
        check_order(entry, bool(dates), faults)


def seconds_of(calendar, cell, moment, faults):
    """The seconds of a moment from the zero of time, or None and a fault."""
    try:
        return calendar.seconds(moment)
    except Unread as fault:
        faults.add(cell, str(fault))
        return None


def check_order(entry, dated, faults):
    """That a shipment isn't due before it is ready."""
    release, due = entry.value("release"), entry.value("due")
    if release is not None and due is not None and due < release:
        more = "" if dated else "; a clock time of the day after is written as 06:00 +1"
        faults.add(entry.cells["due"], f"it is before {entry.cells['release'].heading}, which is {entry.cells['release'].text}{more}")
