"""A day as the text of an instance, with the program's names and in whole numbers."""

from __future__ import annotations

from dataclasses import dataclass

from freight_text.faults.instance_faults import SCALE, is_too_large
from freight_text.instances import alone_cost, instance_of
from freight_text.records import records_of

from .carrier_days import ALL
from .program_names import program_names
from .units import NUMBERS, Units


@dataclass(frozen=True)
class Written:
    """The text of an instance, the units of its numbers, and for each name of the tables the one in the text."""

    text: str
    units: Units
    terminals: dict[str, str]
    shipments: dict[str, str]


def numbers(units, table, entry):
    return [units.whole(column, entry.value(column) or 0) for column in NUMBERS[table]]


def written(day, units):
    """The text of a day in which no fault was found."""
    terminals = program_names(day.terminals, "terminal")
    shipments = program_names(day.names("shipments"), "shipment")
    holds = {it.value("name"): numbers(units, "terminals", it)[0] for it in day.entries["terminals"]}
    lines = [("terminal", terminals[name], *([holds[name]] if holds.get(name) else [])) for name in day.terminals]
    for entry in day.entries["lanes"]:
        lines.append(("arc", terminals[entry.value("origin")], terminals[entry.value("destination")], *numbers(units, "lanes", entry)))
    for entry in day.entries["shipments"]:
        ends = [terminals[entry.value(it)] for it in ("origin", "destination")]
        lines.append(("shipment", shipments[entry.value("name")], *ends, *numbers(units, "shipments", entry)))
    return Written("".join(",".join(map(str, line)) + "\n" for line in lines), units, terminals, shipments)


def check_weight(text, faults):
    """That all money together is within what the program counts with."""
    if is_too_large(alone_cost(instance_of(records_of(text.encode()))), SCALE):
        faults.add_at(ALL, 0, "sizes and costs together are too large for the program: write sizes with fewer decimals, or money in a larger unit")
