"""The rows of tables with their values: each cell read as its column asks, or a fault."""

from __future__ import annotations

from dataclasses import dataclass

from . import decimals, durations, moments
from .faults import Cell
from .heading_words import OPTIONAL, WORDS
from .headings import BRACKETS, stated_unit

# What stands in a column.
KINDS = {
    "name": "name", "origin": "name", "destination": "name", "hold": "duration", "time": "duration", "capacity": "number",
    "size": "number", "truck_cost": "money", "unit_cost": "money", "release": "moment", "due": "moment",
}  # fmt: skip


@dataclass(frozen=True)
class Entry:
    """A row of a table: its cells and their values by column. A value is None where its cell has a fault, or is empty and may be."""

    cells: dict[str, Cell]
    values: dict[str, object]

    def value(self, column):
        return self.values.get(column)


@dataclass(frozen=True)
class Manner:
    """How the texts of a file are read: the decimal mark, and the order of day and month; None where neither is shown or said."""

    mark: str | None
    order: str | None


def texts(table, *kinds):
    """The cells of some kinds of columns that are text."""
    return [it.text for column in WORDS[table.kind] if KINDS[column] in kinds for it in table.cells(column) if isinstance(it.value, str)]


def manner_of(tables, options):
    """How the texts of the tables of one file are read: as the words say, or else as the texts show."""
    numbers = [it for table in tables for it in texts(table, "number")]
    numbers += [decimals.without_currency(it)[0] for table in tables for it in texts(table, "money")]
    numbers += [it for table in tables for text in texts(table, "duration") for it in durations.number_texts(text)]
    dates = [it for table in tables for it in texts(table, "moment")]
    return Manner(options.decimal or decimals.mark_shown(numbers), options.order or moments.order_shown(dates))


def stated_currency(heading):
    """The currency that a heading has in brackets."""
    found = (decimals.currency_of(it) for it in BRACKETS.findall(heading))
    return next((it for it in found if it), None)


class Reader:
    """Reads the cells of one table, and keeps the currencies that it meets."""

    def __init__(self, table, manner, time_unit, faults):
        self.table, self.manner, self.time_unit, self.faults = table, manner, time_unit, faults
        self.currencies, self.told = {}, set()

    def unit(self, column):
        """The unit of a bare number of time: as the heading states, or else as the words say."""
        return stated_unit(self.table.headings[column]) or self.time_unit

    def name(self, column, cell):
        return cell.text

    def number(self, column, cell):
        value = self.amount(cell, cell.text)
        return self.rounded(value)

    def money(self, column, cell):
        text, currency = decimals.without_currency(cell.text) if isinstance(cell.value, str) else (cell.text, None)
        currency = currency or stated_currency(cell.heading)
        if currency:
            self.currencies.setdefault(currency, cell)
        return self.rounded(self.amount(cell, text))

    def amount(self, cell, text):
        if isinstance(cell.value, (int, float)) and not isinstance(cell.value, bool):
            return decimals.exact(cell.value)
        if isinstance(cell.value, str):
            return decimals.number(text, self.manner.mark)
        raise decimals.Unread("not a number")

    def rounded(self, value):
        if decimals.places(value) > decimals.MOST_DECIMALS:
            raise decimals.Unread(f"it has more than {decimals.MOST_DECIMALS} decimals: round it")
        return value

    def duration(self, column, cell):
        return durations.seconds(cell.value, cell.text, self.unit(column), self.manner.mark)

    def moment(self, column, cell):
        return moments.moment(cell.value, cell.text, self.unit(column), self.manner.mark, self.manner.order)

    def value(self, column, cell):
        """The value of a cell, or None and a fault. A unit that is missing is told once a column."""
        if cell.is_empty:
            if (self.table.kind, column) not in OPTIONAL:
                self.faults.add(cell, "it has to be there")
            return None
        try:
            return getattr(self, KINDS[column])(column, cell)
        except decimals.NoUnit as fault:
            if column not in self.told:
                self.faults.add(cell, str(fault))
            self.told.add(column)
        except decimals.Unread as fault:
            self.faults.add(cell, str(fault))
        return None

    def entries(self):
        found = []
        for row in self.table.rows:
            cells = {column: self.table.cell(row, column) for column in self.table.places}
            found.append(Entry(cells, {column: self.value(column, cell) for column, cell in cells.items()}))
        return found
