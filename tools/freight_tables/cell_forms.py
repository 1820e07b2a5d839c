"""What stands in a cell of a table for a time, a size or a list of names: as text, in a workbook, and in JSON."""

from __future__ import annotations

import csv
import io
import json
from decimal import Decimal

from . import workbooks
from .calendars import Calendar, clock_text
from .units import Units

BYTE_ORDER_MARK = "\ufeff"


def decimal_text(amount, decimals):
    """An amount in the program's units in the carrier's, exactly."""
    return f"{Decimal(amount).scaleb(-decimals):f}" if decimals else str(amount)


class TextForm:
    """Cells of CSV, with the decimal mark of the carrier's tables."""

    def __init__(self, names):
        self.names = names
        self.calendar = Calendar(names.zero.date() if names.zero else None, names.zone)
        self.units = Units(names.seconds, names.size_decimals, names.money_decimals)

    def time(self, units):
        return self.calendar.text(units * self.units.seconds)

    def duration(self, units):
        return clock_text(units * self.units.seconds)

    def size(self, units):
        return decimal_text(units, self.units.size_decimals).replace(".", self.names.mark)

    def list(self, names):
        return " + ".join(names)

    def file(self, tables):
        """The bytes of one table, for a spreadsheet: UTF-8 with a mark."""
        (_, headings, rows), text = tables[0], io.StringIO()
        csv.writer(text, delimiter=self.names.separator, lineterminator="\n").writerows([headings, *rows])
        return (BYTE_ORDER_MARK + text.getvalue()).encode()


class WorkbookForm(TextForm):
    """Cells of a workbook: dates and numbers as such. A time that the clocks show twice, or one without a date, is text."""

    def time(self, units):
        text = super().time(units)
        local = self.calendar.local(units * self.units.seconds) if self.calendar.day else None
        return local.replace(tzinfo=None) if local and text[-6] not in "+-" else text

    def size(self, units):
        return Decimal(units).scaleb(-self.units.size_decimals)

    def file(self, tables):
        return workbooks.written(tables)


class JsonForm(TextForm):
    """Values of JSON: times in ISO's form, sizes and money as exact decimals in strings."""

    def time(self, units):
        return self.calendar.iso(units * self.units.seconds)

    def size(self, units):
        return decimal_text(units, self.units.size_decimals)

    def money(self, units):
        return decimal_text(units, self.units.money_decimals)

    def list(self, names):
        return names

    def file(self, tables):
        """The rows of one table, each with its headings."""
        _, headings, rows = tables[0]
        return json_text([dict(zip(headings, row)) for row in rows])


def json_text(value):
    return (json.dumps(value, ensure_ascii=False, indent=1) + "\n").encode()
