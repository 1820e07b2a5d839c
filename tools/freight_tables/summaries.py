"""What was read from tables, as one table for standard error."""

from decimal import Decimal

from .entries import KINDS
from .heading_words import WORDS
from .headings import stated_unit
from .tables import HIDDEN, heading_text, letters

TIME_WORDS = {1: "seconds", 60: "minutes", 3600: "hours", 86400: "days"}
MARKS = {".": "decimal points", ",": "decimal commas"}


def column_manner(table, column, manner, options):
    """How the cells of a column are read, where that isn't plain from them."""
    words = []
    unit = stated_unit(table.headings[column]) or options.time_unit
    if KINDS[column] in ("duration", "moment") and unit:
        words.append(f"numbers are {TIME_WORDS[unit]}")
    if KINDS[column] == "moment" and manner.order:
        words.append(manner.order.replace("-", " "))
    if KINDS[column] in ("number", "money") and manner.mark:
        words.append(MARKS[manner.mark])
    empty = sum(table.cell(row, column).is_empty for row in table.rows)
    if column == "hold" and empty:
        words.append(f"{empty} empty: no hold")
    return "; ".join(words)


def table_rows(table, manner, options):
    yield table.kind, f"{table.sheet.source}, headings in row {table.row}", f"{len(table.rows):,} {'row' if len(table.rows) == 1 else 'rows'}; {table.sheet.manner}"
    for column in WORDS[table.kind]:
        if column in table.places:
            yield f"  {column}", f'column {letters(table.places[column])} "{table.headings[column]}"', column_manner(table, column, manner, options)
        else:
            yield f"  {column}", "no column", "no hold" if column == "hold" else ""
    for place, heading in enumerate(table.sheet.rows[table.row - 1]):
        if place in table.places.values():
            continue
        if heading is not None:
            yield "  (left out)", f'column {letters(place)} "{heading_text(heading)}"', ""
        elif any(place < len(row) and row[place] is not None for _, row in table.rows):
            yield "  (left out)", f"column {letters(place)}", "it has no heading"
    if table.title:
        yield "  (left out)", f'row {table.title[0]} "{table.title[1]}"', "the title of the table below"


def unit_rows(day, units):
    calendar = day.calendar
    yield "zero of time", f"{calendar.zero().isoformat(' ', 'minutes')}" if calendar.day else "midnight of a day without a date", (
        f"clocks of {calendar.zone.key}" if calendar.zone else "clocks that aren't changed: no zone"
    )
    yield "unit of time", "1 minute" if units.seconds == 60 else "1 second", ""
    yield "unit of size", f"{Decimal(1).scaleb(-units.size_decimals):f} {day.size_unit or ''}".strip(), ""
    yield "unit of money", f"{Decimal(1).scaleb(-units.money_decimals):f} {day.currency or ''}".strip(), ""


def lines(tables, others, day, units, options):
    """The table, a line each: what, where it stands, how it is read. `units` is None where faults hide them."""
    rows = [("what", "where it stands", "how it is read")]
    for table in tables:
        rows += table_rows(table, day.manners[table.sheet.source], options)
    rows += [("(left out)", it.source, HIDDEN if it.manner == HIDDEN else "no row has the headings of a table") for it in others]
    if not day.has_terminals():
        rows.append(("terminals", "no table", f"{len(day.terminals):,}, those of the lanes, without hold"))
    if units:
        rows += unit_rows(day, units)
    widths = [max(len(row[place]) for row in rows) for place in range(2)]
    return [f"{row[0]:<{widths[0]}}  {row[1]:<{widths[1]}}  {row[2]}".rstrip() for row in rows]
