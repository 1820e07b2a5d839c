"""The tables of a carrier's files: which sheet has which, under which headings, and their cells."""

from __future__ import annotations

import pathlib
import re
from dataclasses import dataclass, field

from . import text_files, whole_files, workbooks
from .faults import Cell, Refusal, WordsRefusal, near
from .heading_words import WORDS

# So many rows at the top of a sheet may stand before its headings.
TOP_ROWS = 20
HIDDEN = "a hidden sheet"


@dataclass
class Sheet:
    """The rows of a file, or of a sheet in it: how it is called in faults, how it was read, and the separator of its text."""

    source: str
    manner: str
    rows: list[list]
    separator: str | None = None


@dataclass
class Table:
    """A table: its sheet, the row of its headings, and for each column that was found its place and its heading.

    `title` is the row and the text of the title of the table after it, which is none of its rows.
    """

    kind: str
    sheet: Sheet
    row: int
    places: dict[str, int]
    headings: dict[str, str]
    rows: list[tuple[int, list]] = field(default_factory=list)
    title: tuple[int, str] | None = None

    def cell(self, row, column):
        """A cell of a row (number, values); None where the table hasn't the column."""
        number, values = row
        if column not in self.places:
            return None
        place = self.places[column]
        return Cell(self.sheet.source, number, self.headings[column], values[place] if place < len(values) else None)

    def cells(self, column):
        """The cells of a column that hold something."""
        found = [self.cell(row, column) for row in self.rows] if column in self.places else []
        return [it for it in found if not it.is_empty]


def worth(heads):
    """What rows are worth under a separator: how many headings of one table their best row has, and whether no row is longer than that."""

    def of_rows(rows):
        most, length = max(((len(heads.best(row)[1]), len(row)) for row in rows[:TOP_ROWS]), default=(0, 0))
        return most, all(len(row) <= length for row in rows)

    return of_rows


def sheets_of(path, name, heads):
    """The sheets of a file, which is called so in faults; a sentence where it is neither text nor a workbook."""
    data = whole_files.read(path)
    if workbooks.is_workbook(data):
        return [Sheet(f"{name}, sheet {title}", "workbook" if shown else HIDDEN, rows if shown else []) for title, shown, rows in workbooks.sheets(data)]
    text, coding = text_files.decoded(data)
    if not text_files.is_text(text):
        raise Refusal("it is no text and no workbook (.xlsx)")
    rows, separated, separator = text_files.separated(text, worth(heads))
    return [Sheet(name, f"{coding}; {separated}", rows, separator)]


def letters(place):
    """The letters by which a spreadsheet calls a column."""
    text = ""
    place += 1
    while place:
        place, rest = divmod(place - 1, 26)
        text = chr(ord("A") + rest) + text
    return text


def heading_text(value):
    return re.sub(r"\s+", " ", str(value)).strip()


def table_at(heads, sheet, number, faults):
    """The table that begins at a row of headings. Missing columns and columns that stand twice are faults."""
    row = sheet.rows[number - 1]
    kind, found = heads.best(row)
    for column in heads.missing(kind, found):
        others = [heading_text(it) for it in row if it is not None]
        named = heads.named.get((kind, column))
        wanted = f'the heading "{named}" that --columns names' if named else f"a heading for {kind}.{column}"
        more = near(named, others) if named else f"; name it as --columns {kind}.{column}=HEADING"
        faults.add_at(sheet.source, number, f"{wanted} is missing{more}; the headings are {', '.join(others)}")
    for column, places in found.items():
        if len(places) > 1:
            names = ", ".join(f'{letters(it)} "{heading_text(row[it])}"' for it in places)
            faults.add_at(sheet.source, number, f"more than one column can be {kind}.{column}: {names}; name it as --columns {kind}.{column}=HEADING")
    places = {column: them[0] for column, them in found.items()}
    return Table(kind, sheet, number, places, {column: heading_text(row[place]) for column, place in places.items()})


def heading_rows(heads, sheet):
    """The numbers of the rows that are headings: all that have each heading of a table, or else the best at the top."""
    whole = [number for number, row in enumerate(sheet.rows, 1) if heads.is_whole(row)]
    if whole:
        return whole
    top = [(len(heads.best(row)[1]), -number) for number, row in enumerate(sheet.rows[:TOP_ROWS], 1)]
    most, number = max(top, default=(0, 0))
    return [-number] if most else []


def filled(sheet, first, following):
    """The rows of a sheet, with their numbers, from the first up to the following one in which something stands."""
    rows = [(it, sheet.rows[it - 1]) for it in range(first, following)]
    return [(number, row) for number, row in rows if any(value is not None for value in row)]


def without_title(sheet, rows, following):
    """Some rows without the title of the table that begins at the following row: one cell by itself, after an empty row."""
    if not rows or following > len(sheet.rows):
        return rows, None
    number, row = rows[-1]
    values = [value for value in row if value is not None]
    if len(values) == 1 and not filled(sheet, number - 1, number):
        return rows[:-1], (number, heading_text(values[0]))
    return rows, None


def check_lengths(table, faults):
    """That nothing stands in a row past the last heading, as where a decimal comma was taken for a separator."""
    length = len(table.sheet.rows[table.row - 1])
    for number, row in table.rows:
        more = [value for value in row[length:] if value is not None]
        if more:
            faults.add_at(table.sheet.source, number, f'"{heading_text(more[0])}" stands past the last heading: is a decimal comma taken for the end of a cell?')


def tables_of(heads, sheet, faults):
    """The tables of a sheet, one below the other. A heading with another heading right below it is a title, and no table."""
    numbers, tables = heading_rows(heads, sheet), []
    for number, following in zip(numbers, numbers[1:] + [len(sheet.rows) + 1]):
        rows, title = without_title(sheet, filled(sheet, number + 1, following), following)
        if not rows and following <= len(sheet.rows):
            continue
        table = table_at(heads, sheet, number, faults)
        table.rows, table.title = rows, title
        check_lengths(table, faults)
        tables.append(table)
    return tables


def called(paths):
    """What each file is called in faults: its name, or its whole path where two have the same name."""
    names = [pathlib.Path(it).name for it in paths]
    return {path: path if names.count(name) > 1 else name for path, name in zip(paths, names)}


def read(paths, heads, faults):
    """All tables of some files, and the sheets in which none was found."""
    tables, others = [], []
    for path, name in called(paths).items():
        try:
            sheets = sheets_of(path, name, heads)
        except WordsRefusal:
            raise
        except Refusal as refusal:
            faults.add_at(name, 0, str(refusal))
            continue
        found = {sheet.source: tables_of(heads, sheet, faults) for sheet in sheets}
        tables += [table for them in found.values() for table in them]
        others += [sheet for sheet in sheets if not found[sheet.source]]
        if not any(found.values()):
            faults.add_at(name, 0, f"no row has the headings of {', '.join(WORDS)}; name them by --columns, docs/tables.md has the usual ones")
    return tables, others
