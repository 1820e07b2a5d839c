"""Workbooks (.xlsx), by openpyxl."""

import datetime
import io
import warnings
import zipfile

from .faults import Refusal

ZIP, OLD = b"PK\x03\x04", b"\xd0\xcf\x11\xe0"
MISSING = "openpyxl isn't installed, which reads and writes .xlsx: install it (`apt install python3-openpyxl`), or use CSV"


def library():
    """The library; a sentence where it isn't installed."""
    try:
        import openpyxl
    except ImportError:
        raise Refusal(MISSING) from None
    return openpyxl


def is_workbook(data):
    """Whether some bytes are a workbook; a sentence where they are one of another kind."""
    if data.startswith(OLD):
        raise Refusal("it is an old workbook (.xls): save it as .xlsx or CSV")
    if not data.startswith(ZIP):
        return False
    try:
        with zipfile.ZipFile(io.BytesIO(data)) as parts:
            names = parts.namelist()
    except Exception:  # The library names no kinds for what a broken file can raise.
        raise Refusal("it begins as a workbook (.xlsx) and is a broken one") from None
    if "xl/workbook.xml" not in names:
        raise Refusal("it is a packed file and no workbook (.xlsx): save the tables as .xlsx or CSV")
    return True


def value_of(cell):
    """What stands in a cell. A day without a clock time is a date, and not its midnight."""
    value = cell.value
    if isinstance(value, datetime.datetime) and value.time() == datetime.time() and "h" not in cell.number_format.lower():
        return value.date()
    if isinstance(value, str) and not value.strip():
        return None
    return value


def sheets(data):
    """Each sheet: its name, whether it is shown, and its rows, of formulas what they gave."""
    openpyxl = library()
    try:
        with warnings.catch_warnings():
            warnings.simplefilter("ignore")
            book = openpyxl.load_workbook(io.BytesIO(data), data_only=True)
    except Exception as error:  # As above.
        raise Refusal(f"it can't be read as a workbook: {error}") from None
    return [(it.title, it.sheet_state == "visible", [[value_of(cell) for cell in row] for row in it.iter_rows()]) for it in book.worksheets]


def written(tables):
    """The bytes of a workbook with a sheet for each (name, headings, rows)."""
    openpyxl = library()
    book = openpyxl.Workbook()
    book.remove(book.active)
    for name, headings, rows in tables:
        sheet = book.create_sheet(name)
        for row in (headings, *rows):
            sheet.append(row)
            for cell in sheet[sheet.max_row]:
                # A name that begins with = is no formula.
                cell.data_type = "s" if isinstance(cell.value, str) else cell.data_type
        sheet.freeze_panes = "A2"
        for place, heading in enumerate(headings, 1):
            widest = max([len(heading)] + [len(str(row[place - 1] or "")) for row in rows])
            sheet.column_dimensions[openpyxl.utils.get_column_letter(place)].width = min(60, widest + 2)
    file = io.BytesIO()
    book.save(file)
    return file.getvalue()
