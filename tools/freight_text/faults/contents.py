"""What a file is that holds no records of the format, and what to do with it."""

import re

IMPORT = "./freight import reads it (docs/tables.md)"
UTF_16_MARKS = (b"\xff\xfe", b"\xfe\xff")
LOOKED_AT = 1000
# Bytes of control characters, but for tab, line feed, form feed and carriage return: no text has them.
CONTROL = re.compile(rb"[\x00-\x08\x0b\x0e-\x1a\x1c-\x1f]")
# What stands in the first row of a table, in the words that people use.
HEADINGS = frozenset(
    "name id kind type record from to origin destination terminal hub hold arc lane shipment order time duration capacity truck cost"
    " freight size weight pallets release ready pickup earliest due deadline latest depart arrive departure arrival".split()
)
# How files of other kinds begin.
BEGINNINGS = (
    (b"\x7fELF", "the file is a program (ELF) and no CSV: hand on the file with the records"),
    (b"%PDF-", "the file is a PDF and no CSV: hand on the table that it was made of, as CSV"),
    (b"\x1f\x8b", "the file is compressed by gzip: hand it on through gunzip -c"),
    (b"\xd0\xcf\x11\xe0", "the file is a spreadsheet of an old kind (.xls): save it as .xlsx or CSV"),
)


def archive_hint(data):
    """What is said of a ZIP archive, which spreadsheets are too."""
    if b"xl/" in data or b"[Content_Types].xml" in data:
        return f"the file is a spreadsheet (.xlsx): {IMPORT}, or save it as CSV"
    if b"opendocument.spreadsheet" in data:
        return "the file is a spreadsheet (.ods): save it as .xlsx or CSV"
    return "the file is a ZIP archive: take the CSV file out of it"


def is_utf_16(data):
    """Whether bytes have a mark of UTF-16, or a zero at every second place as ASCII has in it."""
    if data.startswith(UTF_16_MARKS):
        return True
    places = [data[start:LOOKED_AT:2] for start in (0, 1)]
    zeros = [it.count(0) for it in places]
    return min(zeros) == 0 and max(zeros) * 4 > 3 * len(places[zeros.index(max(zeros))]) > 0


def is_heading(record):
    """Whether at least two fields of a record, and half of them, are words that head columns, and none is a number."""
    fields = [it.lower() for it in record.fields]
    count = sum(any(word in HEADINGS for word in re.split("[^a-z]+", it)) for it in fields)
    return count >= 2 and 2 * count >= len(fields) and not any(it.isdigit() for it in fields)


def table_hint(records, kinds):
    """What is said of a table with headings, whose second record is of no kind either."""
    if not records or not is_heading(records[0]) or len(records) < 2 or records[1].kind in kinds:
        return ""
    return f"a table with headings? {IMPORT}"


def contents_hint(data, records, kinds):
    """What the whole file seems to be, and what to do; empty where it may well hold records of the kinds."""
    for beginning, hint in BEGINNINGS:
        if data.startswith(beginning):
            return hint
    if data.startswith(b"PK\x03\x04"):
        return archive_hint(data)
    if is_utf_16(data):
        return f"the file looks like UTF-16: save it as CSV in UTF-8; if it is a table, {IMPORT}"
    control = CONTROL.search(data, 0, LOOKED_AT)
    if control:
        return f"the file has bytes that no text has, the first at place {control.start() + 1}: is it CSV?"
    return table_hint(records, kinds)
