"""The records of a text, as docs/formats.md says: CSV, blanks stripped, empty fields at the end dropped."""

import csv
import io
from dataclasses import dataclass

BYTE_ORDER_MARK = b"\xef\xbb\xbf"
# What stands for a byte 0 while records are read: before Python 3.11 the library reads none.
STAND_IN = "\u0100"
csv.field_size_limit(1 << 30)


@dataclass(frozen=True)
class Record:
    """One record: the line on which it begins, its ordinal (both from 1), and its fields, at least one."""

    line: int
    ordinal: int
    fields: tuple[str, ...]

    @property
    def kind(self):
        return self.fields[0]


def stripped(fields):
    fields = [it.strip(" \t") for it in fields]
    while fields and not fields[-1]:
        fields.pop()
    return tuple(fields)


def records_of(data):
    """The records of some bytes. Each byte stands as the character of its number, so that none is lost."""
    text = data.removeprefix(BYTE_ORDER_MARK).decode("latin-1").replace("\0", STAND_IN)
    reader = csv.reader(io.StringIO(text, newline=""))
    found, before = [], 0
    for row in reader:
        line, before = before + 1, reader.line_num
        fields = stripped(it.replace(STAND_IN, "\0") for it in row)
        if fields:
            found.append(Record(line, len(found) + 1, fields))
    return found
