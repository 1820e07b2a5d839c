"""Text that a spreadsheet saves: how its characters are coded, and what stands between its cells."""

import codecs
import csv
import io

from .faults import Refusal

MARKS = (
    (codecs.BOM_UTF8, "utf-8", "UTF-8 with a mark"),
    (codecs.BOM_UTF16_LE, "utf-16-le", "UTF-16"),
    (codecs.BOM_UTF16_BE, "utf-16-be", "UTF-16"),
)
SEPARATORS = {";": "semicolons", ",": "commas", "\t": "tabs"}


def marked(data):
    """The mark at the front of some bytes, and how they are coded by it."""
    for mark, coding, name in MARKS:
        if data.startswith(mark):
            return mark, coding, name
    return b"", "utf-8", "UTF-8"


def decoded(data):
    """The characters of some bytes, and what their coding is called."""
    mark, coding, name = marked(data)
    if not mark and b"\0" in data:
        raise Refusal("it has bytes that are 0: no text, or UTF-16 without a mark; save it as CSV in UTF-8")
    try:
        return data[len(mark) :].decode(coding), name
    except UnicodeDecodeError as error:
        if mark:
            raise Refusal(f"it has the mark of {name}, and its byte {error.start + len(mark) + 1:,} is none of that") from None
    try:
        return data.decode("cp1252"), "Windows-1252, since it isn't UTF-8"
    except UnicodeDecodeError as error:
        raise Refusal(f"its byte {error.start + 1:,} is a character neither of UTF-8 nor of Windows-1252") from None


def is_text(text):
    return all(it >= " " or it in "\t\r\n\f" for it in text)


def stated_separator(text):
    """What a first line `sep=;` says, and the text after it."""
    first, _, rest = text.partition("\n")
    first = first.strip().strip('"')
    if first.lower().startswith("sep=") and first[4:] in SEPARATORS:
        return first[4:], "\n" + rest
    return None, text


def rows_by(text, separator):
    """The rows of a text under a separator, empty cells as None; a sentence where a quote has no end."""
    rows = []
    try:
        for row in csv.reader(io.StringIO(text, newline=""), delimiter=separator, strict=True):
            rows.append([it if it.strip() else None for it in row])
    except csv.Error as error:
        raise Refusal(f"row {len(rows) + 1} can't be read as CSV: {error}") from None
    return rows


def separated(text, worth):
    """The rows of a text under the separator that finds most, which `worth` says of rows, and what that separator is called."""
    stated, text = stated_separator(text)
    if stated:
        return rows_by(text, stated), SEPARATORS[stated], stated
    found = []
    for separator in SEPARATORS:
        try:
            rows = rows_by(text, separator)
        except Refusal as refusal:
            found.append((((-1, False), 0), separator, refusal))
            continue
        found.append(((worth(rows), max(map(len, rows), default=0)), separator, rows))
    most = max(key for key, _, _ in found)
    _, separator, rows = next(it for it in found if it[0] == most)
    if isinstance(rows, Refusal):
        raise rows
    return rows, SEPARATORS[separator] if most[1] > 1 else "one column", separator
