"""The words of `import`."""

from __future__ import annotations

import argparse
import datetime
import os
import pathlib
from dataclasses import dataclass

from freight_text.file_faults import FileFault
from freight_text.zones import is_known, zone_named

from . import whole_files
from .faults import WordsRefusal, near
from .heading_words import WORDS
from .headings import unit_of
from .moments import ORDERS

DESCRIPTION = """\
A carrier's tables of terminals, lanes and shipments to an instance, and beside it a file with their names, zero of time and
units. FILE is CSV as a spreadsheet saves it, or a workbook (.xlsx). Without a table of terminals they are those of the lanes.
Status 0: done; 1: the tables have faults, which standard error lists; 2: the words, or a file of theirs. docs/tables.md has more."""


@dataclass(frozen=True)
class Options:
    """What the words of `import` say."""

    files: list[str]
    output: str | None
    names: str | None
    columns: dict[tuple[str, str], str]
    zone: datetime.tzinfo | None
    day: datetime.date | None
    order: str | None
    decimal: str | None
    time_unit: int | None


class Words(argparse.ArgumentParser):
    """Words that raise a sentence where they are none of the forms."""

    def error(self, message):
        raise WordsRefusal(f"{message}; docs/tables.md has them all")


def words():
    parser = Words(prog="freight import", description=DESCRIPTION, formatter_class=argparse.RawDescriptionHelpFormatter, allow_abbrev=False)
    parser.add_argument("files", nargs="+", metavar="FILE", help="a table, several in one file, or a workbook (.xlsx)")
    parser.add_argument("-o", "--output", metavar="NAME.csv", help="where the instance goes, with NAME.names.json beside it; else it goes to standard output")
    parser.add_argument("--names", metavar="FILE", help="where the names go, in place of NAME.names.json")
    parser.add_argument(
        "--columns", action="append", default=[], metavar="TABLE.COLUMN=HEADING", help="which heading a column has, or a file of such lines; may stand more than once"
    )
    parser.add_argument("--zone", metavar="NAME", help="the zone of the clocks, as Europe/Paris: then a day of a clock change has its 23 or 25 hours")
    parser.add_argument("--day", metavar="YYYY-MM-DD", help="the day of clock times that have no date")
    parser.add_argument("--dates", choices=ORDERS, help="how 03/04/2026 is read")
    parser.add_argument("--decimal", choices=("point", "comma"), help="how 1,234 and 1.234 are read")
    parser.add_argument("--time-unit", choices=("min", "h"), help="what a bare number of time counts, where its heading doesn't say")
    return parser


def assignment(text, place):
    """The table, the column and the heading of `TABLE.COLUMN=HEADING`; a sentence where it is none."""
    name, _, heading = (it.strip() for it in text.partition("="))
    table, _, column = name.partition(".")
    if table not in WORDS:
        raise WordsRefusal(f"{place} {text!r}: there is no table {table!r}{near(table, WORDS)}; they are {', '.join(WORDS)}")
    if column not in WORDS[table]:
        raise WordsRefusal(f"{place} {text!r}: {table} has no column {column!r}{near(column, WORDS[table])}; they are {', '.join(WORDS[table])}")
    if not heading:
        raise WordsRefusal(f"{place} {text!r}: no heading stands after =")
    return (table, column), heading


def columns_of(texts):
    """The assignments of --columns: each text is one, or the name of a file with one a line."""
    found = {}
    for text in texts:
        if "=" in text and not pathlib.Path(text).is_file():
            found.update([assignment(text, "--columns")])
            continue
        try:
            lines = whole_files.read(text).decode("utf-8-sig").splitlines()
        except UnicodeDecodeError:
            raise WordsRefusal(f"--columns {text} isn't text in UTF-8") from None
        kept = [(number, line) for number, line in enumerate(lines, 1) if line.strip() and not line.lstrip().startswith("#")]
        found.update(assignment(line, f"{text}, line {number},") for number, line in kept)
    return found


def day_of(text):
    try:
        day = datetime.datetime.strptime(text, "%Y-%m-%d").date()
    except ValueError:
        day = None
    if day is None or not is_known(day):
        raise WordsRefusal(f"--day {text}: it is no day as 2026-12-31")
    return day


def zone_of(name):
    """The zone of a word."""
    try:
        return zone_named(name)
    except FileFault as fault:
        raise WordsRefusal(str(fault)) from None


def names_beside(output):
    """The file of names beside an instance."""
    path = pathlib.Path(output)
    return str(path.with_suffix(".names.json") if path.suffix == ".csv" else path.with_name(path.name + ".names.json"))


def check_outputs(files, outputs):
    """That no file that is read is written over, and no two files are one."""
    for output in outputs:
        if any(os.path.exists(output) and os.path.exists(it) and os.path.samefile(it, output) for it in files):
            raise WordsRefusal(f"{output} is one of the files to read, and would be written over")
    if len(outputs) == 2 and os.path.realpath(outputs[0]) == os.path.realpath(outputs[1]):
        raise WordsRefusal(f"{outputs[0]} can't hold the instance and the names")


def options_of(arguments):
    found = words().parse_args(arguments)
    names = found.names or (names_beside(found.output) if found.output else None)
    check_outputs(found.files, [it for it in (found.output, names) if it])
    return Options(
        found.files,
        found.output,
        names,
        columns_of(found.columns),
        zone_of(found.zone) if found.zone else None,
        day_of(found.day) if found.day else None,
        found.dates,
        {"point": ".", "comma": ","}.get(found.decimal),
        unit_of(found.time_unit) if found.time_unit else None,
    )
