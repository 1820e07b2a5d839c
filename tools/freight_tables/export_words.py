"""The words of `export`."""

from __future__ import annotations

import argparse
import pathlib
from dataclasses import dataclass

from .faults import WordsRefusal
from .import_words import Words, check_outputs

VIEWS = ("terminal", "shipment", "truck")
FORMS = ("csv", "json", "xlsx")
DESCRIPTION = """\
An answer of the program in the names, dates and units of the tables that `import` read. CSV has one timetable, by terminal, by
shipment or by truck; a workbook (.xlsx) has one, or all three; JSON has one, or the whole answer (docs/answer.schema.json).
Status 0: done; 1: a file is faulty; 2: the words, or a file of theirs. docs/tables.md has more."""


@dataclass(frozen=True)
class Options:
    """What the words of `export` say."""

    answer: str
    names: str
    instance: str | None
    fleet: str | None
    view: str | None
    form: str
    output: str | None


def words():
    parser = Words(prog="freight export", description=DESCRIPTION, formatter_class=argparse.RawDescriptionHelpFormatter, allow_abbrev=False)
    parser.add_argument("answer", metavar="ANSWER", help="what the program printed")
    parser.add_argument("--names", required=True, metavar="FILE", help="the file of names that import wrote beside the instance")
    parser.add_argument("--instance", metavar="FILE", help="the instance: then sizes, capacities, due times and slack are shown too")
    parser.add_argument("--fleet", metavar="FILE", help="what `fleet` printed: then the timetable by truck has a roster for each")
    parser.add_argument("--by", choices=VIEWS, help="which timetable")
    parser.add_argument("--to", choices=FORMS, help="which form; without it the ending of -o says")
    parser.add_argument("-o", "--output", metavar="FILE", help="where it goes; else to standard output")
    return parser


def options_of(arguments):
    found = words().parse_args(arguments)
    form = found.to or (pathlib.Path(found.output).suffix[1:].lower() if found.output else None)
    if form not in FORMS:
        raise WordsRefusal(f"which form? say --to, one of {', '.join(FORMS)}")
    if form == "csv" and not found.by:
        raise WordsRefusal(f"CSV holds one timetable: say --by, one of {', '.join(VIEWS)}")
    if form == "xlsx" and not found.output:
        raise WordsRefusal("a workbook goes to a file: say -o FILE.xlsx")
    check_outputs([it for it in (found.answer, found.names, found.instance, found.fleet) if it], [found.output] if found.output else [])
    return Options(found.answer, found.names, found.instance, found.fleet, found.by, form, found.output)
