"""`import`: a carrier's tables to an instance and its file of names."""

import sys

from freight_text.names_files import NamesFile

from . import carrier_days, summaries, whole_files
from .faults import DONE, FAULTY, Faults, quoted, status_of
from .headings import Heads
from .import_words import options_of
from .instance_texts import check_weight, written
from .program_names import alike
from .tables import read
from .units import check_ranges, units_of


def say(lines):
    for line in lines:
        print(line, file=sys.stderr)


def notes(day, options):
    """What isn't a fault, and may still not be meant."""
    for kind, names in (("terminals", day.terminals), ("shipments", day.names("shipments"))):
        for one, two in alike(names):
            yield f"note: {kind} {quoted(one)} and {quoted(two)} are two: mend the tables if they are one"
    if len(day.size_units) > 1:
        yield f"note: headings of sizes and capacities name {', '.join(map(quoted, day.size_units))}: all of them have to count the same"
    if day.calendar.day and not options.zone:
        yield "note: times are local clock times, each day 24 hours long; on a day with a clock change say --zone, as --zone Europe/Paris"
    if not options.names:
        yield "note: no file of names is written, which export needs: say -o NAME.csv, or --names FILE"


def manner_back(tables, day):
    """The separator and the decimal mark in which text goes back to the carrier: those of the shipments' file."""
    table = next(it for it in tables if it.kind == "shipments")
    separator = table.sheet.separator or ","
    marks = [it.mark for it in (day.manners[table.sheet.source], *day.manners.values()) if it.mark]
    mark = marks[0] if marks else "," if separator == ";" else "."
    return separator, "." if mark == separator else mark


def names_of(day, written, manner):
    """The file of names of a day that was written; its text goes back in a manner, a separator and a decimal mark."""
    terminals, shipments = ({name: own for own, name in it.items()} for it in (written.terminals, written.shipments))
    units, calendar = written.units, day.calendar
    counted = units.size_decimals, day.size_unit, units.money_decimals, day.currency
    return NamesFile(terminals, shipments, units.seconds, calendar.zero() if calendar.day else None, calendar.zone, *counted, *manner)


def run(options):
    """The status; the tables are read, and the files are written."""
    faults = Faults()
    tables, others = read(options.files, Heads(options.columns), faults)
    day = carrier_days.day_of(tables, options, faults)
    units = None
    if not faults.found:
        units = units_of(day)
        check_ranges(day, units, faults)
    if not faults.found:
        text = written(day, units)
        check_weight(text.text, faults)
    say(summaries.lines(tables, others, day, units, options))
    if faults.found:
        say([f"{len(faults.found):,} {'fault' if len(faults.found) == 1 else 'faults'}; nothing is written", *faults.lines()])
        return FAULTY
    say(notes(day, options))
    files = [(options.output, text.text.encode())] if options.output else []
    if options.names:
        files.append((options.names, names_of(day, text, manner_back(tables, day)).text().encode()))
    whole_files.write(files)
    if not options.output:
        whole_files.to_output(text.text.encode())
    return DONE


def main(arguments):
    """Runs the command; what it says of words and files is one sentence."""
    return status_of("import", lambda: run(options_of(arguments)))
