"""The files of a page, read and looked through for faults."""

import csv
from dataclasses import dataclass
from pathlib import Path
from typing import Optional

from ..faults.line_fields import shown
from ..file_faults import FileFault, at, of_file
from ..fleets import trucks_of
from ..instances import certificate_part
from ..names_files import names_in
from ..records import records_of
from ..timetables import Timetable
from .displays import Display, display_of
from .faults import LONGEST, check_answer, checked_instance


@dataclass(frozen=True)
class Inputs:
    """What a page shows: a timetable, what `check` said of it and the trucks of `fleet` (None where nobody asked), names and units."""

    timetable: Timetable
    checked: Optional[list]
    trucks: Optional[list]
    display: Display


class Unreadable(Exception):
    """A sentence on a file that can't be read."""


def file_bytes(path):
    """All bytes of a file. Raises Unreadable."""
    try:
        return Path(path).read_bytes()
    except OSError as fault:
        raise Unreadable(f"{path}: {fault.strerror or fault}") from None


def records_in(data):
    """The records of some bytes. Raises FileFault where they are no CSV or a field is longer than any that may come."""
    try:
        records = records_of(data)
    except csv.Error as fault:
        raise FileFault(f"it isn't CSV: {fault}") from None
    for it in records:
        if any(len(field) > LONGEST for field in it.fields):
            raise FileFault(at(it, f"a field has more than {LONGEST:,} bytes"))
    return records


def timetable_of(instance_path, answer_path):
    """The timetable of two files. Raises Unreadable, and FileFault with the file's name."""
    instance_data, answer_data = file_bytes(instance_path), file_bytes(answer_path)
    instance = of_file(instance_path, lambda: checked_instance(records_in(instance_data), instance_data))
    of_file(answer_path, lambda: check_answer_records(instance, records_in(answer_data)))
    return Timetable(instance_data, answer_data)


def check_answer_records(instance, records):
    check_answer(instance, records, certificate_part(records))


def checked_words(data, timetable):
    """The fields of what `check` printed. Raises FileFault where it's something else, or of another answer."""
    records, kind = records_in(data), timetable.answer[1]
    fields = list(records[0].fields) if len(records) == 1 else [""]
    if fields[0] not in ("accepted", "rejected", "refused"):
        raise FileFault("it isn't what check prints, one line that begins with accepted, rejected or refused")
    if fields[0] == "accepted" and fields[1:] != [kind]:
        raise FileFault(f"it accepts an answer of the kind {shown(','.join(fields[1:]))}, and the answer shown is of the kind {kind}: check that one")
    return fields


def inputs_of(words):
    """What a page shows, of the words of the command line. Raises Unreadable, and FileFault."""
    timetable = timetable_of(words.instance, words.answer)
    checked = of_file(words.checked, lambda: checked_words(file_bytes(words.checked), timetable)) if words.checked else None
    trucks = of_file(words.fleet, lambda: trucks_of(records_in(file_bytes(words.fleet)), timetable.departures)) if words.fleet else None
    names = of_file(words.names, lambda: names_in(file_bytes(words.names))) if words.names else None
    display = of_file("the words", lambda: display_of(names, words.zero, words.unit))
    return Inputs(timetable, checked, trucks, display)
