"""What keeps an instance or an answer from being shown on a page, in a sentence.

That is less than what the program tests: whether a plan is one, and at its cost, is said by `check` alone.
"""

from dataclasses import replace

from ..days import planned_of
from ..faults import certificate_faults, line_fields
from ..faults.instance_faults import InstanceReading
from ..faults.kept_faults import KeptReading
from ..faults.kinds import CERTIFICATE
from ..faults.line_fields import DIGITS, shown, takes_number
from ..faults.readings import parts_of
from ..file_faults import FileFault, at

LONGEST = 1000
# The faults of an instance, and of what is told after it, that keep a page from being made of it.
UNREADABLE = (1, 2, 3, 4, 5, 7)
UNREADABLE_TOLD = (31, 32, 33, 34, 35, 36)
NO_TIMETABLE = {
    "bound": "it's an answer of bound, a number without a timetable",
    "trial": "it's the answer of trial, which has no timetable",
    "quote": "it's an answer of quote, a price without a timetable",
}


def line_shown(record):
    return shown(",".join(record.fields))


def record_fault(reading, record, codes):
    """The first fault of a record, of one of some codes, or None; the reading takes the record."""
    faults = [it for it in reading.faults(record) if it.code in codes]
    reading.take(record)
    return "; ".join(filter(None, (faults[0].words, faults[0].hint))) if faults else None


def check_records(reading, records, codes):
    """Raises FileFault at the first record with a fault of one of some codes."""
    for record in records:
        words = record_fault(reading, record, codes)
        if words:
            raise FileFault(at(record, words))


def checked_instance(records, data):
    """The instance to be planned that some records tell, up to an answer. Raises FileFault at the first record that can't be read."""
    if not records:
        raise FileFault("it's empty: an instance is wanted")
    if records[0].kind in CERTIFICATE:
        raise FileFault("it's an answer: hand on the instance first, and the answer after it")
    parts = parts_of("check", records)
    reading = InstanceReading("picture", parts.own, data)
    check_records(reading, parts.own, UNREADABLE)
    check_records(KeptReading("check", reading), parts.told, UNREADABLE_TOLD)
    return planned_of(records)


def line_fault(instance, before, form, record):
    """What is wrong with a line's fields after the words before them, or None."""
    texts = record.fields[before:]
    if len(texts) != len(form):
        return line_fields.count_fault(record.fields[:before], form, len(record.fields))
    fields = line_fields.named(form, texts)
    if any(takes_number(what) and not DIGITS.fullmatch(text) for _, what, text in fields):
        return next(line_fields.digit_faults(fields))[0]
    names = {"shipment": instance.shipments, "terminal": instance.holds, "arc": instance.holds}
    for name, what, text in fields:
        if isinstance(what, str) and text not in names[what]:
            return line_fields.unknown_words(name, "shipment" if what == "shipment" else "terminal", text)
    ends = tuple(text for _, what, text in fields if what == "arc")
    if ends and ends not in instance.arcs:
        return line_fields.no_arc_words(ends)
    return next(line_fields.range_faults(fields), None)


def check_first_line(instance, record):
    """Raises FileFault where an answer's first line tells of no timetable, or names no number."""
    kind = record.fields[1] if len(record.fields) > 1 else ""
    amount = ("COST", (0, certificate_faults.GREATEST))
    forms = {
        "direct": (amount,), "optimal": (amount,), "unfinished": (amount, ("BOUND", amount[1])),
        "infeasible": (("SHIPMENT", "shipment"),), "stuck": (("SHIPMENT", "shipment"),),
    }  # fmt: skip
    if kind in NO_TIMETABLE:
        raise FileFault(NO_TIMETABLE[kind])
    if kind not in forms:
        raise FileFault(at(record, f"the second field is {shown(kind)}: none of {', '.join(forms)}"))
    # What stands after these fields says what was used up, and is not shown.
    front = replace(record, fields=record.fields[: 2 + len(forms[kind])])
    words = line_fault(instance, 2, forms[kind], front)
    if words:
        raise FileFault(at(record, words))


def check_whole(instance, lines):
    """Raises FileFault where a plan's lines don't tell each shipment's way, or tell a departure that isn't one of the truck lines."""
    departures = {(*it.fields[1:3], int(it.fields[3])) for it in lines if it.kind == "truck"}
    carried = set()
    for it in lines:
        if it.kind == "leg":
            carried.add(it.fields[1])
            if (*it.fields[2:4], int(it.fields[4])) not in departures:
                raise FileFault(at(it, f"no truck line leaves {it.fields[2]} for {it.fields[3]} at {it.fields[4]}: the answer isn't whole"))
    missing = [it for it in instance.shipments if it not in carried]
    if missing:
        raise FileFault(f"no leg carries {missing[0]}, which is a shipment of the instance: it's the answer to another instance, or it isn't whole")


def check_answer(instance, records, lines):
    """Raises FileFault where an answer's lines can't be shown. `lines` are those of its records from `answer` on."""
    if not records:
        raise FileFault("it's empty: the program printed no answer")
    if not lines and records[0].kind in NO_TIMETABLE:
        raise FileFault(NO_TIMETABLE[records[0].kind])
    if not lines and records[0].kind == "refused":
        raise FileFault(f"the program refused its input ({line_shown(records[0])}): there is nothing to show")
    if not lines:
        raise FileFault(f"no line begins with answer, and the first is {line_shown(records[0])}: hand on the instance first, and the answer after it")
    check_first_line(instance, lines[0])
    for it in lines[1:]:
        words = line_fault(instance, 1, certificate_faults.LINES[it.kind], it) if it.kind in ("leg", "truck") else None
        if words:
            raise FileFault(at(it, words))
    if lines[-1].kind != "end":
        raise FileFault('the line "end" is missing: the answer was cut')
    if lines[0].fields[1] not in ("infeasible", "stuck"):
        check_whole(instance, lines)
