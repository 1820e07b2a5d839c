"""What the program printed, looked at line by line before it is told in other words: answers, instances, fleets."""

from __future__ import annotations

from dataclasses import dataclass

from freight_text.days import planned_of
from freight_text.faults import certificate_faults, kept_faults
from freight_text.faults.line_fields import DIGITS, count_fault, no_arc_words, shown, takes_number, words_of
from freight_text.instances import FIELDS, TOLD, Instance, part_from
from freight_text.records import records_of
from freight_text.timetables import Departure, Leg

from .faults import Refusal

AMOUNT, TIME = (0, certificate_faults.GREATEST), (0, certificate_faults.LATEST_TIME)
# The fields of each line that is read, after its words.
LINES = {
    **{name: form for name, form in certificate_faults.LINES.items() if name.startswith("answer") or name in ("leg", "truck")},
    "answer,bound": (("VALUE", AMOUNT),),
    "answer,stuck": (("SHIPMENT", "shipment"),),
    "quote": (("SHIPMENT", "shipment"), ("LOW", AMOUNT), ("HIGH", AMOUNT)),
}
# The fields that a quote of a named shipment has besides.
NAMED_QUOTE = (("ADDED", AMOUNT), ("OPEN", ("none", "before", "after", "both")))
# The records that are told after an instance, after their first field; ARRIVE may be missing.
KEPT, PRESENT = kept_faults.WHOLE_FORM, kept_faults.PRESENT_FORM
LONGEST_NUMBER = 40


@dataclass(frozen=True)
class Answer:
    """An answer: the words of its first line and the fields after them, its legs and departures, and its instance where it is known.

    Without the instance the capacity of each departure is 0.
    """

    kind: str
    fields: tuple[str, ...]
    legs: list[Leg]
    departures: list[Departure]
    instance: Instance | None

    def has_timetable(self):
        return self.kind in ("direct", "optimal", "unfinished")

    def aboard(self):
        """The shipments of each departure."""
        found = {}
        for leg in self.legs:
            found.setdefault((leg.tail, leg.head, leg.depart), []).append(leg.shipment)
        return found


def is_right(names, what, text):
    if what == "shipment":
        return text in names.shipments
    if what in ("terminal", "arc"):
        return text in names.terminals
    is_number = takes_number(what) and len(text) <= LONGEST_NUMBER and DIGITS.fullmatch(text)
    return text in words_of(what) or bool(is_number) and what[0] <= int(text) <= what[1]


def checked(names, path, record, words, form):
    """The fields of a line after its words; a sentence where one isn't what its place takes."""
    texts = record.fields[len(words) :]
    if len(texts) != len(form):
        raise Refusal(f"{path}, line {record.line}: {count_fault(words, form, len(record.fields))}")
    for (name, what), text in zip(form, texts):
        if not is_right(names, what, text):
            why = f"no {'shipment' if what == 'shipment' else 'terminal'} of the file of names" if isinstance(what, str) else "not what stands there"
            raise Refusal(f"{path}, line {record.line}: field {name} is {shown(text)}: {why}")
    return texts


def part_of(data, path, *kinds):
    """The lines from the first of some kinds on, to `end`; a sentence where they aren't there, or aren't whole."""
    records = records_of(data)
    part = next((part for part in (part_from(records, it) for it in kinds) if part), [])
    if not part:
        first = ",".join(records[0].fields[:3]) if records else "nothing"
        raise Refusal(f"{path} has no line {' or '.join(kinds)}, so it is no such answer of the program: it begins with {shown(first)}")
    if part[-1].kind != "end":
        raise Refusal(f"{path} has no line end after its answer: it was cut, or something stands after it")
    return part


def form_of(record):
    """The fields of a record of an instance, or of one that is told after it, or None where it is none."""
    count = len(record.fields) - 1
    if record.kind in TOLD:
        return PRESENT if record.kind == "now" else KEPT[: max(4, count)]
    if record.kind not in FIELDS:
        return None
    form = tuple((name, limits or ("shipment" if (record.kind, name) == ("shipment", "NAME") else "terminal")) for name, limits in FIELDS[record.kind])
    return form[: max(1, count)] if record.kind == "terminal" else form


def instance_in(data, path, names):
    """The instance that a file tells to be planned; a sentence where a line is none of an instance with these names."""
    records, arcs = [], set()
    for record in records_of(data):
        form = form_of(record)
        if record.kind == "answer":
            break
        if form is None or record.kind in FIELDS and records and records[-1].kind in TOLD:
            raise Refusal(f"{path}, line {record.line}: it is no line of an instance: {shown(record.fields[0])}")
        fields = checked(names, path, record, [record.kind], form)
        if record.kind == "arc":
            arcs.add(tuple(fields[:2]))
        if record.kind == "kept" and tuple(fields[1:3]) not in arcs:
            raise Refusal(f"{path}, line {record.line}: {no_arc_words(fields[1:3])}")
        records.append(record)
    return planned_of(records)


def departure_of(fields, arrivals, instance, place):
    tail, head, depart, trucks, load = *fields[:2], *map(int, fields[2:])
    if (tail, head, depart) not in arrivals:
        raise Refusal(f"{place}: no leg leaves by this truck line")
    return Departure(tail, head, depart, arrivals[tail, head, depart], trucks, load, instance.arcs[tail, head].capacity if instance else 0)


def check_instance(answer_path, instance, legs):
    for leg in legs:
        if (leg.tail, leg.head) not in instance.arcs or leg.shipment not in instance.shipments:
            raise Refusal(f"{answer_path} isn't of this instance: it has no {leg.shipment}, or no arc from {leg.tail} to {leg.head}")


def answer_in(data, path, names, instance):
    """The answer of a file; a sentence where it is none, or of other names."""
    part = part_of(data, path, "answer", "quote")
    words = list(part[0].fields[: 1 if part[0].kind == "quote" else 2])
    if ",".join(words) not in LINES:
        raise Refusal(f"{path}, line {part[0].line}: no answer begins so: {shown(','.join(words))}")
    form = LINES[",".join(words)]
    if words == ["quote"] and len(part[0].fields) > 1 + len(form):
        form += NAMED_QUOTE
    fields = checked(names, path, part[0], words, form)
    if words[-1] == "unfinished" and int(fields[1]) > int(fields[0]):
        raise Refusal(f"{path}, line {part[0].line}: its bound is above its cost")
    legs = [checked(names, path, it, ["leg"], LINES["leg"]) for it in part if it.kind == "leg"]
    legs = [Leg(*it[:3], *map(int, it[3:])) for it in legs]
    if instance:
        check_instance(path, instance, legs)
    arrivals = {(it.tail, it.head, it.depart): it.arrive for it in legs}
    departures = []
    for it in part:
        if it.kind == "truck":
            departures.append(departure_of(checked(names, path, it, ["truck"], LINES["truck"]), arrivals, instance, f"{path}, line {it.line}"))
    return Answer(words[-1], fields, legs, departures, instance)
