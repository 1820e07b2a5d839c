"""The faults of an instance's records, codes 1 to 12."""

import copy
import re
from collections import Counter
from dataclasses import dataclass

from ..instances import FIELDS, LATEST, MOST, number_of
from .contents import contents_hint
from .findings import Fault, counted
from .kinds import CERTIFICATE, INSTANCE, instance_kind_hint
from .line_fields import decoded, digit_faults, is_number, is_within, named, range_faults, shown
from .near_names import NearNames, near_kind
from .values import COMMENT, LONGEST_NAME, name_hint

NAME = re.compile(r"[A-Za-z0-9_-]{1,%d}" % LONGEST_NAME)
COUNTS = {"terminal": (2, 3), "arc": (7,), "shipment": (7,)}
# The weight of an instance is what its shipments cost alone, times the factor and the scale.
GREATEST_WEIGHT, FACTOR, SCALE = 2**127 - 1, 65_536, 1_000_000


@dataclass(frozen=True)
class ShipmentEnds:
    """The line of a shipment, and its ends where the record has them."""

    line: int
    origin: str
    destination: str


class InstanceReading:
    """What the records so far give, and what those with faults seem to mean."""

    def __init__(self, command, records, data):
        """The command reads the records, which are all those of the instance; the data is that of the whole input."""
        self.command = command
        self.terminals, self.arcs, self.shipments = {}, {}, {}
        self.counts, self.strays, self.names, self.delivered = Counter(), set(), NearNames(), frozenset()
        self.contents = contents_hint(data, records, FIELDS)
        self.terminal_lines = {it.fields[1]: it.line for it in reversed(records) if it.kind == "terminal" and len(it.fields) > 1}

    def is_empty(self):
        """Whether no records came before."""
        return not self.counts and not self.strays

    def left(self, shipments):
        """The same with these shipments alone, where the others are delivered."""
        draft = copy.copy(self)
        draft.shipments = {name: it for name, it in self.shipments.items() if name in shipments}
        draft.names, draft.delivered = NearNames(), self.shipments.keys() - draft.shipments.keys()
        return draft

    def kind_of(self, record):
        """The kind of a record, or the one that it seems to mean, or None."""
        if record.kind in INSTANCE or not self.contents and record.kind.isalpha():
            return near_kind(record.kind, INSTANCE)
        return None

    def faults(self, record):
        """The faults of a record after those before it, by code."""
        kind = self.kind_of(record)
        if kind != record.kind:
            yield self.kind_fault(record)
        if kind is None:
            return
        if len(record.fields) not in COUNTS[kind]:
            yield self.count_fault(kind, record)
            return
        fields = named([(name, limits or "name") for name, limits in FIELDS[kind]], record.fields[1:])
        yield from self.name_faults(fields)
        yield from (Fault(4, words, hint) for words, hint in digit_faults(fields))
        yield from (Fault(5, words) for words in range_faults(fields))
        yield from self.FAULTS[kind](self, {name: text for name, _, text in fields}, record)
        if self.counts[kind] >= MOST[kind]:
            yield Fault(11, f"this is {kind} number {MOST[kind] + 1:,}: there may be {MOST[kind]:,}", cause=("many", kind))

    def take(self, record):
        """Goes on with what a record gives or seems to mean."""
        kind = self.kind_of(record)
        if kind is None:
            self.strays.update(record.fields[1:2])
            return
        self.counts[kind] += 1
        texts = record.fields[1:] + ("",) * 3
        if kind == "arc":
            self.arcs.setdefault(self.ends(texts[:2]), record.line)
        elif kind == "terminal" and texts[0]:
            self.terminals.setdefault(texts[0], record.line)
        elif kind == "shipment" and texts[0]:
            self.shipments.setdefault(texts[0], ShipmentEnds(record.line, *self.ends(texts[1:3])))

    def ends(self, texts):
        """The terminals that two fields name or seem to mean."""
        return tuple(it and self.names.meant(it, self.terminals) for it in texts)

    def kind_fault(self, record):
        hint = self.contents or instance_kind_hint(record, self.command)
        words = f"the first field is {shown(record.fields[0])}: none of terminal, arc, shipment"
        return Fault(1, words, hint, "an answer" if near_kind(record.kind, CERTIFICATE) else hint or None)

    def count_fault(self, kind, record):
        form = ",".join([kind] + [name for name, _ in FIELDS[kind]])
        wanted = " or ".join(map(str, COUNTS[kind]))
        hint = COMMENT if any(it.startswith("#") for it in record.fields) else ""
        return Fault(2, f"{counted(len(record.fields), 'field')}, and a record of this kind has {wanted}: {form}", hint)

    def name_faults(self, fields):
        """The faults of fields that hold no names, but for what already stands as a terminal's."""
        for name, what, text in fields:
            if what != "name" or NAME.fullmatch(text) or name != "NAME" and text in self.terminals:
                continue
            words = f"field {name} is {shown(text)}: a name is 1 to {LONGEST_NAME} ASCII letters, digits, _ or -"
            yield Fault(3, words, name_hint(decoded(text)), ("name", text) if text else None)

    def taken_fault(self, kind, name, line):
        return Fault(6, f"field NAME is {shown(name)}: the {kind} of line {line} has this name")

    def terminal_faults(self, texts, record):
        name = texts["NAME"]
        if name in self.terminals:
            yield self.taken_fault("terminal", name, self.terminals[name])

    def shipment_faults(self, texts, record):
        name = texts["NAME"]
        if name in self.shipments:
            yield self.taken_fault("shipment", name, self.shipments[name].line)
        yield from self.end_faults(texts, record)
        times = texts["RELEASE"], texts["DUE"]
        if all(is_number(it) and is_within((0, LATEST), it) for it in times) and number_of(times[1]) < number_of(times[0]):
            yield Fault(10, f"DUE is {number_of(times[1])}, before RELEASE, which is {number_of(times[0])}")

    def arc_faults(self, texts, record):
        yield from self.end_faults(texts, record)
        ends = texts["FROM"], texts["TO"]
        if ends in self.arcs and ends[0] != ends[1]:
            yield Fault(9, f"the arc of line {self.arcs[ends]} joins the same terminals in the same direction")

    FAULTS = {"terminal": terminal_faults, "arc": arc_faults, "shipment": shipment_faults}

    def end_faults(self, texts, record):
        """The faults of the two ends of an arc or a shipment."""
        for name in ("FROM", "TO"):
            text = texts[name]
            if NAME.fullmatch(text) and text not in self.terminals and text not in self.strays:
                yield self.no_terminal_fault(name, text, record)
        if texts["FROM"] == texts["TO"] != "":
            yield Fault(8, f"FROM and TO are both {shown(texts['FROM'])}")

    def no_terminal_fault(self, name, text, record):
        words = f"field {name} is {shown(text)}: no terminal before this record has this name"
        if self.terminal_lines.get(text, 0) > record.line:
            hint = f"line {self.terminal_lines[text]} has that terminal: move it up, before every record that names it"
            return Fault(7, words, hint, ("terminal", text))
        hint = self.names.hint(text, self.terminals) or self.names.hint(text, self.terminal_lines)
        return Fault(7, words, hint, None if hint else ("terminal", text))


def is_too_large(total, scale):
    """Whether the weight of an instance is above its limit at a scale; the total is what all shipments cost alone."""
    return total * FACTOR * scale > GREATEST_WEIGHT


def weight_faults(total, scale):
    """The fault 12 of an instance whose records have none, at the scale of the words."""
    if is_too_large(total, SCALE):
        words = "the money is too large: every shipment alone over every arc, times 65,536,000,000, has to be below 2^127;"
        times = f" it is about {total * FACTOR * SCALE / GREATEST_WEIGHT:,.1f} times that"
        yield Fault(12, words + times, "count money in a larger unit (say, hundreds in place of cents), or sizes in a larger one")
    elif is_too_large(total, scale):
        most = GREATEST_WEIGHT // (FACTOR * total)
        yield Fault(12, f"the scale {scale:,} is too large for this instance: it may be {most:,} at most")
