"""The faults of the records that are told after an instance, kept legs and the present, codes 31 to 39, and that of a quote, 38."""

from ..instances import LATEST, TOLD, number_of
from .findings import PRESENT_TWICE, Fault, counted
from .kinds import KEPT_ORDER, told_kind_hint
from .line_fields import count_fault, digit_faults, is_number, is_within, name_faults, named, range_faults, shown
from .near_names import near_kind

MOST = 30_000
TIME = (0, LATEST)
FORM = (("SHIPMENT", "shipment"), ("FROM", "arc"), ("TO", "arc"), ("DEPART", TIME))
WHOLE_FORM = (*FORM, ("ARRIVE", TIME))
PRESENT_FORM = (("TIME", TIME),)


class KeptReading:
    """Where the kept legs so far bring each shipment, and the present, after the records of an instance that a command read."""

    def __init__(self, command, draft):
        """The draft is what the instance's records gave."""
        self.command, self.draft, self.count, self.present = command, draft, 0, None
        self.passed = {}

    def faults(self, record):
        """The faults of a record after those before it, by code."""
        if record.kind not in TOLD:
            hint = told_kind_hint(record, self.command)
            words = f"the first field is {shown(record.fields[0])}: after the first kept or now record only such records come"
            yield Fault(31, words, hint, hint or None)
        elif record.kind == "now":
            yield from self.present_faults(record)
        else:
            yield from self.leg_faults(record)

    def present_faults(self, record):
        if len(record.fields) != 1 + len(PRESENT_FORM):
            yield Fault(32, count_fault(["now"], PRESENT_FORM, len(record.fields)))
            return
        fields = named(PRESENT_FORM, record.fields[1:])
        yield from number_faults(fields)
        yield from limit_faults(fields)
        if self.present:
            yield Fault(38, f"line {self.present.line} tells the present already", cause="present twice", name=PRESENT_TWICE)

    def leg_faults(self, record):
        form = WHOLE_FORM if len(record.fields) > 1 + len(FORM) else FORM
        if len(record.fields) != 1 + len(form):
            wanted = ",".join(["kept", *(name for name, _ in FORM)])
            yield Fault(32, f"{counted(len(record.fields), 'field')} in place of 5 or 6: {wanted}, and ARRIVE where it is told")
            return
        fields = named(form, record.fields[1:])
        yield from number_faults(fields)
        unknown = [Fault(34, *it) for it in name_faults(self.draft, fields, KEPT_ORDER)]
        yield from unknown
        yield from limit_faults(fields)
        words = "" if unknown else self.order_words(record)
        if words:
            yield Fault(36, words, cause=("route", record.fields[1]))
        if self.count >= MOST:
            yield Fault(37, f"this is kept record number {MOST + 1:,}: there may be {MOST:,}", cause="many kept")
        yield from self.arrival_faults(record)

    def arrival_faults(self, record):
        """The fault of a leg that arrives before it departs."""
        times = record.fields[4:]
        if len(times) > 1 and all(is_number(it) and is_within(TIME, it) for it in times) and number_of(times[1]) < number_of(times[0]):
            yield Fault(39, f"ARRIVE is {number_of(times[1])}, before DEPART, which is {number_of(times[0])}")

    def take(self, record):
        """Goes on with what a record gives or seems to mean."""
        kind = near_kind(record.kind, TOLD)
        if kind == "now":
            self.present = self.present or record
        elif kind == "kept":
            self.count += 1
            if len(record.fields) > 3:
                self.passed.setdefault(self.draft.names.meant(record.fields[1], self.draft.shipments), []).append(record.fields[3])

    def order_words(self, record):
        """Why a leg doesn't go on from the shipment's kept legs before it; empty where it does."""
        name, tail, head = record.fields[1:4]
        ends, earlier = self.draft.shipments.get(name), self.passed.get(name, [])
        if ends is None or not ends.origin:
            return ""
        passed = [ends.origin, *earlier]
        if tail != passed[-1]:
            return f"{name} is at {passed[-1]} after {len(earlier)} kept legs, and this one leaves {tail}"
        if tail == ends.destination:
            return f"{name} is at its destination {tail} already"
        return f"{name} was at {head} before, and no route passes a terminal twice" if head in passed else ""


def number_faults(fields):
    """The faults of times that aren't numbers."""
    return [Fault(33, words, hint) for words, hint in digit_faults(fields)]


def limit_faults(fields):
    """The faults of times that are above their limit."""
    return [Fault(35, words) for words in range_faults(fields)]


def no_shipment_fault(draft, name):
    """The fault of a quote's records, of which none is a shipment, or none that of the name that is asked for."""
    if name is None:
        return Fault(38, "the instance has no shipment, and a quote is the price of its last one")
    return Fault(38, f"the instance has no shipment {shown(name)}, whose price is asked for", draft.names.hint(name, draft.shipments))
