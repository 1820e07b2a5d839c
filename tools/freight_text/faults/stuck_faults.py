"""The faults of the answer that no plan goes on, `answer,stuck,SHIPMENT` and `end`, codes 21 to 27."""

from .certificate_faults import after_end_fault
from .findings import Fault
from .kinds import ORDER
from .line_fields import count_fault, name_faults, named, shown

FORM = (("SHIPMENT", "shipment"),)


class StuckReading:
    """Such an answer so far, after the records of an instance and what is told after it."""

    def __init__(self, draft):
        """The draft is what the instance's records gave."""
        self.draft, self.seen = draft, []

    def has_ended(self):
        return "end" in self.seen[1:]

    def faults(self, record):
        """The faults of a line after those before it, by code."""
        if self.has_ended():
            yield after_end_fault(record)
        elif not self.seen:
            yield from self.answer_faults(record)
        elif record.kind != "end":
            yield Fault(21, f'the first field is {shown(record.fields[0])}: after an answer stuck only "end" comes', cause="stuck lines")
        elif len(record.fields) != 1:
            yield Fault(22, count_fault(["end"], (), len(record.fields)))

    def answer_faults(self, record):
        if len(record.fields) != 2 + len(FORM):
            yield Fault(22, count_fault(["answer", "stuck"], FORM, len(record.fields)))
        else:
            yield from (Fault(25, *it) for it in name_faults(self.draft, named(FORM, record.fields[2:]), ORDER))

    def take(self, record):
        self.seen.append(record.kind)
