"""The faults of a certificate's lines, codes 21 to 28."""

from ..instances import LATEST, number_of
from .findings import Fault, counted
from .instance_faults import is_too_large
from .kinds import CERTIFICATE, GROUPS, INSTANCE, ORDER, certificate_kind_hint
from .line_fields import count_fault, digit_faults, is_number, is_within, name_faults, named, range_faults, shown, takes_number
from .near_names import near_kind

ANSWERS = ("optimal", "unfinished", "infeasible", "direct")
GREATEST, GREATEST_NUMBER = 2**127 - 1, 2**32 - 1
LATEST_TIME, LATEST_ROUND, FASTEST, GREATEST_SCALE, MOST_SPLITS = LATEST, 4000, 10_000_000, 10**9, 100_000
TIME, FIGURE = (0, LATEST_TIME), (0, GREATEST)
RUN = (("POINT", TIME), ("UNTIL", (0, LATEST_TIME + 1)))
ENDS = (("FROM", "arc"), ("TO", "arc"))

# The fields of each line after its words.
LINES = {
    "answer,direct": (("COST", FIGURE),),
    "answer,optimal": (("COST", FIGURE),),
    "answer,unfinished": (("COST", FIGURE), ("BOUND", FIGURE), ("SPENT", ("rounds", "branches", "time"))),
    "answer,infeasible": (("SHIPMENT", "shipment"), ("TIME", (0, FASTEST, "none"))),
    "scale": (("N", (1, GREATEST_SCALE)),),
    "unit": (("Q", (1, GREATEST)),),
    "leg": (("SHIPMENT", "shipment"), *ENDS, ("DEPART", TIME), ("ARRIVE", TIME)),
    "truck": (*ENDS, ("DEPART", TIME), ("TRUCKS", FIGURE), ("LOAD", FIGURE)),
    "point": (("TERMINAL", "terminal"), ("TIME", TIME), ("ROUND", (1, LATEST_ROUND))),
    "table": (("ID", FIGURE),),
    "share": (*ENDS, ("POINT", TIME), ("V", FIGURE)),
    "span": (*ENDS, *RUN, ("MONEY", FIGURE), ("CHARGE", FIGURE)),
    "weight": (("SHIPMENT", "shipment"), ("W", FIGURE)),
    "group": (("MOMENT", TIME),),
    "gift": (*ENDS, *RUN, ("SIDE", ("least", "most")), ("AMOUNT", FIGURE)),
    "split,arc": (("SHIPMENT", "shipment"), *ENDS),
    "split,time": (("SHIPMENT", "shipment"), ("TERMINAL", "terminal"), ("AT", TIME)),
    "split,trucks": (*ENDS, *RUN, ("N", (0, GREATEST_NUMBER))),
    "split,way": (("SHIPMENT", "shipment"), *ENDS),
    "leaf": (("KIND", (1, GREATEST, "linear", "even")), ("ROUND", (0, LATEST_ROUND)), ("MODE", ("plain", "forced"))),
    "narrow": (("KIND", (1, GREATEST, "linear", "even")), ("ROUND", (0, LATEST_ROUND)), ("MODE", ("plain", "forced"))),
    "end": (),
}  # fmt: skip
# The fields that may stand after those of a line: that leaves are priced by moments by a table, under how many of its sides a leaf is valued,
# and from which worth on a narrowing bars classes.
FURTHER = {"table": (("MOMENTS", ("moments",)),), "leaf": (("SIDES", (0, MOST_SPLITS)),), "narrow": (("WORTH", FIGURE),)}
UNDER_DIRECT = ("leg", "truck", "end")
# The lines with a number whose limit is another number, or hangs on the instance.
LIMITED = ("scale", "span", "gift", "split", "leaf", "narrow")


def words_of_line(record):
    """The words of a line, which are joined the key of LINES where it has a kind. A comma in a word makes it none."""
    words = record.fields[: 2 if record.kind in ("answer", "split") else 1]
    return tuple(it.replace(",", ", ") for it in words)


class CertificateReading:
    """What the lines so far give, and what those with faults seem to mean, after the records of an instance."""

    def __init__(self, draft, total):
        """The draft is what the instance's records gave, and the total what its shipments cost alone, None where it has faults."""
        self.draft, self.total = draft, total or 0
        self.answer, self.seen, self.firsts = None, set(), {}
        self.tables = 0
        self.begin_table()

    def begin_table(self):
        """Goes on with a table in which nothing stands."""
        self.has_share, self.has_span, self.has_group, self.has_gift = False, False, False, False

    def has_ended(self):
        return "end" in self.seen

    def faults(self, record):
        """The faults of a line after those before it, in the order of the codes' table."""
        if self.has_ended():
            yield after_end_fault(record)
            return
        words = words_of_line(record)
        form = LINES.get(",".join(words))
        if form is None:
            yield self.kind_fault(record)
            return
        if len(record.fields) > len(words) + len(form):
            form += FURTHER.get(record.kind, ())
        if len(record.fields) != len(words) + len(form):
            yield Fault(22, count_fault(words, form, len(record.fields)))
            return
        fields = named(form, record.fields[len(words) :])
        yield from (Fault(23, words, hint) for words, hint in digit_faults(fields))
        order = self.order_words(record)
        if order:
            yield Fault(24, order, cause=order)
        yield from (Fault(25, *it) for it in name_faults(self.draft, fields, f"no instance stands before the answer: {ORDER}"))
        yield from (Fault(28, words) for words in range_faults(fields))
        if record.kind in LIMITED:
            yield from self.limit_faults(record.kind, fields)

    def take(self, record):
        """Goes on with what a line gives or seems to mean."""
        kind = near_kind(record.kind, CERTIFICATE)
        if kind is None:
            return
        if kind == "answer" and self.answer is None:
            self.answer = record.fields[1] if len(record.fields) > 1 else ""
        self.seen.add(kind)
        self.firsts.setdefault(GROUPS[kind], record)
        if kind == "table":
            self.tables += 1
            self.begin_table()
        elif kind in ("share", "span"):
            self.tables, self.has_share, self.has_span, self.has_group = max(self.tables, 1), True, kind == "span", False
        elif kind == "group":
            self.has_group = True
        elif kind == "gift":
            self.tables, self.has_gift = max(self.tables, 1), True

    def kind_fault(self, record):
        hint = certificate_kind_hint(record)
        words = f"the first field is {shown(record.fields[0])}: no line of a certificate begins with it"
        if record.kind in ("answer", "split"):
            second = shown(record.fields[1]) if len(record.fields) > 1 else "missing"
            names = f"none of {', '.join(ANSWERS)}" if record.kind == "answer" else "none of arc, time, trucks, way"
            words = f"the second field is {second}: {names}"
        return Fault(21, words, hint, hint or None)

    def order_words(self, record):
        """Why a line can't stand here; empty where it can. A certificate begins where an answer is."""
        kind = record.kind
        if not self.firsts:
            return ""
        if kind == "answer":
            return "there is an answer already"
        if GROUPS[kind] < max(self.firsts):
            first = next(it for group, it in self.firsts.items() if group > GROUPS[kind])
            return f"a {kind} can't stand after the {first.kind} of line {first.line}"
        if self.is_forbidden(kind):
            return f"a {self.answer} answer has no {kind}"
        if kind in ("scale", "unit") and kind in self.seen:
            return f"there is a {kind} already"
        return self.table_order_words(record)

    def is_forbidden(self, kind):
        """Whether a certificate of the answer has no line of a kind."""
        if self.answer == "infeasible":
            return kind != "end"
        return self.answer == "direct" and kind not in UNDER_DIRECT

    def table_order_words(self, record):
        """Why a line of a table can't stand here; empty where it can."""
        if record.kind == "table" and is_number(record.fields[1]) and number_of(record.fields[1]) != self.tables + 1:
            return f"tables are numbered 1, 2, 3: this has to be table {self.tables + 1}"
        if record.kind in ("share", "span", "gift") and not self.tables:
            return f"a {record.kind} stands in a table, and there is none before it"
        if record.kind in ("share", "span", "weight", "group") and self.has_gift:
            return f"the {record.kind}s of a table stand before its gifts"
        if record.kind == "share" and self.has_span:
            return "the shares of a table stand before its spans"
        if record.kind == "weight" and not self.has_share:
            return "a weight stands in a share or a span of its table, and there is none before it"
        if record.kind == "weight" and self.has_group:
            return "the weights of a span stand before its groups"
        if record.kind == "group" and not self.has_span:
            return "a group stands in a span of its table, and there is none before it"
        return ""

    def limit_faults(self, kind, fields):
        """The faults of numbers that are above or below another number, or too large for the instance."""
        numbers = {name: number_of(text) for name, what, text in fields if takes_number(what) and is_number(text) and is_within(what, text)}
        if {"POINT", "UNTIL"} <= numbers.keys() and numbers["UNTIL"] <= numbers["POINT"]:
            yield Fault(28, "UNTIL isn't after POINT")
        if numbers.get("KIND", 0) > self.tables:
            yield Fault(28, f"there is no table {numbers['KIND']}", cause=("table", numbers["KIND"]))
        if kind == "scale" and is_too_large(self.total, numbers.get("N", 0)):
            yield Fault(28, "the scale doesn't fit: the weight of the instance at it is above 2^127 - 1")


def after_end_fault(record):
    """The fault of a record after `end`."""
    hint = "an answer is checked alone: take the second one out" if record.kind == "answer" else ""
    if record.kind in INSTANCE:
        hint = certificate_kind_hint(record)
    return Fault(27, "the record stands after the certificate's end", hint, "after the end")


def missing_end_fault(records, certificate):
    """The fault of records that end without `end`; the certificate is what stands from `answer` on."""
    if certificate:
        return Fault(26, f'after record {len(records)}, on line {records[-1].line}, the line "end" is missing')
    words = f"after the instance's {counted(len(records), 'record')} no certificate comes"
    return Fault(26, words, ORDER)
