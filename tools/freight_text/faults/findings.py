"""The faults of records, and which of them follow from others."""

from dataclasses import dataclass, field

NAMES = {
    1: "Kind", 2: "Fields", 3: "Name", 4: "Digits", 5: "Range", 6: "NameTaken", 7: "NoTerminal", 8: "SameEnds",
    9: "ArcTaken", 10: "DueBeforeRelease", 11: "TooMany", 12: "TooLarge",
    21: "Kind", 22: "Fields", 23: "Digits", 24: "Order", 25: "Name", 26: "MissingEnd", 27: "AfterEnd", 28: "Range",
    31: "KeptKind", 32: "KeptFields", 33: "KeptDigits", 34: "KeptName", 35: "KeptRange", 36: "NotPrefix", 37: "KeptMany", 38: "NoShipment",
    39: "ArriveBeforeDepart",
}  # fmt: skip
# The fault 38 of records that are told after an instance; NoShipment is that of a quote.
PRESENT_TWICE = "PresentTwice"
MOST_LISTED = 50
# Where there are more than so many besides, the rest isn't counted.
MOST_COUNTED = 10_000


def counted(number, thing):
    """So many of a thing, in words."""
    return f"{number:,} {thing}" if number == 1 else f"{number:,} {thing}s"


@dataclass(frozen=True)
class Fault:
    """What is wrong with a record.

    The words say which field it is, what stands there and what is wrong; the hint says what is known of the cause and what
    to do, and is empty where nothing is. Of faults with one cause all but the first follow from it; None is no cause. The
    name is given where it isn't the usual one of the code.
    """

    code: int
    words: str
    hint: str = ""
    cause: object = None
    name: str = ""


@dataclass(frozen=True)
class Finding:
    """A fault with the ordinal of its record, 0 where it is of all of them, and the line where it has one."""

    ordinal: int
    fault: Fault
    line: int = 0

    def sentence(self):
        """One line: where the fault is, what is wrong, its code and name, and what to do."""
        place = f"line {self.line} (record {self.ordinal}), " if self.line else ""
        hint = f"; {self.fault.hint}" if self.fault.hint else ""
        return f"{place}{self.fault.words} (code {self.fault.code}, {self.fault.name or NAMES[self.fault.code]}){hint}"


@dataclass
class Findings:
    """The first faults in the order of their records, how many more there are, and how many follow from these or those."""

    listed: list[Finding] = field(default_factory=list)
    more: int = 0
    following: int = 0
    causes: set = field(default_factory=set)

    def add(self, fault, ordinal=0, line=0):
        """Lists a fault, or counts it where an earlier one has its cause."""
        if fault.cause is not None and fault.cause in self.causes:
            self.following += 1
            return
        self.causes.add(fault.cause)
        if len(self.listed) < MOST_LISTED:
            self.listed.append(Finding(ordinal, fault, line))
        else:
            self.more += 1

    def is_full(self):
        return self.more + self.following > MOST_COUNTED

    def has(self, code):
        """Whether a fault of the code is listed."""
        return any(it.fault.code == code for it in self.listed)

    def rest(self):
        """The last line, where not all faults are listed: how many there are besides."""
        if self.is_full():
            return [f"more than {counted(MOST_COUNTED, 'more fault')}"]
        follow = "that may follow from earlier ones"
        if self.more and self.following:
            return [f"{counted(self.more, 'more fault')}, and {self.following:,} {follow}"]
        if self.more:
            return [counted(self.more, "more fault")]
        return [f"{counted(self.following, 'more fault')} {follow}"] if self.following else []

    def add_all(self, reading, records):
        """The faults that a reading finds in records, which it takes one by one, up to the last that is counted."""
        for record in records:
            if self.is_full():
                break
            for fault in reading.faults(record):
                self.add(fault, record.ordinal, record.line)
            reading.take(record)
