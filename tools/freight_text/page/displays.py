"""How a page shows names, times, sizes and money: in a carrier's own words where they are known."""

from dataclasses import dataclass, field, replace
from datetime import datetime
from decimal import Context, Decimal
from fractions import Fraction

from ..file_faults import FileFault
from .clocks import Clock

# Sums of money may have more digits than Python's decimals keep by themselves.
EXACT = Context(prec=60)
# Times of a plan are below this: a clock has to reach as far.
LATEST = 10**6
# The day of a clock without a date.
ANY_DAY = datetime(2001, 1, 1)


@dataclass(frozen=True)
class Amounts:
    """Sizes or money: how many decimals the instance's whole numbers stand for, and what one is called."""

    decimals: int = 0
    word: str = ""

    def text(self, value):
        """An amount without its word, with commas at thousands."""
        return f"{Decimal(value).scaleb(-self.decimals, EXACT):,f}" if self.decimals else f"{value:,}"

    def words(self, value):
        """An amount with its word, where it has one."""
        return f"{self.text(value)} {self.word}".rstrip()


@dataclass(frozen=True)
class Display:
    """Names of terminals and shipments by those of the instance, a clock, and how sizes and money are counted."""

    clock: Clock = Clock()
    terminals: dict = field(default_factory=dict)
    shipments: dict = field(default_factory=dict)
    sizes: Amounts = Amounts()
    money: Amounts = Amounts()

    def terminal(self, name):
        return self.terminals.get(name, name)

    def shipment(self, name):
        return self.shipments.get(name, name)

    def way(self, tail, head):
        """An arc, from its tail to its head."""
        return f"{self.terminal(tail)} → {self.terminal(head)}"

    def line(self, departure):
        """A departure by its arc and its time."""
        return f"{self.way(departure.tail, departure.head)} {self.clock.time(departure.depart)}"


def clock_of(names):
    """The clock of a file of names: without a date where it has no zero."""
    zero = names.zero.replace(tzinfo=names.zone) if names.zero else ANY_DAY
    return Clock(zero, Fraction(names.seconds, 60), dated=names.zero is not None)


def display_of(names, zero=None, unit=None):
    """Names, clock and units of a file of names, or of none; a zero (a moment) and a unit (minutes) come before the file's. Raises FileFault."""
    clock = clock_of(names) if names else Clock()
    if zero:
        clock = replace(clock, zero=zero, dated=True)
    if unit:
        clock = replace(clock, unit=unit)
    try:
        if clock.zero:
            clock.moment(LATEST)
    except (OverflowError, ValueError):
        raise FileFault("the zero and the unit of time lead out of the calendar") from None
    if names is None:
        return Display(clock)
    sizes, money = Amounts(names.size_decimals, names.size_unit or ""), Amounts(names.money_decimals, names.currency or "")
    return Display(clock, names.terminals, names.shipments, sizes, money)
