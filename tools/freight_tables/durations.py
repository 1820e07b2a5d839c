"""Durations: 02:30, 2h30, 150 min, 2.5 h, and bare numbers where the unit of time is said."""

import datetime
import re
from fractions import Fraction

from .decimals import NoUnit, TwoWays, Unread, exact, number
from .headings import unit_of, without_accents
from .moments import HALVES, clock_seconds, time_seconds

CLOCK = re.compile(r"([0-9]{1,4}):([0-5][0-9])(?::([0-5][0-9]))?")
PARTS = re.compile(r"([0-9][0-9.,' ’]*?)\s*([a-z]+)\.?")
HOURS_AND_MINUTES = re.compile(r"([0-9]{1,4})\s*h\s*([0-5][0-9])")
NO_UNIT = "a number without a unit of time: write it in the heading, as (min) or (h), or say --time-unit min or --time-unit h"


def number_texts(text):
    """The texts in a duration that are numbers, for what they show of the decimal mark."""
    found = PARTS.findall(text.casefold())
    return [it for it, _ in found] if found else [text]


def in_parts(text, mark):
    """Seconds of a text as `2.5 h` or `1 h 30 min`; None where it is none."""
    plain = without_accents(text).casefold()
    found = PARTS.findall(plain)
    if not found or PARTS.sub("", plain).strip():
        return None
    units = [unit_of(it) for _, it in found]
    if None in units or sorted(units, reverse=True) != units or len(set(units)) < len(units):
        return None
    return sum(Fraction(number(it, mark)) * unit for (it, _), unit in zip(found, units))


def of_text(text, unit, mark):
    found = CLOCK.fullmatch(text)
    if found:
        return Fraction(int(found[1]) * 3600 + int(found[2]) * 60 + int(found[3] or 0))
    found = HOURS_AND_MINUTES.fullmatch(text.casefold())
    if found:
        return Fraction(int(found[1]) * 3600 + int(found[2]) * 60)
    if HALVES.fullmatch(text):
        # A spreadsheet that shows 03:15 as a clock time writes 03:15:00 AM.
        return Fraction(clock_seconds(text))
    seconds = in_parts(text, mark)
    if seconds is not None:
        return seconds
    try:
        value = number(text, mark)
    except TwoWays:
        raise
    except Unread:
        raise Unread("not a duration, as 02:30, 150 min or 2.5 h") from None
    if unit is None:
        raise NoUnit(NO_UNIT)
    return Fraction(value) * unit


def seconds(value, text, unit, mark):
    """The whole seconds of a cell; `unit` is that of a bare number in seconds, or None where none is said."""
    if isinstance(value, bool) or isinstance(value, (datetime.datetime, datetime.date)):
        raise Unread("a date, where a duration is wanted")
    if isinstance(value, datetime.time):
        found = Fraction(time_seconds(value))
    elif isinstance(value, datetime.timedelta):
        found = Fraction(round(value.total_seconds()))
    elif isinstance(value, (int, float)):
        if unit is None:
            raise NoUnit(NO_UNIT)
        found = Fraction(exact(value)) * unit
    else:
        found = of_text(text, unit, mark)
    if found.denominator != 1:
        raise Unread("not a whole number of seconds")
    return int(found)
