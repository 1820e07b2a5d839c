"""Moments: clock times (08:30, 8h30, 8:30 PM, 06:00 +1), dates with times, and bare numbers where the unit of time is said."""

from __future__ import annotations

import datetime
import re
from dataclasses import dataclass
from fractions import Fraction

from freight_text.zones import YEARS, is_known

from .decimals import NoUnit, Unread, exact, number

DAY = 86400
CLOCK = re.compile(r"([0-9]{1,3})\s*(?::|h)\s*([0-5][0-9])(?::([0-5][0-9])(?:\.0+)?)?\s*(?:uhr|h)?", re.I)
HALVES = re.compile(r"(0?[1-9]|1[0-2])(?::([0-5][0-9])(?::([0-5][0-9]))?)?\s*([ap])\.?m\.?", re.I)
LATER_DAY = re.compile(r"(.*?)\s*\+\s*([0-9]{1,2})")
OFFSET = re.compile(r"(.*[0-9])\s*(?:(Z)|([+-])([01][0-9]):?([0-5][0-9]))")
YEAR_FIRST = re.compile(r"([0-9]{4})([-/.])([0-9]{1,2})\2([0-9]{1,2})(?:[ T]\s*|$)(.*)")
YEAR_LAST = re.compile(r"([0-9]{1,2})([-/.])([0-9]{1,2})\2([0-9]{4}|[0-9]{2})(?:,?\s+|$)(.*)")
ORDERS = ("day-first", "month-first")
LATEST_CLOCK = 1_000_000_000
NO_CLOCK = "a day without a clock time: add one, as 08:30 (24:00 is its end)"
NOT_READ = "not a clock time, and not a date with one, as 2026-12-31 08:30, 31.12.2026 08:30 or 08:30"
NO_UNIT = "a number without a unit: write a clock time as 08:30, or say --time-unit min where it counts minutes from midnight"


@dataclass(frozen=True)
class Moment:
    """A day (None where none is said), the seconds on its clock from midnight, and how many these are ahead of UTC, where it is said."""

    day: datetime.date | None
    clock: int
    offset: int | None = None


def day_orders(text):
    """The orders of day and month in which the date in a text can be read: none where the text has no such date."""
    found = YEAR_LAST.match(text)
    if not found or found[2] == ".":
        return ()
    one, two = int(found[1]), int(found[3])
    return tuple(it for it, month in zip(ORDERS, (two, one)) if 1 <= month <= 12 and 1 <= one + two - month <= 31)


def order_shown(texts):
    """The order of day and month that some texts show, where they show one."""
    shown = {day_orders(it)[0] for it in texts if len(day_orders(it)) == 1}
    return shown.pop() if len(shown) == 1 else None


def time_seconds(time):
    """The seconds of a workbook's clock time, to the nearest."""
    return time.hour * 3600 + time.minute * 60 + time.second + round(time.microsecond / 1_000_000)


def clock_seconds(text):
    """The seconds of a clock time; hours past 24 are of the days after it."""
    found = CLOCK.fullmatch(text)
    if found:
        return int(found[1]) * 3600 + int(found[2]) * 60 + int(found[3] or 0)
    found = HALVES.fullmatch(text)
    if found:
        hours = int(found[1]) % 12 + (12 if found[4].lower() == "p" else 0)
        return hours * 3600 + int(found[2] or 0) * 60 + int(found[3] or 0)
    later = LATER_DAY.fullmatch(text)
    if later and not LATER_DAY.fullmatch(later[1]):
        return clock_seconds(later[1]) + int(later[2]) * DAY
    raise Unread(NOT_READ)


def date_of(year, month, day):
    """A day; the years of two digits are 2000 to 2099."""
    try:
        return datetime.date(year + (2000 if year < 100 else 0), month, day)
    except ValueError:
        raise Unread("no day of the calendar") from None


def parted(text, order):
    """The date in a text (None without one), and the text after it."""
    found = YEAR_FIRST.fullmatch(text)
    if found:
        return date_of(int(found[1]), int(found[3]), int(found[4])), found[5]
    found = YEAR_LAST.fullmatch(text)
    if not found:
        return None, text
    one, two, year = int(found[1]), int(found[3]), int(found[4])
    if found[2] == ".":
        return date_of(year, two, one), found[5]
    orders = day_orders(text)
    if not orders:
        raise Unread("no day of the calendar")
    if len(orders) == 2 and one != two and order is None:
        raise Unread("the day or the month can stand first: say --dates day-first or --dates month-first")
    chosen = order if order in orders else orders[0]
    return date_of(year, *((two, one) if chosen == "day-first" else (one, two))), found[5]


def of_text(text, order):
    """The moment of a text, as a clock, or as a date with one, an offset to UTC after it or none."""
    day, clock = parted(text, order)
    if day is None:
        return Moment(None, clock_seconds(clock))
    if not clock.strip():
        raise Unread(NO_CLOCK)
    found = OFFSET.fullmatch(clock)
    if not found:
        return Moment(day, clock_seconds(clock.strip()))
    if found[3] == "-" and "T" not in text:
        raise Unread("two times, or one with its distance to UTC? the last is written with a T, as 2026-12-31T08:30-05:00")
    ahead = 0 if found[2] else int(found[3] + "1") * (int(found[4]) * 3600 + int(found[5]) * 60)
    return Moment(day, clock_seconds(found[1].strip()), ahead)


def of_number(value, unit):
    if unit is None:
        raise NoUnit(NO_UNIT)
    clock = Fraction(value) * unit
    if clock.denominator != 1:
        raise Unread("not a whole number of seconds from midnight on")
    return Moment(None, int(clock))


def of_value(value, text, unit, mark, order):
    if isinstance(value, datetime.datetime):
        rounded = value + datetime.timedelta(microseconds=500_000)
        return Moment(rounded.date(), time_seconds(rounded.time().replace(microsecond=0)))
    if isinstance(value, datetime.date):
        raise Unread(NO_CLOCK)
    if isinstance(value, datetime.time):
        return Moment(None, time_seconds(value))
    if isinstance(value, datetime.timedelta):
        return Moment(None, round(value.total_seconds()))
    if isinstance(value, (int, float)) and not isinstance(value, bool):
        return of_number(exact(value), unit)
    if re.fullmatch("[0-9]+([.,][0-9]+)?", text):
        return of_number(number(text, mark), unit)
    return of_text(text, order)


def moment(value, text, unit, mark, order):
    """The moment of a cell; `unit` is that of a bare number, `mark` its decimal mark, `order` the one of day and month."""
    found = of_value(value, text, unit, mark, order)
    if found.day and not is_known(found.day):
        raise Unread(f"its year isn't {YEARS[0]} to {YEARS[1]}")
    if not 0 <= found.clock <= LATEST_CLOCK:
        raise Unread("it is out of the range of times")
    return found
