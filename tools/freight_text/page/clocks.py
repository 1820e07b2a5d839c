"""Times as a clock shows them, where the moment of an instance's time 0 is known."""

import re
from dataclasses import dataclass
from datetime import datetime, timedelta, timezone
from fractions import Fraction
from typing import Optional

DAYS = ("Mon", "Tue", "Wed", "Thu", "Fri", "Sat", "Sun")
MONTHS = ("Jan", "Feb", "Mar", "Apr", "May", "Jun", "Jul", "Aug", "Sep", "Oct", "Nov", "Dec")
UNIT = re.compile(r"([0-9]+(?:\.[0-9]+)?)\s*(s|min|h)")
MINUTES = {"s": Fraction(1, 60), "min": Fraction(1), "h": Fraction(60)}
# The steps, in minutes, between the times that stand at the head of a chart, and how many there may be.
STEPS = (5, 10, 15, 30, 60, 120, 180, 240, 360, 720, 1440, 2880, 10080, 20160, 40320)
TICKS = 12


def minutes_of(text):
    """How many minutes a unit as "1min", "30s" or "0.5h" has. ValueError where it isn't of this form or is 0."""
    found = UNIT.fullmatch(text.strip())
    minutes = Fraction(found[1]) * MINUTES[found[2]] if found else 0
    if not minutes:
        raise ValueError(f"{text!r} is no unit of time, as 1min, 30s or 0.5h")
    return minutes


def moment_of(text):
    """The moment of a text in ISO's form. ValueError where it's none."""
    try:
        return datetime.fromisoformat(text.strip().replace("Z", "+00:00"))
    except ValueError:
        raise ValueError(f"{text!r} is no moment, as 2026-03-02T00:00") from None


def date_words(moment):
    """A day in words, as "Mon 2 Mar 2026"."""
    return f"{DAYS[moment.weekday()]} {moment.day} {MONTHS[moment.month - 1]} {moment.year}"


@dataclass(frozen=True)
class Clock:
    """The moment of time 0 and the minutes of a unit of time. Without the moment times are shown as plain numbers.

    A moment with a zone is counted on in absolute time, so that a night of 23 or 25 hours is one. Of a clock that isn't dated
    the moment's day means nothing: it's any day.
    """

    zero: Optional[datetime] = None
    unit: Fraction = Fraction(1)
    dated: bool = True

    def moment(self, time):
        seconds = float(time * self.unit * 60)
        if self.zero.tzinfo is None:
            return self.zero + timedelta(seconds=seconds)
        return (self.zero.astimezone(timezone.utc) + timedelta(seconds=seconds)).astimezone(self.zero.tzinfo)

    def hour(self, moment):
        """A moment on its day. One that the clocks of its zone show twice has its distance to UTC."""
        text = f"{moment:%H:%M:%S}" if moment.second else f"{moment:%H:%M}"
        twice = moment.replace(fold=1 - moment.fold).utcoffset() != moment.utcoffset()
        return text + moment.isoformat()[-6:] if twice else text

    def time(self, time):
        """A time as "23:43", as "Tue 00:15" on a later day, as "Tue 10 Mar 00:15" a week after the first or later; else as a number.

        A clock without a date says "00:15 +1" on the day after.
        """
        if self.zero is None:
            return str(time)
        moment = self.moment(time)
        days = (moment.date() - self.zero.date()).days
        if days == 0:
            return self.hour(moment)
        if not self.dated:
            return f"{self.hour(moment)} +{days}"
        date = f" {moment.day} {MONTHS[moment.month - 1]}" if days > 6 else ""
        return f"{DAYS[moment.weekday()]}{date} {self.hour(moment)}"

    def tick(self, time):
        """A time as it stands at the head of a chart: shorter, with a date at midnight alone."""
        text = self.time(time)
        *day, hour = text.split(" ")
        if not self.dated:
            return text
        if hour == "00:00" and day:
            return " ".join(day)
        return hour if len(day) > 1 else text

    def span(self, time):
        """A length of time, as "7 h 20" or "45 min"; as a number where no clock is known."""
        if self.zero is None:
            return str(time)
        minutes, rest = divmod(abs(time) * self.unit, 1)
        hours, minutes = divmod(int(minutes), 60)
        seconds = f" {int(rest * 60)} s" if rest else ""
        sign = "-" if time < 0 else ""
        return f"{sign}{hours} h {minutes:02}{seconds}" if hours else f"{sign}{minutes} min{seconds}"

    def ticks(self, first, last):
        """Times from first to last that stand at the head of a chart, at most 12 or so, at full hours where a clock is known."""
        if self.zero is None:
            step, start = plain_step(last - first), 0
        else:
            minutes = next((it for it in STEPS if (last - first) * self.unit <= it * TICKS), STEPS[-1])
            step, start = minutes / self.unit, -(self.zero.hour * 60 + self.zero.minute) / self.unit
        count = -((start - first) // step)
        return [start + step * it for it in range(int(count), int((last - start) // step) + 1)]


def plain_step(length):
    """1, 2 or 5 times a power of ten, at most 12 of which are the length."""
    step = 1
    while length > TICKS * step:
        step = {1: 2, 2: 5, 5: 10}[int(str(step)[0])] * 10 ** (len(str(step)) - 1)
    return step
