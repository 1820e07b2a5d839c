"""Days and clocks to seconds from the zero of time, and back."""

from __future__ import annotations

import datetime
from dataclasses import dataclass

from .decimals import Unread
from .moments import DAY, Moment

UTC = datetime.timezone.utc


def day_in(zone, moment):
    """The day of a moment on the calendar of a zone."""
    if zone is None or moment.offset is None:
        return moment.day
    local = datetime.datetime.combine(moment.day, datetime.time(), UTC) + datetime.timedelta(seconds=moment.clock - moment.offset)
    return local.astimezone(zone).date()


@dataclass(frozen=True)
class Calendar:
    """The day whose first midnight is the zero of time (None: a day without a date), and the zone of its clocks (None: clocks that are never changed)."""

    day: datetime.date | None
    zone: datetime.tzinfo | None = None

    def zero(self):
        return datetime.datetime.combine(self.day, datetime.time())

    def seconds(self, moment):
        """From the zero of time to a moment; a sentence where its clock shows it never, or twice."""
        if self.day is None:
            return moment.clock
        local = datetime.datetime.combine(moment.day or self.day, datetime.time()) + datetime.timedelta(seconds=moment.clock)
        if self.zone is None:
            if moment.offset is not None:
                raise Unread("it says how far it is from UTC: say --zone, the zone of all other clocks")
            return round((local - self.zero()).total_seconds())
        return round((self.instant(local, moment.offset) - self.start()).total_seconds())

    def start(self):
        return self.zero().replace(tzinfo=self.zone).astimezone(UTC)

    def instant(self, local, offset):
        """The moment, in UTC, at which the clocks of the zone show a time."""
        if offset is not None:
            return (local - datetime.timedelta(seconds=offset)).replace(tzinfo=UTC)
        first, second = (local.replace(tzinfo=self.zone, fold=fold).astimezone(UTC) for fold in (0, 1))
        if first == second:
            return first
        if first.astimezone(self.zone).replace(tzinfo=None) != local:
            raise Unread("the clocks are put forward over this time, so it never comes")
        one, two = (local.replace(tzinfo=self.zone, fold=fold).isoformat() for fold in (0, 1))
        raise Unread(f"the clocks are put back, so this time comes twice: write it as {one} or {two}")

    def local(self, seconds):
        """The date and clock of so many seconds after the zero of time, as ISO has them, with the distance to UTC where there is a zone."""
        if self.zone is None:
            return self.zero() + datetime.timedelta(seconds=seconds)
        return (self.start() + datetime.timedelta(seconds=seconds)).astimezone(self.zone)

    def iso(self, seconds):
        """A moment in ISO's form; without a date a clock time, and +1 after it on the day after."""
        return self.local(seconds).isoformat() if self.day else self.text(seconds)

    def text(self, seconds):
        """A moment as tables show it: 2026-12-31 08:30, or 08:30 +1. A time that the clocks show twice is in ISO's form."""
        if self.day is None:
            days, rest = divmod(seconds, DAY)
            return clock_text(rest) + (f" +{days}" if days else "")
        local = self.local(seconds)
        shown = f"{local.date().isoformat()} {clock_text(local.hour * 3600 + local.minute * 60 + local.second)}"
        try:
            self.seconds(Moment(local.date(), local.hour * 3600 + local.minute * 60 + local.second))
        except Unread:
            return local.isoformat()
        return shown


def clock_text(seconds):
    """A clock time or a duration; its seconds only where there are some."""
    hours, rest = divmod(seconds, 3600)
    minutes, rest = divmod(rest, 60)
    return f"{hours:02}:{minutes:02}" + (f":{rest:02}" if rest else "")
