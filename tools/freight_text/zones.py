"""The zones of clocks, and the years in which they are known."""

import zoneinfo

from .faults.near_names import near_name
from .file_faults import FileFault

YEARS = 1970, 2999


def is_known(day):
    """Whether zones are known on a day."""
    return YEARS[0] <= day.year <= YEARS[1]


def zone_named(name):
    """The zone of a name. Raises FileFault where there is none, or where this machine has no zones."""
    names = zoneinfo.available_timezones()
    if not names:
        raise FileFault("this machine has no table of zones: install one (`apt install tzdata`)")
    if name not in names:
        near = near_name(name, names)
        instead = f'the nearest is "{near}"' if near else "one is Europe/Paris"
        raise FileFault(f'no zone is called "{name}"; {instead}')
    return zoneinfo.ZoneInfo(name)
