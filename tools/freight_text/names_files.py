"""The file of names that an import writes beside an instance: a carrier's names, the zero of time, and the units."""

import json
from dataclasses import dataclass
from datetime import datetime, time, tzinfo
from typing import Optional

from .file_faults import FileFault
from .zones import is_known, zone_named

FORMAT = "freight names 1"
LONGEST_UNIT, MOST_DECIMALS = 86_400, 30


@dataclass(frozen=True)
class NamesFile:
    """A carrier's names for those of the program, and what the program's whole numbers count.

    A unit of time has so many seconds, a unit of size or of money is 10 to the power of minus its decimals. The zero of time
    is a midnight on the clocks of the zone, None where times have no date; without a zone each day has 24 hours. Separator
    and mark are those of the carrier's CSV.
    """

    terminals: dict[str, str]
    shipments: dict[str, str]
    seconds: int
    zero: Optional[datetime]
    zone: Optional[tzinfo]
    size_decimals: int
    size_unit: Optional[str]
    money_decimals: int
    currency: Optional[str]
    separator: str
    mark: str

    def text(self):
        """The text of the file."""
        content = {
            "format": FORMAT,
            "time": {
                "unit_seconds": self.seconds,
                "zero": self.zero.isoformat() if self.zero else None,
                "zone": self.zone.key if self.zone else None,
            },
            "size": {"decimals": self.size_decimals, "unit": self.size_unit},
            "money": {"decimals": self.money_decimals, "currency": self.currency},
            "text": {"separator": self.separator, "decimal": self.mark},
            "terminals": self.terminals,
            "shipments": self.shipments,
        }
        return json.dumps(content, ensure_ascii=False, indent=1) + "\n"


def of_kind(kind, *values):
    """Some values, each of a kind."""
    if not all(isinstance(it, kind) and not isinstance(it, bool) for it in values):
        raise ValueError("a field is of another kind")
    return values


def word_in(table, key):
    """A text of a table, or None."""
    found = table.get(key)
    return found if found is None else of_kind(str, found)[0]


def zero_in(time_table):
    """The zero of time, or None."""
    zero = datetime.fromisoformat(time_table["zero"]) if time_table["zero"] else None
    if zero and (zero.time() != time() or zero.tzinfo or not is_known(zero)):
        raise ValueError("the zero of time isn't a midnight, as 2026-12-31T00:00:00")
    return zero


def names_of(content):
    """The names in the content of a file; KeyError, TypeError and ValueError where it isn't one."""
    if content["format"] != FORMAT:
        raise ValueError(f"its format isn't {FORMAT!r}")
    times, sizes, money, text = (content[it] for it in ("time", "size", "money", "text"))
    seconds, *decimals = of_kind(int, times["unit_seconds"], sizes["decimals"], money["decimals"])
    if not 1 <= seconds <= LONGEST_UNIT or min(decimals) < 0 or max(decimals) > MOST_DECIMALS:
        raise ValueError("a unit is out of range")
    separator, mark = of_kind(str, text["separator"], text["decimal"])
    if separator not in (",", ";", "\t") or mark not in (".", ",") or separator == mark:
        raise ValueError("the separator or the decimal mark is none")
    for names in of_kind(dict, content["terminals"], content["shipments"]):
        of_kind(str, *names.values())
    zone = zone_named(times["zone"]) if times["zone"] else None
    units = decimals[0], word_in(sizes, "unit"), decimals[1], word_in(money, "currency")
    return NamesFile(content["terminals"], content["shipments"], seconds, zero_in(times), zone, *units, separator, mark)


def names_in(data):
    """The names in the bytes of a file. Raises FileFault where it isn't a file of names."""
    other = "it isn't a file of names as import writes it"
    try:
        return names_of(json.loads(data.decode("utf-8-sig")))
    except KeyError as error:
        raise FileFault(f"{other}: it has no {error}") from None
    except (ValueError, TypeError, AttributeError, RecursionError) as error:
        raise FileFault(f"{other}: {error}") from None
