"""Numbers as people write them: 12.5 and 12,5, 1 234,50 € and $1,234.50. What could be read two ways is never guessed."""

import functools
import math
import re
from decimal import Decimal

MARKS = (".", ",")
CURRENCIES = {"€": "EUR", "$": "USD", "£": "GBP"}
CURRENCY = r"(?P<currency{}>[€$£]|(?:EUR|USD|GBP|CHF|CAD|PLN|CZK|DKK|SEK|NOK|HUF|RON)\b|\b(?:Euro|euro|euros)\b)"
MONEY = re.compile(rf"(?:{CURRENCY.format('1')}\s*)?(?P<sign>[-+]?)\s*(?:{CURRENCY.format('2')}\s*)?(?P<number>[0-9.,' ’]*[0-9])\s*(?:{CURRENCY.format('3')})?")
MOST_DECIMALS = 6


@functools.lru_cache(maxsize=None)
def pattern(mark):
    thousands = "".join(it for it in ".,' ’" if it != mark)
    return re.compile(rf"([-+]?)([1-9][0-9]{{0,2}}(?:([{thousands}])[0-9]{{3}}(?:\3[0-9]{{3}})*)|[0-9]+)?(?:{re.escape(mark)}([0-9]+))?")


def value_with(text, mark):
    """The number of a text whose decimal mark is a point or a comma; None where it's none."""
    found = pattern(mark).fullmatch(text)
    if not found or not (found[2] or found[4]):
        return None
    whole = re.sub("[^0-9]", "", found[2] or "0")
    return Decimal(f"{found[1]}{whole}.{found[4] or 0}")


def readings(text):
    """Each decimal mark under which a text is a number, with that number."""
    found = {mark: value_with(text, mark) for mark in MARKS}
    return {mark: value for mark, value in found.items() if value is not None}


def mark_shown(texts):
    """The decimal mark that some texts show, where they show one: a text that can be read under one mark alone."""
    shown = {mark for it in texts for mark in readings(it) if len(readings(it)) == 1}
    return shown.pop() if len(shown) == 1 else None


class Unread(Exception):
    """A sentence on a text that isn't read."""


class TwoWays(Unread):
    """A sentence on a number that can be read in two ways."""


class NoUnit(Unread):
    """A sentence on a bare number of time; it is told once a column."""


def number(text, mark):
    """The number of a text, under a decimal mark where it is needed."""
    found = readings(text)
    if not found:
        raise Unread("not a number")
    if len(set(found.values())) == 1:
        return next(iter(found.values()))
    if mark in found:
        return found[mark]
    one, two = sorted(found.values())
    raise TwoWays(f"can be read as {one.normalize():f} and as {two.normalize():f}: say --decimal point or --decimal comma")


def without_currency(text):
    """The number in a text of money, and the code of its currency (None where there is none)."""
    found = MONEY.fullmatch(text)
    if not found:
        return text, None
    currencies = [it for it in (found["currency1"], found["currency2"], found["currency3"]) if it]
    if len(currencies) > 1:
        return text, None
    return found["sign"] + found["number"], currency_of(currencies[0]) if currencies else None


def currency_of(words):
    """The code of a currency that some words name by itself, as a heading in brackets; None where they are none."""
    found = re.fullmatch(CURRENCY.format(""), words.strip())
    return CURRENCIES.get(found[0], "EUR" if found[0].lower().startswith("euro") else found[0]) if found else None


def exact(value):
    """The number that a workbook's cell shows: it keeps 15 digits."""
    if not math.isfinite(value):
        raise Unread("not a number")
    return Decimal(value) if isinstance(value, int) else Decimal(f"{value:.15g}")


def places(value):
    """How many decimals a number needs."""
    return max(0, -value.normalize().as_tuple().exponent)
