"""Headings: as they are compared, and which column of which table each one is."""

import functools
import re
import unicodedata

from .heading_words import OPTIONAL, SMALL_WORDS, TIME_UNITS, WORDS

UMLAUTS = str.maketrans({"ä": "ae", "ö": "oe", "ü": "ue", "Ä": "Ae", "Ö": "Oe", "Ü": "Ue"})
BRACKETS = re.compile(r"[(\[]([^)\]]*)[)\]]")


def without_accents(text):
    """A text in which letters have no accents, and ß, œ, æ, ø, ł are written with plain letters."""
    plain = text.translate(str.maketrans({"ß": "ss", "œ": "oe", "Œ": "OE", "æ": "ae", "Æ": "AE", "ø": "o", "Ø": "O", "ł": "l", "Ł": "L", "đ": "d", "Đ": "D"}))
    return "".join(it for it in unicodedata.normalize("NFKD", plain) if not unicodedata.combining(it))


def tokens(text):
    return re.findall(r"[a-z0-9]+", without_accents(text).casefold())


def unit_of(word):
    """The seconds of a unit of time, or None."""
    return next((seconds for seconds, words in TIME_UNITS.items() if word in words.split(", ")), None)


def with_unit(heading):
    """The words of a heading without its unit, and the words of its unit: "Fahrzeit (min)", "Durée [h]", "travel time in minutes"."""
    bracketed, found = BRACKETS.findall(heading), tokens(BRACKETS.sub(" ", heading))
    if bracketed:
        return found, [it for it in tokens(bracketed[-1]) if it not in ("in", "en")]
    if len(found) > 2 and found[-2] in ("in", "en") and unit_of(found[-1]):
        return found[:-2], found[-1:]
    return found, []


@functools.lru_cache(maxsize=10_000)
def folded(heading):
    """A heading as it is compared: small letters, no accents and signs, no unit and no small words."""
    found, _ = with_unit(heading)
    return " ".join([it for it in found if it not in SMALL_WORDS] or found)


def stated_unit(heading):
    """The unit of time that a heading states, in seconds; None without one."""
    _, words = with_unit(heading)
    return unit_of(words[0]) if len(words) == 1 else None


@functools.lru_cache(maxsize=None)
def known(table, column):
    """The folded headings of a column, umlauts also as two letters."""
    words = [it.strip() for it in WORDS[table][column].split(",")]
    return frozenset(folded(form) for it in words for form in (it, it.translate(UMLAUTS)))


class Heads:
    """What headings mean: by the usual words, or by what `--columns` says of (table, column)."""

    def __init__(self, named=None):
        self.named, self.met = named or {}, {}

    def is_head(self, table, column, text):
        if (table, column) in self.named:
            return folded(text) == folded(self.named[table, column])
        return folded(text) in known(table, column)

    def meanings(self, text):
        """The tables and columns that a text may be the heading of."""
        if text not in self.met:
            self.met[text] = [(table, column) for table in WORDS for column in WORDS[table] if self.is_head(table, column, text)]
        return self.met[text]

    def columns(self, row):
        """For each table, and each column of it that a row of cells has: the places where its heading stands."""
        found = {table: {} for table in WORDS}
        for place, text in enumerate(row):
            for table, column in self.meanings(text) if isinstance(text, str) else ():
                found[table].setdefault(column, []).append(place)
        return found

    def missing(self, table, found):
        return [it for it in WORDS[table] if it not in found and (table, it) not in OPTIONAL]

    def best(self, row):
        """The table of which a row has most headings, with its columns; of two the one with all of them. (None, {}) where it has none."""
        found = self.columns(row)
        if "origin" in found["lanes"] or "destination" in found["lanes"]:
            del found["terminals"]
        best = max(found, key=lambda it: (len(found[it]), not self.missing(it, found[it])))
        return (best, found[best]) if found[best] else (None, {})

    def is_whole(self, row):
        """Whether a row has all headings of some table."""
        table, columns = self.best(row)
        return table is not None and not self.missing(table, columns)
