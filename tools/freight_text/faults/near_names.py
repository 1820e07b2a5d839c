"""The name that is meant where another stands."""

import difflib
import functools
import re

NEAR = 0.75
DIGIT = re.compile(r"[0-9]")
# So many unknown names are compared with the known ones at most: a file may have one in each of a million records.
MOST_COMPARED = 1000


def may_be(text, name):
    """Whether a name isn't plainly another: T12 isn't taken for T1, since names with other digits are others."""
    if 2 * len(name) < len(text) or 2 * len(text) < len(name) or name.isdigit():
        return False
    return DIGIT.findall(name) == DIGIT.findall(text)


def near_name(text, names):
    """The known name that a text seems to mean, or None."""
    folded = {name.upper(): name for name in names if may_be(text, name)}
    found = difflib.get_close_matches(text.upper(), folded, 1, NEAR) if folded else []
    return folded[found[0]] if found else None


@functools.lru_cache(maxsize=1000)
def near_kind(text, kinds):
    """The kind of record that a first field seems to mean, or None; the kinds are a tuple."""
    return text if text in kinds else near_name(text, kinds)


class NearNames:
    """The names that are meant by unknown ones, each looked for once while the known ones are the same."""

    def __init__(self):
        self.found = {}

    def near(self, text, names):
        """The known name that is meant, or None."""
        key = text, id(names), len(names)
        if key not in self.found and len(self.found) < MOST_COMPARED:
            self.found[key] = near_name(text, names)
        return self.found.get(key)

    def meant(self, text, names):
        """The text where it's known, or else the known name that is meant, or else the text."""
        return text if text in names else self.near(text, names) or text

    def hint(self, text, names):
        """What is said of the name that is meant; empty where there is none."""
        near = self.near(text, names)
        if near is None:
            return ""
        if near.upper() == text.upper():
            return f'"{near}" is there: names are compared letter by letter'
        return f'is there a typo? "{near}" is there'
