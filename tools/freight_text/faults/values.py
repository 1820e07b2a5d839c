"""What a field seems to hold that is neither a number nor a name of the format, and what to do about it."""

import re
import unicodedata

from .spaces import odd_space_hint

CLOCK = re.compile(r"([01]?[0-9]|2[0-4])[:hH]([0-5][0-9])(:[0-5][0-9])?")
DATE = re.compile(r"([0-9]{4}-[0-9]{1,2}-[0-9]{1,2}|[0-9]{1,2}[./-][0-9]{1,2}[./-][0-9]{2,4})([ T].*)?")
EXPONENT = re.compile(r"[0-9]+([.,][0-9]+)?[eE][-+]?[0-9]+")
SIGNED = re.compile(r"[-+][0-9]+([.,][0-9]+)?")
THOUSANDS = re.compile(r"[0-9]{1,3}([ .,'][0-9]{3})+")
DECIMAL = re.compile(r"[0-9]*[.,][0-9]+")
OUTSIDE_NAMES = re.compile(r"[^A-Za-z0-9_-]+")
LONGEST_NAME = 32
COMMENT = "a comment? there are none in this format"
HEADER = "a header row? there is none in this format"


def clock_words(match):
    """What is said of a clock time."""
    minutes = 60 * int(match[1]) + int(match[2])
    return f"a clock time: times are whole numbers from a zero of your own, as {minutes} in minutes from midnight; ./freight import reads clock times"


def thousands_words(match):
    """What is said of digits in groups of three."""
    return f"a separator of thousands, or a decimal: write digits alone, as {re.sub('[^0-9]', '', match[0])}"


# What digits with something beside them are, the first that fits.
FORMS = (
    (CLOCK, clock_words),
    (DATE, lambda match: "a date: times are whole numbers from a zero of your own; ./freight import reads dates"),
    (THOUSANDS, thousands_words),
    (DECIMAL, lambda match: "a decimal: numbers are whole, so count in a smaller unit, as tenths; ./freight import reads decimals"),
    (SIGNED, lambda match: "a sign: numbers have none, and none is below 0"),
    (EXPONENT, lambda match: "an exponent: write the number out in digits"),
)


def common_hint(text):
    """What may be said of a name and of a number alike."""
    if text.startswith('"'):
        return "a quote counts only as the first byte of a field: take out the blank before it, or the quotes"
    if "#" in text:
        return COMMENT
    return odd_space_hint(text)


def number_hint(name, text):
    """What a field seems to hold in place of a number; empty where nothing is known. The name is that of the field."""
    if not text:
        return "the field is empty: write its number, also a 0"
    if text.upper() == name:
        return HEADER
    for form, words in FORMS:
        match = form.fullmatch(text)
        if match:
            return words(match)
    return common_hint(text)


def plain_name(text):
    """A name in ASCII for a text, or empty."""
    letters = unicodedata.normalize("NFKD", text.replace("ß", "ss"))
    plain = "".join(it for it in letters if not unicodedata.combining(it))
    return OUTSIDE_NAMES.sub("_", plain).strip("_")[:LONGEST_NAME]


def name_hint(text):
    """What a field seems to hold in place of a name; empty where nothing is known. The text is decoded."""
    if not text:
        return "the field is empty"
    hint = common_hint(text)
    if hint:
        return hint
    if len(text) > LONGEST_NAME and text.isascii():
        return f"it has {len(text)} letters"
    what = "a letter that isn't ASCII" if not text.isascii() else "a blank" if " " in text else "another character"
    plain = plain_name(text)
    instead = f'write "{plain}"' if plain else "write another name"
    return f"{what}: {instead}, or let ./freight import keep the names of a table (docs/tables.md)"
