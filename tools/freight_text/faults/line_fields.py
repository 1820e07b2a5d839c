"""The fields of a line after its first words: what each is called and what may stand there, and what is wrong with one.

What may stand in a field is the name of a kind of name ("shipment", "terminal", or "arc" for an arc's end); or a tuple of
the least and greatest number, of words, or of both, numbers first.
"""

import re

from ..instances import number_of
from .findings import counted
from .values import number_hint

DIGITS = re.compile(r"[0-9]+")
LONGEST_SHOWN = 40
DELIVERED = "its kept legs bring it to its destination, so what is left of the day is without it"


def decoded(text):
    """The text that a field's bytes are in UTF-8, or else the bytes as they are."""
    try:
        return text.encode("latin-1").decode("utf-8")
    except UnicodeError:
        return text


def shown(text):
    """A field as it is shown: quoted, cut where it is long, and with escapes for bytes that aren't text or can't be seen."""
    whole = decoded(text)
    is_text = whole.isascii() or whole != text
    seen = whole if len(whole) <= LONGEST_SHOWN else whole[:LONGEST_SHOWN] + ".."
    return '"' + "".join(it if it.isprintable() and (is_text or it.isascii()) else it.encode("unicode_escape").decode() for it in seen) + '"'


def named(form, texts):
    """Each field: what it is called, what may stand there, and what stands there."""
    return [(name, what, text) for (name, what), text in zip(form, texts)]


def words_of(what):
    """The words that may stand in a field."""
    return [it for it in what if isinstance(it, str)] if isinstance(what, tuple) else []


def takes_number(what):
    """Whether a number may stand in a field."""
    return isinstance(what, tuple) and isinstance(what[0], int)


def is_number(text):
    return DIGITS.fullmatch(text) is not None


def is_within(what, text):
    """Whether the digits write a number within the limits of a field."""
    return what[0] <= number_of(text) <= what[1]


def count_fault(words, form, count):
    """What to say where so many fields are too many or too few; the words stand before the fields of the form."""
    wanted = ",".join([*words, *(name for name, _ in form)])
    return f"{counted(count, 'field')} in place of {len(words) + len(form)}: {wanted}"


def digit_faults(fields):
    """What is wrong with each field that holds neither a number nor one of its words, and what to do."""
    for name, what, text in fields:
        words = words_of(what)
        if isinstance(what, str) or text in words or takes_number(what) and is_number(text):
            continue
        expected = " or ".join(words + ["a number"] * takes_number(what)) if words else "whole digits"
        yield f"field {name} is {shown(text)}: not {expected}", number_hint(name, text)


def range_faults(fields):
    """What is wrong with each number that is outside its limits."""
    for name, what, text in fields:
        if takes_number(what) and is_number(text) and not is_within(what, text):
            yield f"field {name} is {shown(text)}: it has to be {what[0]:,} to {what[1]:,}"


def unknown_words(name, kind, text):
    """What to say where a field holds the name of no shipment or no terminal."""
    return f"field {name} is {shown(text)}: no {kind} has this name"


def no_arc_words(ends):
    """What to say where no arc leads from the one terminal to the other."""
    return f"no arc leads from {shown(ends[0])} to {shown(ends[1])}"


def name_faults(draft, fields, order):
    """What is wrong with each name that isn't the instance's, what to do, and the cause where other lines may share it.

    Where no instance stands before the line, what to do is to keep the order of what is handed on.
    """
    for words, hint, cause in strange_names(draft, fields):
        yield words, *((order, "no instance") if draft.is_empty() else (hint, cause))


def strange_names(draft, fields):
    """What is wrong with each name, what may be meant, and the cause."""
    for name, what, text in fields:
        known = {"shipment": draft.shipments, "terminal": draft.terminals, "arc": draft.terminals}.get(what)
        if known is None or text in known or text in draft.strays:
            continue
        kind = "shipment" if what == "shipment" else "terminal"
        hint = DELIVERED if what == "shipment" and text in draft.delivered else draft.names.hint(text, known)
        yield unknown_words(name, kind, text), hint, None if hint else (kind, text)
    ends = tuple(text for _, what, text in fields if what == "arc")
    if len(ends) == 2 and ends not in draft.arcs and all(it in draft.terminals for it in ends):
        hint = "there is one in the other direction" if ends[::-1] in draft.arcs else ""
        yield no_arc_words(ends), hint, ("arc", ends)
