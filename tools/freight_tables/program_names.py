"""Names as people write them to names that the program takes: 1 to 32 ASCII letters, digits, _ and -."""

import re

from .headings import without_accents

LONGEST = 32


def plain(name):
    """A name in the program's letters, as near as can be; empty where no letter is left."""
    text = re.sub(r"[^A-Za-z0-9_-]+", "_", without_accents(name)).strip("_")
    return text[:LONGEST].strip("_")


def kept_apart(text, taken):
    """A text with a number after it that is none of those taken."""
    number = 2
    while True:
        ending = f"_{number}"
        name = text[: LONGEST - len(ending)] + ending
        if name not in taken:
            return name
        number += 1


def program_names(names, kind):
    """For each name one of the program's, no two the same. A name that the program takes stays as it is."""
    chosen = {name: name for name in names if re.fullmatch(r"[A-Za-z0-9_-]{1,32}", name)}
    taken = set(chosen)
    for name in names:
        if name not in chosen:
            text = plain(name) or kind
            chosen[name] = kept_apart(text, taken) if text in taken else text
            taken.add(chosen[name])
    return {name: chosen[name] for name in names}


def alike(names):
    """Pairs of names that differ in case, accents or signs alone: they may be meant as one."""
    found, pairs = {}, []
    for name in names:
        key = re.sub("[^a-z0-9]+", " ", without_accents(name).casefold()).strip() or name
        if key in found:
            pairs.append((found[key], name))
        found.setdefault(key, name)
    return pairs
