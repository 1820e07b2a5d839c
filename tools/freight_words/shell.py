"""The table of words that the launcher sources: what it has to know without Python."""

from .description import COMMANDS, STATUSES, VERSION, WHOLE

MADE = "# Made by tools/words from tools/freight_words/description.py: change that, and run tools/words."


def names_of(options):
    return " ".join(name for it in options for name in (it.short, it.name) if name)


def array(name, rows):
    """A bash array from words to texts; rows without a text are left out."""
    return [f"declare -A {name}=(", *(f"  [{word}]='{text}'" for word, text in rows.items() if text), ")"]


def ranges():
    """Each option and each number in a place with its least and its most, as numbers and as they are shown."""
    named = {option.name: option.range for it in COMMANDS for option in it.options if option.range}
    named.update({f"{it.name}.{place.name}": place.range for it in COMMANDS for place in it.places})
    return named


def table():
    """The text of tools/launcher/words.bash."""
    limits = ranges()
    answers = " ".join(str(it.number) for it in STATUSES if it.is_answer)
    lines = [
        MADE, "# shellcheck shell=bash disable=SC2034 # the launcher sources this",
        f"version='{VERSION}'", f"commands='{' '.join(it.name for it in COMMANDS)}'", f"whole_words='{names_of(WHOLE)}'", f"answers='{answers}'",
        "# The commands that go to a script of tools/, and those that read records.",
        f"scripts='{' '.join(it.script for it in COMMANDS if it.script)}'", f"readers='{' '.join(it.name for it in COMMANDS if it.reads)}'",
        "# Of each command: the options of the program, those of the launcher, and the numbers that stand after it.",
        *array("options", {it.name: names_of(it.options) for it in COMMANDS}),
        *array("own_options", {it.name: names_of(it.own) for it in COMMANDS}),
        *array("places", {it.name: " ".join(place.name for place in it.places) for it in COMMANDS}),
        "# Of each number: the least, the most, and both as they are shown.",
        *array("least", {name: str(it.least) for name, it in limits.items()}),
        *array("most", {name: str(it.most) for name, it in limits.items()}),
        *array("ranges", {name: str(it) for name, it in limits.items()}),
        "# Of each option with a number: the one that it has without being named.",
        *array("without", {option.name: str(option.without) for it in COMMANDS for option in it.options if option.without is not None}),
        "# Those before which no 0 stands.", f"unpadded='{' '.join(name for name, it in limits.items() if not it.padded)}'",
    ]  # fmt: skip
    return "\n".join(lines) + "\n"
