"""The faults of tables: where each one is, and in which words."""

import datetime
import difflib
import sys
from dataclasses import dataclass, field

from freight_text.file_faults import FileFault

SHOWN = 50
DONE, FAULTY, NO_FORM = 0, 1, 2


class Refusal(FileFault):
    """A sentence on why nothing can be done."""


class WordsRefusal(Refusal):
    """A sentence on words of the command that are none of its forms, or on a file of theirs that can't be read or written."""


def status_of(command, run):
    """The status of a command; a refusal is told in one sentence on standard error."""
    try:
        return run()
    except FileFault as refusal:
        print(f"freight {command}: {refusal}", file=sys.stderr)
        return NO_FORM if isinstance(refusal, WordsRefusal) else FAULTY


@dataclass(frozen=True)
class Cell:
    """One cell of a table: its file (and sheet), its row as a spreadsheet counts it, its heading, and its value (None: empty)."""

    source: str
    row: int
    heading: str
    value: object

    @property
    def is_empty(self):
        return self.value is None or self.text == ""

    @property
    def text(self):
        """The value as text, blanks at its ends taken away, and each run of blanks as one."""
        if self.value is None:
            return ""
        if isinstance(self.value, float):
            return f"{self.value:.15g}"
        if isinstance(self.value, datetime.datetime):
            return self.value.isoformat(sep=" ")
        return " ".join(str(self.value).split())


def quoted(text):
    """A text as faults show it: between quotes, cut where it is long."""
    return f'"{text if len(text) <= 60 else text[:60] + ".."}"'


def near(text, known):
    """The known word that is nearest to a text, as the end of a sentence, or nothing where none is near."""
    folded = {it.casefold(): it for it in known}
    found = difflib.get_close_matches(text.casefold(), folded, 1, 0.6)
    return f"; the nearest is {quoted(folded[found[0]])}" if found else ""


@dataclass
class Faults:
    """Faults as they are met. They are told by file and row, in the order of the files."""

    files: dict[str, int] = field(default_factory=dict)
    found: dict[tuple[int, int, str], None] = field(default_factory=dict)

    def add(self, cell, words):
        """A fault of one cell."""
        value = "empty" if cell.is_empty else quoted(cell.text)
        self.add_at(cell.source, cell.row, f"column {quoted(cell.heading)}, {value}: {words}")

    def add_at(self, source, row, words):
        """A fault of a row, or of a whole file where the row is 0."""
        place = f"{source}, row {row}" if row else source
        text = f"{place}{', ' if words.startswith('column ') else ': '}{words}"
        self.found[self.files.setdefault(source, len(self.files)), row, text] = None

    def lines(self):
        """At most 50 faults, and how many more there are."""
        lines = [words for _, _, words in sorted(self.found, key=lambda it: it[:2])]
        more = len(lines) - SHOWN
        return lines[:SHOWN] + ([f"and {more:,} more"] if more > 0 else [])
