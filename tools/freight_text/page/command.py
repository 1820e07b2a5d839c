"""The command that makes a page: its words, its statuses, and what it says on standard error."""

import argparse
import sys

from ..file_faults import FileFault
from .clocks import minutes_of, moment_of
from .inputs import Unreadable, inputs_of
from .pages import whole_page

ABOUT = "One page that shows a timetable, for a browser and for paper. docs/page.md is its guide."
# As the program ends: the words are none of the forms, a file has a fault, a read or a write failed.
WORDS, FAULT, READ, WRITE = 20, 21, 30, 31


class Words(argparse.ArgumentParser):
    """The words of the command line. Other words than those are a sentence, and the status 20."""

    def error(self, message):
        self.exit(WORDS, f"freight picture: {message}; ./freight picture --help has the words\n")


def word(read):
    """A function that reads a word, whose ValueError is a fault of the words."""

    def read_word(text):
        try:
            return read(text)
        except ValueError as fault:
            raise argparse.ArgumentTypeError(str(fault)) from None

    return read_word


def parser():
    words = Words(prog="freight picture", description=ABOUT, usage="freight picture INSTANCE ANSWER [CHECKED] [options] > timetable.html", allow_abbrev=False)
    words.add_argument("instance", metavar="INSTANCE", help="the input of the program, with what is told after it")
    words.add_argument("answer", metavar="ANSWER", help="what direct, plan or replan printed for it")
    words.add_argument("checked", metavar="CHECKED", nargs="?", help="what check printed for both: without it the page says that nothing is checked")
    words.add_argument("--fleet", metavar="FILE", help="what fleet printed for both: adds a sheet for each truck")
    words.add_argument("--names", metavar="FILE", help="names, zero of time and units, as an import writes them (JSON)")
    words.add_argument("--zero", metavar="MOMENT", type=word(moment_of), help="the moment of time 0, as 2026-03-02T00:00: times are shown as a clock's")
    words.add_argument("--unit", metavar="UNIT", type=word(minutes_of), help="the unit of time, as 1min (without it), 30s or 0.5h")
    return words


def say(words):
    print(f"freight picture: {words}", file=sys.stderr)


def main(arguments):
    """Writes the page of the words to standard output, and gives the status."""
    given = parser().parse_args(arguments)
    try:
        page = whole_page(inputs_of(given))
    except Unreadable as fault:
        say(fault)
        return READ
    except FileFault as fault:
        say(fault)
        return FAULT
    try:
        sys.stdout.buffer.write(page.encode("utf-8", "replace"))
        sys.stdout.buffer.flush()
    except OSError as fault:
        say(f"the page wasn't written whole: {fault.strerror}")
        return WRITE
    return 0
