"""The words of `day`."""

from __future__ import annotations

import argparse
from dataclasses import dataclass

from freight_text.file_faults import FileFault

from .arcs import least_arcs

DESCRIPTION = """\
A day of a carrier in France, made from a number and written to standard output as the program reads it. Times are
minutes from midnight, sizes are pallets (a truck holds 33), money is cents. Every shipment can be carried in time.
The same words give the same day. Status 0: done; 2: the words, or standard output can't be written."""
MOST_ARCS = 1000


@dataclass(frozen=True)
class Options:
    """What the words of `day` say."""

    seed: int
    terminals: int
    hubs: int
    arcs: int
    shipments: int
    service_days: int
    pallets: int


class Words(argparse.ArgumentParser):
    """Words that raise a sentence where they are none of the forms."""

    def error(self, message):
        raise FileFault(f"{message}; --help has all words")


def between(least, most):
    """Reads a whole number of a range."""

    def read(text):
        if not (text.isascii() and text.isdigit() and len(text) < 10 and least <= int(text) <= most):
            raise argparse.ArgumentTypeError(f"{text!r} is no whole number from {least} to {most}")
        return int(text)

    return read


def seed_of(text):
    try:
        return int(text)
    except ValueError:
        raise argparse.ArgumentTypeError(f"{text!r} is no whole number") from None


# Each option that counts something: its range, what it is where it isn't given (None: as the others say), and its help.
NUMBERS = (
    ("terminals", 2, 100, 30, "towns, 30 where it isn't given, and above 30 smaller ones around them"),
    ("hubs", 1, 100, None, "terminals that are joined with each other and with those near them; 5, or all of fewer"),
    ("arcs", 2, MOST_ARCS, None, "an even number, since trucks run both ways; 4 for each terminal, or as near as can be"),
    ("shipments", 1, 500, 150, "150 where it isn't given"),
    ("service-days", 1, 30, 3, "shipments are due on the Nth day after their release or the one before, later where it takes longer; 3"),
    ("pallets", 1, 33, 12, "the size of the largest shipment, 12 where it isn't given"),
)


def words():
    form = argparse.RawDescriptionHelpFormatter
    parser = Words(prog="day", description=DESCRIPTION, formatter_class=form, allow_abbrev=False)
    parser.add_argument("number", nargs="?", type=seed_of, metavar="SEED", help="the number, 1 where none is given")
    parser.add_argument("--seed", type=seed_of, metavar="N", help="the number, in place of SEED")
    for name, least, most, usual, text in NUMBERS:
        parser.add_argument(f"--{name}", type=between(least, most), default=usual, metavar="N", help=text)
    return parser


def arcs_of(found, hubs):
    """How many arcs there are; a sentence where so many can't be."""
    least, most = least_arcs(found.terminals, hubs), found.terminals * (found.terminals - 1)
    these = f"{hubs} hubs among {found.terminals} terminals"
    if least > MOST_ARCS:
        raise FileFault(f"{these} need {least} arcs, more than {MOST_ARCS}: say fewer --hubs")
    if found.arcs is None:
        return min(max(least, 4 * found.terminals), most)
    if found.arcs % 2:
        raise FileFault(f"--arcs {found.arcs} is odd, and trucks run both ways: say an even number")
    if not least <= found.arcs <= most:
        raise FileFault(f"--arcs {found.arcs}: {these} have {least} arcs at least and {min(most, MOST_ARCS)} at most")
    return found.arcs


def options_of(arguments):
    """The options that the words give; a sentence where they don't fit together."""
    found = words().parse_args(arguments)
    if found.number is not None and found.seed is not None:
        raise FileFault(f"the seed is said twice, {found.number} and --seed {found.seed}: say it once")
    seed = next((it for it in (found.number, found.seed) if it is not None), 1)
    hubs = min(5, found.terminals) if found.hubs is None else found.hubs
    if hubs > found.terminals:
        raise FileFault(f"{hubs} hubs are more than {found.terminals} terminals: say fewer --hubs")
    arcs = arcs_of(found, hubs)
    return Options(seed, found.terminals, hubs, arcs, found.shipments, found.service_days, found.pallets)
