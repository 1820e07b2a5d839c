"""`day`: the records of a day, from words to standard output."""

import sys

from freight_tables.faults import DONE, NO_FORM
from freight_tables.whole_files import to_output
from freight_text.file_faults import FileFault

from .arcs import arcs
from .draws import Draws
from .shipments import shipments
from .terminals import hubs, terminals
from .words import options_of

HUB_HOLD, HOLD = 45, 30


def records(options):
    """The records of a day: terminals, arcs, shipments."""
    draws = Draws(options.seed)
    stops = terminals(options.terminals, draws)
    middle = hubs(stops, options.hubs)
    holds = {name: HUB_HOLD if name in middle else HOLD for name, *_ in stops}
    ways = arcs(stops, middle, options.arcs)
    yield from (f"terminal,{name},{hold}" for name, hold in holds.items())
    yield from (way.record() for way in ways)
    yield from shipments(stops, ways, holds, draws, options)


def main(arguments):
    """Runs the command; what it says of words is one sentence."""
    try:
        to_output("".join(f"{record}\n" for record in records(options_of(arguments))).encode())
    except FileFault as refusal:
        print(f"day: {refusal}", file=sys.stderr)
        return NO_FORM
    return DONE
