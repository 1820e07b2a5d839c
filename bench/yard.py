#!/usr/bin/env python3
"""How `yard` and `fleet` grow with a plan, up to the most truck lines that the limits allow.

    bench/yard.py [PROGRAM]

PROGRAM is the built program; without it the proved one, built here or in dist/, is taken. The plans are those of `direct`: shipments
that go one after another along a chain of 100 terminals, so that each leg has a truck line of its own. An event is a departure or an
arrival of a line; `yard` prints each of them once, after the sheets.
"""
import os
import subprocess
import sys

sys.path.insert(0, os.path.dirname(os.path.abspath(__file__)))
from kit import built_program, measured

TERMINALS = 100
SEED = "1"


def chain(shipments):
    """CSV records of an instance: terminals in a row, and shipments from the first to the last, each released a moment after the one before."""
    lines = [f"terminal,T{number}" for number in range(TERMINALS)]
    lines += [f"arc,T{number},T{number + 1},60,10,100,1" for number in range(TERMINALS - 1)]
    lines += [f"shipment,S{number},T0,T{TERMINALS - 1},4,{number},100000" for number in range(shipments)]
    return "\n".join(lines) + "\n"


def with_plan(program, text):
    """The records of an instance, and after them what `direct` prints of it."""
    done = subprocess.run([program, "direct"], input=text.encode(), stdout=subprocess.PIPE)
    if done.returncode != 0:
        sys.exit(f"direct: status {done.returncode}: {done.stdout[:200]!r}")
    return text + done.stdout.decode()


def run(program, words, text):
    """The lines that a command prints, the least seconds of three runs, and the megabytes of the last."""
    best = None
    for _ in range(3):
        printed, took, megabytes = measured([program, *words], text)
        best = took if best is None else min(best, took)
    lines = printed.splitlines()
    if not lines or lines[0].split(",")[0] != words[0]:
        sys.exit(f"{' '.join(words)}: {printed[:200]!r}")
    return lines, best, megabytes


def growth(now, before):
    return "-" if before is None else f"{now / before:.1f}"


def main():
    program = built_program()
    before = (None, None, None)
    print(" lines  events |  yard s growth    MB  us an event growth | fleet s growth    MB trucks")
    for shipments in (5, 50, 500):
        text = with_plan(program, chain(shipments))
        shown, took, megabytes = run(program, ["yard", SEED], text)
        count = int(shown[0].split(",")[1])
        events = sum(line.startswith(("departs,", "arrives,")) for line in shown)
        each = took / events * 1e6
        fleet, fleet_took, fleet_megabytes = run(program, ["fleet"], text)
        print(
            f"{count:6} {events:7} | {took:7.3f} {growth(took, before[0]):>6} {megabytes:5.0f} {each:12.1f} {growth(each, before[1]):>6}"
            f" | {fleet_took:7.3f} {growth(fleet_took, before[2]):>6} {fleet_megabytes:5.0f} {fleet[0].split(',')[1]:>6}"
        )
        before = (took, each, fleet_took)


main()
