#!/usr/bin/env python3
"""How `direct` grows with the instance, up to the largest that is accepted.

    bench/direct.py [PROGRAM]

PROGRAM is the built program; without it the proved one in crates/freight/out is taken.
"""
import os
import subprocess
import sys
import time

sys.path.insert(0, os.path.dirname(os.path.abspath(__file__)))
from instances import instance
from kit import built_program


def seconds(program, text):
    """The least of three runs, and the number of leg lines."""
    best = None
    for _ in range(3):
        start = time.monotonic()
        done = subprocess.run([program, "direct"], input=text.encode(), stdout=subprocess.PIPE)
        took = time.monotonic() - start
        if done.returncode != 0:
            sys.exit(f"status {done.returncode}: {done.stdout[:200]!r}")
        best = took if best is None else min(best, took)
    return best, done.stdout.count(b"\nleg,")


def main():
    program = built_program()
    before = None
    print("terminals arcs shipments legs seconds growth")
    # The last has a ring alone, so that routes are long.
    for terminals, arcs, shipments in ((10, 90, 50), (30, 300, 150), (100, 1000, 500), (100, 200, 500)):
        took, legs = seconds(program, instance(terminals, arcs, shipments))
        growth = "-" if before is None else f"{took / before:.1f}"
        print(f"{terminals:9} {arcs:4} {shipments:9} {legs:4} {took:7.3f} {growth:>6}")
        before = took


main()
