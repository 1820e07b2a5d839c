#!/usr/bin/env python3
"""How long the bound of a leaf takes at round 0, on generated instances.

    bench/leaf_bound.py [PROGRAM]

PROGRAM is the built program; without it the proved one in crates/freight/out is taken. It checks the direct plan of each instance with a
tree of 128 leaves, whose splits leave every class allowed, and prints how much longer each leaf takes than one leaf alone.
"""
import os
import subprocess
import sys
import time

sys.path.insert(0, os.path.dirname(os.path.abspath(__file__)))
from instances import generated
from kit import built_program


def tree(depth, split, leaf):
    """A balanced tree in preorder."""
    return [leaf] if depth == 0 else [split] + 2 * tree(depth - 1, split, leaf)


def certificate(direct, depth, split, leaf):
    """The certificate of a direct plan with the bound 0 and such a tree."""
    lines = direct.splitlines()
    cost = lines[0].split(",")[2]
    return "\n".join([f"answer,unfinished,{cost},0,rounds"] + lines[1:-1] + tree(depth, split, leaf) + ["end"]) + "\n"


def run(program, command, text):
    """What the program prints, and the least seconds of three runs."""
    best = None
    for _ in range(3):
        start = time.monotonic()
        done = subprocess.run([program, command], input=text.encode(), stdout=subprocess.PIPE)
        took = time.monotonic() - start
        best = took if best is None else min(best, took)
    return done.stdout.decode(), best


def main():
    program = built_program()
    print("terminals shipments prices seconds")
    for terminals, shipments in ((10, 40), (20, 60)):
        text = generated(1, terminals, shipments)
        direct, _ = run(program, "direct", text)
        destination = next(line.split(",")[3] for line in text.splitlines() if line.startswith("shipment,S1,"))
        # No shipment leaves its destination, so this split parts nothing.
        split = f"split,time,S1,{destination},50000"
        for kind in ("linear", "even"):
            for mode in ("plain", "forced"):
                leaf = f"leaf,{kind},0,{mode}"
                took = []
                for depth in (0, 7):
                    printed, seconds = run(program, "check", text + certificate(direct, depth, split, leaf))
                    if printed != "accepted,unfinished\n":
                        sys.exit(f"{printed!r} with {leaf}")
                    took.append(seconds)
                print(f"{terminals:9} {shipments:9} {kind + ' ' + mode:13} {(took[1] - took[0]) / 127:.4f}")


main()
