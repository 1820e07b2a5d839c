#!/usr/bin/env python3
"""How good the bound of a root is and how long it takes, on generated instances and on a carrier's lines and hubs.

    bench/bound.py [PROGRAM [OTHER [WORD=VALUE ..]]]

PROGRAM is the built program; without it the proved one in crates/freight/out is taken. It prints the bound of the root at round 0, the flat
bound, both in units of money and rounded up, the bound with `--spans`, and the least seconds of three runs of each. OTHER is another
program with the command `bound`, whose bound and seconds are printed beside; the words are settings of its environment.
"""
import heapq
import os
import subprocess
import sys
import time

sys.path.insert(0, os.path.dirname(os.path.abspath(__file__)))
from instances import cases
from kit import built_program

SCALE = 1_000_000


def flat_bound(text):
    """What all shipments pay that each go their own cheapest way and pay their part of each truck."""
    records = [line.split(",") for line in text.splitlines()]
    leaving = {}
    for record in records:
        if record[0] == "arc":
            tail, head = record[1:3]
            capacity, truck, freight = map(int, record[4:7])
            leaving.setdefault(tail, []).append((head, SCALE * truck // capacity + SCALE * freight))
    total = 0
    for record in records:
        if record[0] == "shipment":
            total += int(record[4]) * least_price(leaving, record[2], record[3])
    return -(-total // SCALE)


def least_price(leaving, origin, destination):
    """What a unit of size pays on its cheapest way."""
    passed, heap = set(), [(0, origin)]
    while True:
        price, here = heapq.heappop(heap)
        if here == destination:
            return price
        if here not in passed:
            passed.add(here)
            for head, more in leaving.get(here, []):
                heapq.heappush(heap, (price + more, head))


def bound_by(words, settings, text):
    """The bound that a program prints, and the least seconds of three runs."""
    best = None
    for _ in range(3):
        start = time.monotonic()
        done = subprocess.run(words, input=text.encode(), stdout=subprocess.PIPE, env={**os.environ, **settings})
        took = time.monotonic() - start
        best = took if best is None else min(best, took)
    first = done.stdout.decode().split("\n")[0]
    if not first.startswith("answer,bound,"):
        sys.exit(f"{' '.join(words)} printed {first!r}")
    return first.split(",")[2], best


def main():
    programs = [([built_program(), "bound"], {}), ([built_program(), "bound", "--spans"], {})]
    if len(sys.argv) > 2:
        programs.append(([sys.argv[2], "bound"], dict(word.split("=", 1) for word in sys.argv[3:])))
    print(f"{'':28} {'':>9} {'':>17} {'with --spans':>17}")
    print(f"{'instance':28}      flat" + "   bound  seconds" * len(programs))
    for name, text in cases():
        row = f"{name:28} {flat_bound(text):9}"
        for words, settings in programs:
            value, seconds = bound_by(words, settings, text)
            row += f" {value:>7} {seconds:8.3f}"
        print(row, flush=True)


main()
