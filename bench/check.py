#!/usr/bin/env python3
"""How the seconds and the memory of `check` grow with a certificate, up to the largest that are accepted.

    bench/check.py [PROGRAM]

PROGRAM is the built program; without it the proved one in crates/freight/out is taken. The first kind of certificate has a tree
of up to 100,000 splits, the second up to 500,000 price lines, the third is of short lines near the limit of bytes. The fourth has
a tree of up to 10,000 leaves of one round, over a generated instance of 10 terminals with 40 shipments.
"""
import os
import subprocess
import sys

sys.path.insert(0, os.path.dirname(os.path.abspath(__file__)))
from instances import generated
from kit import built_program, measured


def splits(count):
    """One shipment over one arc, and a balanced tree of so many splits by time."""
    lines = ["terminal,A", "terminal,B", "arc,A,B,5,10,100,1", "shipment,S1,A,B,4,0,100000", "answer,unfinished,104,104,branches", "leg,S1,A,B,0,5", "truck,A,B,0,1,4"]

    def tree(first, end, count):
        if count == 0:
            lines.append("leaf,linear,0,forced")
            return
        middle = (first + end) // 2
        lines.append(f"split,time,S1,A,{middle}")
        tree(first, middle, (count - 1) // 2)
        tree(middle, end, count - 1 - (count - 1) // 2)

    tree(0, 100_000, count)
    return lines + ["end"]


def prices(count):
    """200 shipments over one arc, and one table of so many shares and weights; none of the prices is above 0."""
    lines = ["terminal,A", "terminal,B", "arc,A,B,5,1000,100,1"]
    lines += [f"shipment,S{number},A,B,4,0,100000" for number in range(200)]
    lines += ["answer,unfinished,900,800,rounds"]
    lines += [f"leg,S{number},A,B,0,5" for number in range(200)]
    lines += ["truck,A,B,0,1,800", "table,1"]
    for point in range(count // 200):
        lines.append(f"share,A,B,{point},0")
        lines += [f"weight,S{number},0" for number in range(199)]
    return lines + ["leaf,1,0,plain", "end"]


def short_lines(count):
    """So many lines that are as short as they can be; they don't ascend, so the prices are rejected."""
    lines = ["terminal,A", "terminal,B", "arc,A,B,5,10,100,1", "shipment,S,A,B,4,0,10", "answer,unfinished,104,0,rounds", "leg,S,A,B,0,5", "truck,A,B,0,1,4", "table,1", "share,A,B,0,0"]
    return lines + ["weight,S,0"] * count + ["leaf,1,0,plain", "end"]


def leaves(count, program):
    """The direct plan of a generated instance with the bound 0, and a balanced tree of so many leaves of one round."""
    lines = generated(1, 10, 40).splitlines()
    text = ("\n".join(lines) + "\n").encode()
    direct = subprocess.run([program, "direct"], input=text, stdout=subprocess.PIPE, check=True).stdout.decode().splitlines()
    ends = [line.split(",")[3] for line in lines if line.startswith("shipment,")]

    def tree(count, depth):
        # No shipment leaves its destination, so these splits part nothing, and each depth has a shipment of its own.
        if count == 1:
            return ["leaf,linear,0,plain"]
        split = f"split,time,S{depth % len(ends) + 1},{ends[depth % len(ends)]},{50_000 + depth}"
        return [split] + tree(count // 2, depth + 1) + tree(count - count // 2, depth + 1)

    return lines + [f"answer,unfinished,{direct[0].split(',')[2]},0,rounds"] + direct[1:-1] + tree(count, 0) + ["end"]


def checked(program, lines, wanted):
    """Seconds and megabytes of one run."""
    printed, took, megabytes = measured([program, "check"], "\n".join(lines) + "\n")
    if printed != wanted:
        sys.exit(f"{printed!r} where {wanted!r} was expected")
    return took, megabytes


def main():
    program = built_program()
    print("what lines seconds growth megabytes growth")
    for what, make, sizes, wanted in (
        ("splits", splits, (10_000, 100_000), "accepted,unfinished\n"),
        ("prices", prices, (50_000, 500_000), "accepted,unfinished\n"),
        ("short", short_lines, (1_220_000, 12_200_000), "rejected,5\n"),
        ("leaves", lambda count: leaves(count, program), (1_000, 10_000), "accepted,unfinished\n"),
    ):
        before = None
        for size in sizes:
            took, megabytes = checked(program, make(size), wanted)
            growth = ("-", "-") if before is None else (f"{took / before[0]:.1f}", f"{megabytes / before[1]:.1f}")
            print(f"{what:6} {size:9} {took:7.2f} {growth[0]:>6} {megabytes:8.0f} {growth[1]:>6}")
            before = (took, megabytes)


main()
