#!/usr/bin/env python3
"""The bound of the root by round and second: what `plan --spans` without branches has proved after so many rounds, each a run of its own.

    bench/rounds.py [PROGRAM [OTHER ..]]
    ROUNDS=0,8,64 bench/rounds.py ..   after these rounds, in place of 0, 8, 16, 32, 64, 128, 256 and 400
    ONLY=WORD bench/rounds.py ..       the days alone whose names have the word, as `20x60`

PROGRAM is the built program; without it the proved one in crates/freight/out is taken, or the one in dist/. Each OTHER
is a program of the same words, whose figures stand beside: the cost and the bound, the gap between them in per cent of the cost, the
points that were added, and the seconds. Each answer is handed back to the `check` of the program that gave it. A search may need fewer
rounds than it's given: then the rows after it are equal, and are left out.
"""
import os
import sys

sys.path.insert(0, os.path.dirname(os.path.abspath(__file__)))
from days import LARGE, MEDIUM, SMALL, day
from kit import built_program, check_answer, is_wanted, planned

# The name of a day, the words of tools/day that make it, and its seed.
DAYS = (
    ("20x60, seed 1", f"{SMALL} --service-days 2", 1),
    ("20x60, seed 3", f"{SMALL} --service-days 2", 3),
    ("30x120, seed 1", f"{MEDIUM} --service-days 2", 1),
    ("50x300, seed 1", f"{LARGE} --service-days 2", 1),
)
ROUNDS = [int(number) for number in os.environ.get("ROUNDS", "0,8,16,32,64,128,256,400").split(",")]
HEADS = f"{'cost':>9} {'bound':>9} {'gap %':>6} {'points':>6} {'seconds':>8}"


def figures(program, name, text, rounds):
    """The cost, the bound, the points and the seconds of a program on a day after so many rounds."""
    options = ["--spans", "--branches", "0", "--rounds", str(rounds)]
    (cost, bound, _, seconds, _), printed = planned([program, "plan", *options], text)
    check_answer(program, name, text, printed)
    points = sum(line.startswith("point,") for line in printed.split("\n"))
    return cost, bound, points, seconds


def row(cost, bound, points, seconds):
    """Figures as they stand in the table."""
    return f"{cost:9} {bound:9} {100 * (cost - bound) / max(1, cost):6.2f} {points:6} {seconds:8.1f}"


def main():
    programs = [built_program(), *sys.argv[2:]]
    print(" | ".join([f"{'day':16} {'rounds':>6} {HEADS}"] + [HEADS] * (len(programs) - 1)))
    for name, words, seed in DAYS:
        if not is_wanted(name):
            continue
        text, before = day(words, seed), None
        for rounds in ROUNDS:
            found = [figures(program, name, text, rounds) for program in programs]
            if [f[:3] for f in found] == before:
                break
            before = [f[:3] for f in found]
            print(f"{name:16} {rounds:6} " + " | ".join(row(*f) for f in found), flush=True)


if __name__ == "__main__":
    main()
