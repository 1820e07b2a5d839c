#!/usr/bin/env python3
"""What `plan` finds on carriers' days of real size by small budgets, which take a second for the smallest and minutes for
the largest, or by seconds: cost, bound, the gap between them in per cent of the cost, seconds and megabytes, without `--spans` and with.

    bench/days.py [PROGRAM [OTHER ..]]
    BY=10,60,600 bench/days.py ..      by seconds, with `--spans` and the usual rounds and branches
    ONLY=WORD bench/days.py ..         the rows alone whose names have the word, as `20x60 ` or `seed 1, 0/0`

PROGRAM is the built program; without it the proved one in crates/freight/out is taken, or the one in dist/. Each OTHER
is a program of the same words, whose figures stand beside. Each answer is handed back to the `check` of the program
that gave it.

The days are those of tools/day: 20 terminals with 60 shipments, 30 with 120, 50 with 300 and 100 with 500, with one or
two days of service and up to 6 pallets a shipment; of the smaller two sizes some with two or three days of service; and
two days of the tool's own size. The first of that size is examples/france-day.csv, which bench/plan.py plans.
"""
import os
import subprocess
import sys

sys.path.insert(0, os.path.dirname(os.path.abspath(__file__)))
from kit import TOP, built_program, check_answer, is_wanted, planned

ALL, FEW, NONE = ((0, 0), (10, 0), (40, 20)), ((0, 0), (10, 0)), ((0, 0),)
SMALL = "--terminals 20 --hubs 3 --arcs 62 --shipments 60 --pallets 6"
MEDIUM = "--terminals 30 --hubs 4 --arcs 98 --shipments 120 --pallets 6"
LARGE = "--terminals 50 --hubs 5 --arcs 170 --shipments 300 --pallets 6"
LARGEST = "--terminals 100 --hubs 8 --arcs 340 --shipments 500 --pallets 6"

# The name of a kind of day, the words of tools/day that make it, its seeds, and the rounds and branches of its plans.
KINDS = (
    ("20x60 2 days", f"{SMALL} --service-days 2", (1, 2, 3), ALL),
    ("20x60 3 days", f"{SMALL} --service-days 3", (1, 2, 3), ALL),
    ("30x120 2 days", f"{MEDIUM} --service-days 2", (1, 2, 3), FEW),
    ("30x120 3 days", f"{MEDIUM} --service-days 3", (1, 2, 3), FEW),
    ("30x150 3 days", "", (2, 3), FEW),
    ("50x300 2 days", f"{LARGE} --service-days 2", (1, 2, 3), NONE),
    ("100x500 2 days", f"{LARGEST} --service-days 2", (1, 2, 3), NONE),
)
HEADS = f"{'cost':>9} {'bound':>9} {'gap %':>6} {'seconds':>8} {'MB':>6}"


def day(words, seed):
    """The records of a day."""
    made = [os.path.join(TOP, "tools", "day"), "--seed", str(seed), *words.split()]
    return subprocess.run(made, stdout=subprocess.PIPE, check=True).stdout.decode()


def options_of(budgets):
    """What each run of a day is called, and the options that it is planned with."""
    if "BY" in os.environ:
        for seconds in os.environ["BY"].split(","):
            yield f"{seconds} s, spans", ["--seconds", seconds, "--spans"]
        return
    for rounds, branches in budgets:
        for spans in ([], ["--spans"]):
            yield f"{rounds}/{branches}{', spans' if spans else ''}", ["--rounds", str(rounds), "--branches", str(branches), *spans]


def runs():
    """What each run is called, the words and the seed of its day, and the options that it is planned with."""
    for kind, words, seeds, budgets in KINDS:
        for seed in seeds:
            for name, options in options_of(budgets):
                yield f"{kind} seed {seed}, {name}", words, seed, options


def row(program, name, text, options):
    """The figures of a program on a day, as they stand in the table."""
    (cost, bound, _, seconds, megabytes), printed = planned([program, "plan", *options], text)
    check_answer(program, name, text, printed)
    gap = 100 * (cost - bound) / max(1, cost)
    return f"{cost:9} {bound:9} {gap:6.2f} {seconds:8.1f} {megabytes:6.0f}"


def main():
    programs = [built_program(), *sys.argv[2:]]
    print(" | ".join([f"{'day':34} {HEADS}"] + [HEADS] * (len(programs) - 1)))
    for name, words, seed, options in runs():
        if is_wanted(name):
            text = day(words, seed)
            print(f"{name:34}", " | ".join(row(program, name, text, options) for program in programs), flush=True)


if __name__ == "__main__":
    main()
