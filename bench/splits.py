#!/usr/bin/env python3
"""What `plan --spans` finds in some seconds, where splits by trucks and by ways count most: cost, bound, the gap between them in per cent of
the cost, the seconds that `check` takes for the answer, and how many splits its tree has of each kind.

    bench/splits.py [PROGRAM [OTHER ..]]
    BY=10 bench/splits.py ..       in so many seconds in place of 60
    ONLY=WORD bench/splits.py ..   the rows alone whose names have the word
    JOBS=3 bench/splits.py ..      so many rows at once: no more than there are idle cores, since seconds count

PROGRAM is the built program; without it the proved one in crates/freight/out is taken, or the one in dist/. Each OTHER is a program of the
same words, which is run after it on the same row. Each answer is handed back to the `check` of the program that gave it.
"""
import os
import sys
from concurrent.futures import ThreadPoolExecutor

sys.path.insert(0, os.path.dirname(os.path.abspath(__file__)))
from days import SMALL, day
from instances import cases
from kit import built_program, check_answer, is_wanted, planned, splits_of

SEEDS_OF_THREE = ("10x40", "12x50", "20x60")
HEADS = f"{'cost':>9} {'bound':>9} {'gap %':>6} {'check s':>7} {'splits':>11}"


def rows():
    """What each row is called, and its records: of the larger generated instances the first seed alone, and of days three."""
    for name, text in cases():
        if not name.startswith(SEEDS_OF_THREE) or name.endswith("seed 1"):
            yield name, text
    for seed in (1, 2, 3):
        yield f"day of 20x60, seed {seed}", day(f"{SMALL} --service-days 2", seed)


def found_by(program, name, text):
    """The figures of one program on one instance, as they stand in the table."""
    words = [program, "plan", "--spans", "--seconds", os.environ.get("BY", "60")]
    (cost, bound, *_), printed = planned(words, text)
    gap = 100 * (cost - bound) / cost
    return f"{cost:>9} {bound:>9} {gap:6.2f} {check_answer(program, name, text, printed):7.1f} {splits_of(printed):>11}"


def main():
    programs = [built_program(), *sys.argv[2:]]
    print(" | ".join([f"{'instance':28}"] + [HEADS] * len(programs)), flush=True)
    wanted = [row for row in rows() if is_wanted(row[0])]
    with ThreadPoolExecutor(int(os.environ.get("JOBS", "1"))) as pool:
        found = pool.map(lambda row: [found_by(program, *row) for program in programs], wanted)
        for (name, _), cells in zip(wanted, found):
            print(" | ".join([f"{name:28}", *cells]), flush=True)


if __name__ == "__main__":
    main()
