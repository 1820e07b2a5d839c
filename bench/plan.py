#!/usr/bin/env python3
"""What `plan` finds: cost, bound, ending, seconds, memory and splits, on generated instances, a carrier's lines and hubs, and a day of real size;
without `--spans`, with it, and with it and no branches.

    bench/plan.py [PROGRAM [OTHER ..]]
    ONLY=WORD bench/plan.py ..      the rows alone whose names have the word

PROGRAM is the built program; without it the proved one in crates/freight/out is taken, or the one in dist/. OTHER, with words of its
own, is another program that takes the same words and input, but for `--spans`: whether it seeks spans is for its own words to say, so
its figures stand beside the rows with spans alone. Each answer of PROGRAM is handed back to its `check`. The ending is `optimal`, or
what was used up. Splits are those of PROGRAM's tree: by an arc, by a time, by trucks and by a way, as 3/0/2/1.
"""
import os
import sys

sys.path.insert(0, os.path.dirname(os.path.abspath(__file__)))
from instances import cases, generated
from kit import HEADS, TOP, built_program, check_answer, is_wanted, planned, row_of, splits_of

SPANS = "--spans"
SHORT = ["--rounds", "40", "--branches", "100"]
ROOT = ["--rounds", "40", "--branches", "0", SPANS]


def all_cases():
    """What each case is called, its records, and the options that it is planned with."""
    for name, text in cases():
        yield name, text, SHORT
        yield f"{name}, spans", text, SHORT + [SPANS]
        yield f"{name}, root", text, ROOT
    for seed in (1, 2, 3):
        yield f"6x15 seed {seed}, defaults", generated(seed, 6, 15), []
    with open(os.path.join(TOP, "examples", "france-day.csv")) as file:
        day = file.read()
    yield "france-day.csv", day, SHORT
    yield "france-day.csv, spans", day, SHORT + [SPANS]


def main():
    program = built_program()
    others = [sys.argv[2:]] if len(sys.argv) > 2 else []
    print(" | ".join([f"{'instance':34} {HEADS} {'splits':>12}"] + [HEADS] * len(others)))
    for name, text, options in all_cases():
        if not is_wanted(name):
            continue
        figures, printed = planned([program, "plan"] + options, text)
        check_answer(program, name, text, printed)
        rows = [f"{row_of(*figures)} {splits_of(printed):>12}"]
        if SPANS in options:
            words = ["plan"] + [word for word in options if word != SPANS]
            rows += [row_of(*planned(other + words, text)[0]) for other in others]
        print(" | ".join([f"{name:34} {rows[0]}"] + rows[1:]), flush=True)


if __name__ == "__main__":
    main()
