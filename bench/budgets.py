#!/usr/bin/env python3
"""Whether more rounds and branches give better plans and bounds: cost, bound and seconds by one budget after another,
without `--spans` and with it, on generated instances and on a carrier's lines and hubs.

    bench/budgets.py [PROGRAM [OTHER]]
    BY=seconds bench/budgets.py ..     by 2, 10 and 60 seconds, with the usual rounds and branches
    ONLY=WORD bench/budgets.py ..      the rows alone whose names have the word

PROGRAM is the built program; without it the proved one in crates/freight/out is taken, or the one in dist/. OTHER is a
program of the same words, whose rows stand below those of PROGRAM. Each answer is handed back to the `check` of the
program that gave it. A row ends with `dearer` where a larger budget gave a dearer plan than some smaller one, and with
`lower` where it gave a lower bound; the last lines say how many rows do. A search with more of a budget does first what one
with less does (docs/policies.md); without `--spans` a split may still lower a bound (docs/DECISIONS.md). Instances of more than 50
shipments, which take minutes a row, are run where ONLY is set and their names have its word.
"""
import os
import sys

sys.path.insert(0, os.path.dirname(os.path.abspath(__file__)))
from instances import cases
from kit import built_program, check_answer, is_wanted, planned

# What each budget is called, and its options; each is at least the one before.
ROUNDS = {f"{rounds}/{branches}": f"--rounds {rounds} --branches {branches}" for rounds, branches in ((0, 0), (10, 0), (40, 20), (40, 100))}
SECONDS = {f"{seconds} s": f"--seconds {seconds}" for seconds in (2, 10, 60)}
BUDGETS = SECONDS if os.environ.get("BY") == "seconds" else ROUNDS
MOST_SHIPMENTS = 50
WIDTH = 24


def rows():
    """What each row is called, the records of its instance, and the options beside a budget."""
    for name, text in cases():
        if "ONLY" in os.environ or text.count("shipment,") <= MOST_SHIPMENTS:
            for spans in ([], ["--spans"]):
                yield name + (", spans" if spans else ""), text, spans


def found_by(program, name, text, spans):
    """Cost, bound and seconds by each budget."""
    found = []
    for options in BUDGETS.values():
        words = [program, "plan", *options.split(), *spans]
        (cost, bound, _, seconds, _), printed = planned(words, text)
        check_answer(program, name, text, printed)
        found.append((cost, bound, seconds))
    return found


def faults(found):
    """What some larger budget did worse than a smaller one."""
    pairs = [(smaller, larger) for place, larger in enumerate(found) for smaller in found[:place]]
    dearer = any(larger[0] > smaller[0] for smaller, larger in pairs)
    lower = any(larger[1] < smaller[1] for smaller, larger in pairs)
    return [word for word, is_so in (("dearer", dearer), ("lower", lower)) if is_so]


def main():
    programs = {"program": built_program(), **{"other": it for it in sys.argv[2:3]}}
    counts = {which: {"rows": 0, "dearer": 0, "lower": 0} for which in programs}
    heads = "".join(f"{budget:{WIDTH}}" for budget in BUDGETS)
    print(f"{'instance':36} {'':7} {heads}")
    for name, text, spans in rows():
        if is_wanted(name):
            for which, program in programs.items():
                found = found_by(program, name, text, spans)
                cells = "".join(f"{f'{cost}/{bound}/{seconds:.1f}':{WIDTH}}" for cost, bound, seconds in found)
                print(f"{name:36} {which:7} {cells}{' '.join(faults(found))}".rstrip(), flush=True)
                for word in ("rows", *faults(found)):
                    counts[which][word] += 1
    for which, count in counts.items():
        print(f"{which}: of {count['rows']} rows {count['dearer']} dearer, {count['lower']} lower")


if __name__ == "__main__":
    main()
