#!/usr/bin/env python3
"""Whether two programs answer the same, byte for byte, on the examples and on generated instances, and the seconds of both.

    bench/answers.py PROGRAM OTHER [COUNT]

COUNT generated instances are taken, 200 without it: small ones, a carrier's lines and hubs among them. Each is answered by
`plan` and `bound` without and with `--spans`, by `quote`, and by `replan` with the first leg of the direct plan kept. Where
answers differ their first lines are printed; the status is then 1.
"""
import os
import sys

sys.path.insert(0, os.path.dirname(os.path.abspath(__file__)))
from instances import generated, hubs, line
from kit import TOP, measured

SMALL = ["--rounds", "6", "--branches", "6"]
RUNS = {
    "plan": ["plan"] + SMALL,
    "plan --spans": ["plan", "--spans"] + SMALL,
    "bound": ["bound"],
    "bound --spans": ["bound", "--spans"],
    "quote": ["quote"] + SMALL,
}


def instances(count):
    """What each generated instance is called, and its records."""
    for seed in range(count):
        kind = seed % 4
        if kind == 0:
            yield f"line 5 with 8, seed {seed}", line(5, 8, 300, seed)
        elif kind == 1:
            yield f"hub of 6 with 10, seed {seed}", hubs(1, 5, 10, 300, seed)
        else:
            yield f"{4 + seed % 4}x{6 + seed % 9}, seed {seed}", generated(seed, 4 + seed % 4, 6 + seed % 9)


def examples():
    """The names and records of the examples that are instances alone, of at most 60 shipments."""
    folder = os.path.join(TOP, "examples")
    for name in sorted(os.listdir(folder)):
        if name.endswith(".csv"):
            with open(os.path.join(folder, name)) as file:
                text = file.read()
            kinds = [row.split(",")[0] for row in text.splitlines()]
            if not {"answer", "kept"} & set(kinds) and kinds.count("shipment") <= 60:
                yield name, text


def kept(program, text):
    """The records with the first leg of the direct plan kept."""
    printed, _, _ = measured([program, "direct"], text)
    legs = [row.split(",") for row in printed.splitlines() if row.startswith("leg,")]
    return text + "".join(f"kept,{','.join(leg[1:5])}\n" for leg in legs[:1])


def cases(program, count):
    """Each run: what it is called, its words, and its input."""
    for name, text in [*examples(), *instances(count)]:
        for run, words in RUNS.items():
            yield f"{name}: {run}", words, text
        yield f"{name}: replan", ["replan"] + SMALL, kept(program, text)


def main():
    if len(sys.argv) not in (3, 4):
        sys.exit(__doc__)
    program, other = sys.argv[1:3]
    differ, seconds = 0, {}
    for number, (name, words, text) in enumerate(cases(program, int(sys.argv[3]) if len(sys.argv) == 4 else 200), 1):
        pair = [measured([it] + words, text) for it in (program, other)]
        run = " ".join(words)
        before = seconds.get(run, (0, 0))
        seconds[run] = tuple(sum(it) for it in zip(before, (pair[0][1], pair[1][1])))
        if pair[0][0] != pair[1][0]:
            differ += 1
            print(f"{name}: {pair[0][0].splitlines()[:1]} beside {pair[1][0].splitlines()[:1]}")
    for run, (ours, theirs) in seconds.items():
        print(f"{run}: {ours:.1f} s beside {theirs:.1f} s")
    print(f"{number} answers, {differ} differ")
    sys.exit(1 if differ else 0)


if __name__ == "__main__":
    main()
