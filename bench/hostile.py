#!/usr/bin/env python3
"""Seconds and memory of inputs that were made to hurt.

    bench/hostile.py [PROGRAM]

PROGRAM is the built program; without it the proved one in crates/freight/out or in dist/ is taken. Each input goes through `check`:

- `spans`: 100,000 spans of one arc, each of which ends where the next begins.
- `gifts`: 10,000 gifts of one arc beside a table; `check` takes time in the square of their number.
- `later` and `first`: a chain of 100,000 splits by time; all nodes but the leaves lie on the second sides, or on the first.
- `in turn`: a chain of 100,000 splits, on the second sides, by times at two terminals in turn.
- `half`: the same as `later`, each leaf valued under the first 50,000 of its sides.
- `records` and `commas`: 134,217,728 bytes of records of one byte, and 134,217,727 of one record of empty fields.
- `last`, `fields` and `both`: as many bytes of one record whose last field alone isn't empty, or whose first; and of records of one
  byte, with one of three fields at the end.
- `quotes` and `quoted`: of quotes alone, and of one field in quotes.
- `ends`, `units`, `answers` and `leaves`: of lines that are known, the first of which can't stand where it does.
- `shares` and `weights`: of a certificate without a fault up to its last line, which is of no kind.
"""
import os
import sys

sys.path.insert(0, os.path.dirname(os.path.abspath(__file__)))
from kit import built_program, measured

COUNT = 100_000
GIFTS = 10_000
BYTES = 134_217_728

ONE_ARC = ["terminal,A", "terminal,B", "arc,A,B,5,10,100,1", "shipment,S1,A,B,4,0,100000"]
ONE_LEG = ["leg,S1,A,B,0,5", "truck,A,B,0,1,4"]

TWO_ARCS = ["terminal,A", "terminal,B", "terminal,C", "arc,A,B,5,10,100,1", "arc,B,C,5,10,100,1", "shipment,S1,A,C,4,0,100000"]
TWO_LEGS = ["leg,S1,A,B,0,5", "leg,S1,B,C,5,10", "truck,A,B,0,1,4", "truck,B,C,5,1,4"]

LEAF = "leaf,linear,0,forced"


def text_of(*parts):
    """The lines of a certificate and its instance, as one text."""
    return "\n".join(line for part in parts for line in part) + "\n"


def spans():
    """One shipment over one arc, and spans that only touch; none of the prices is above 0."""
    lines = [f"span,A,B,{point},{point + 1},0,0" for point in range(COUNT)]
    return text_of(ONE_ARC, ["answer,unfinished,104,0,branches"], ONE_LEG, ["table,1"], lines, ["leaf,1,0,plain", "end"])


def gifts():
    """One shipment over one arc, and gifts of that which no leaf is priced by."""
    lines = [f"gift,A,B,{point},{point + 1},most,1" for point in range(GIFTS)]
    return text_of(ONE_ARC, ["answer,unfinished,104,0,branches"], ONE_LEG, ["table,1"], lines, [LEAF, "end"])


def later():
    """A chain of splits of one shipment, each below the second side of the one before."""
    lines = [line for at in range(COUNT) for line in (f"split,time,S1,A,{at}", LEAF)]
    return text_of(ONE_ARC, ["answer,unfinished,104,104,branches"], ONE_LEG, lines, [LEAF, "end"])


def first():
    """A chain of splits of one shipment, each below the first side of the one before."""
    lines = [f"split,time,S1,A,{at}" for at in range(COUNT, 0, -1)]
    return text_of(ONE_ARC, ["answer,unfinished,104,104,branches"], ONE_LEG, lines, [LEAF] * (COUNT + 1), ["end"])


def in_turn():
    """The same as `later`, by times at the first terminal and at the second in turn."""
    lines = [line for at in range(COUNT) for line in (f"split,time,S1,{'AB'[at % 2]},{at // 2}", LEAF)]
    return text_of(TWO_ARCS, ["answer,unfinished,208,208,branches"], TWO_LEGS, lines, [LEAF, "end"])


def half():
    """The same as `later`, each leaf valued under half of the chain."""
    return later().replace(f"{LEAF}\n", f"{LEAF},{COUNT // 2}\n")


def records():
    """Records of one byte, the first of which is refused."""
    return "a\n" * (BYTES // 2)


def commas():
    """One record of empty fields, which is dropped, so no record is left."""
    return "," * (BYTES - 1)


def last():
    """One record, all of whose fields but the last are empty, so it has them all."""
    return "," * (BYTES - 1) + "a"


def fields():
    """One record, all of whose fields but the first are empty and dropped."""
    return "a," * (BYTES // 2)


def both():
    """Records of one byte, and one whose fields are more than the others' together would leave room for."""
    return "a\n" * (BYTES // 2 - 2) + ",,a\n"


def quotes():
    """One field of quotes that never ends."""
    return '"' * BYTES


def quoted():
    """One field in quotes."""
    return '"' + "a" * (BYTES - 2) + '"'


def lines_of(line):
    """As many of one line as the limit of bytes lets stand."""
    return lambda: (line + "\n") * (BYTES // (len(line) + 1))


def faultless(*lines):
    """A certificate of one table with as many of these lines as the limit lets stand, and a line of no kind."""

    def make():
        front = text_of(ONE_ARC, ["answer,unfinished,104,0,branches"], ONE_LEG, ["table,1"])
        body = text_of(lines)
        return front + body * ((BYTES - len(front) - 2) // len(body)) + "a\n"

    return make


# Where no answer is named, the last record is of no kind.
CASES = (
    ("spans", spans, "accepted,unfinished\n"),
    ("gifts", gifts, "accepted,unfinished\n"),
    ("later", later, "accepted,unfinished\n"),
    ("first", first, "accepted,unfinished\n"),
    ("in turn", in_turn, "accepted,unfinished\n"),
    ("half", half, "accepted,unfinished\n"),
    ("records", records, "refused,1,1\n"),
    ("commas", commas, "refused,1,26\n"),
    ("last", last, "refused,1,1\n"),
    ("fields", fields, "refused,1,1\n"),
    ("both", both, "refused,1,1\n"),
    ("quotes", quotes, "refused,1,1\n"),
    ("quoted", quoted, "refused,1,1\n"),
    ("ends", lines_of("end"), "refused,1,1\n"),
    ("units", lines_of("unit,1"), "refused,1,1\n"),
    ("answers", lines_of("answer"), "refused,1,21\n"),
    ("leaves", lines_of("leaf,,,a"), "refused,1,1\n"),
    ("shares", faultless("share,A,B,0,0"), None),
    ("weights", faultless("share,A,B,0,0", "weight,S1,0"), None),
)


def main():
    program = built_program()
    print("what       bytes seconds megabytes")
    for what, make, wanted in CASES:
        text = make()
        if wanted is None:
            wanted = f"refused,{text.count(chr(10))},21\n"
        printed, took, megabytes = measured([program, "check"], text)
        if printed != wanted:
            sys.exit(f"{what}: {printed!r} where {wanted!r} was expected")
        print(f"{what:7} {len(text):9} {took:7.2f} {megabytes:9.0f}", flush=True)


if __name__ == "__main__":
    main()
