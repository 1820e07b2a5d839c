"""That the second reading of the records agrees with the program on the first fault: each code, and examples that are damaged."""

import pathlib
import random
import subprocess
import sys
import unittest

sys.dont_write_bytecode = True
HERE = pathlib.Path(__file__).resolve().parent
sys.path[:0] = [str(HERE.parent), str(HERE)]

from freight_text.faults.findings import NAMES  # noqa: E402
from freight_text.faults.readings import findings_of  # noqa: E402
from freight_text.records import records_of  # noqa: E402
from programs import TOP, proved  # noqa: E402

ENDS = "terminal,A\nterminal,B\n"
ARC = "arc,A,B,5,10,100,1\n"
DAY = ENDS + ARC + "shipment,S1,A,B,4,0,10\n"
ANSWER = DAY + "answer,optimal,104\n"
TABLE = ANSWER + "table,1\n"
GREAT = 10**18
CHAIN = "".join(f"terminal,T{it}\n" for it in range(62)) + "".join(f"arc,T{it},T{it + 1},1,1,0,0\n" for it in range(61))
CARRIED = "".join(f"shipment,S{it},T0,T61,1,0,100\n" for it in range(492))
KEPT = "".join(f"kept,S{it},T{at},T{at + 1},{at}\n" for it in range(492) for at in range(61))
PAIRS = [(one, two) for one in range(33) for two in range(33) if one != two]

# The words, an input, and the code of its first fault.
INPUTS = (
    ("direct", "depot,C\n", 1),
    ("direct", "\"ter\"minal,A\n \"terminal\",B\n", 1),
    ("plan", DAY + "answer,optimal,104\n", 1),
    ("plan", DAY + "kept,S1,A,B,0\n", 1),
    ("bound", DAY + "kept,S1,A,B,0\nanswer,optimal,104\n", 1),
    ("fleet", DAY + "kept,S1,A,B,0\nanswer,optimal,104\n", 26),
    ("improve", DAY + "now,0\nanswer,optimal,104\n", 26),
    ("direct", ENDS + "arc,A,B,5,10,100\n", 2),
    ("direct", "terminal\n", 2),
    ("direct", "terminal,C C\n", 3),
    ("direct", "terminal,,4\n", 3),
    ("direct", "terminal," + "N" * 33 + "\n", 3),
    ("direct", ENDS + "arc,A,B,5x,10,100,1\n", 4),
    ("direct", ENDS + "arc,A,B,,10,100,1\n", 4),
    ("bound", "terminal,C,1001\n", 5),
    ("bound", "terminal,C," + "9" * 5000 + "\n", 5),
    ("bound", ENDS + "arc,A,B,0,10,100,1\n", 5),
    ("direct", ENDS + "terminal,A\n", 6),
    ("direct", DAY + "shipment,S1,B,A,4,0,10\n", 6),
    ("direct", "terminal,A\narc,A,B,5,10,100,1\nterminal,B\n", 7),
    ("direct", ENDS + "arc,A,A,5,10,100,1\n", 8),
    ("direct", DAY + ARC, 9),
    ("direct", ENDS + "shipment,S1,A,B,4,10,9\n", 10),
    ("direct", "".join(f"terminal,T{it}\n" for it in range(101)), 11),
    ("direct", "".join(f"terminal,T{it}\n" for it in range(33)) + "".join(f"arc,T{one},T{two},1,1,0,0\n" for one, two in PAIRS), 11),
    ("direct", ENDS + "".join(f"shipment,S{it},A,B,1,0,9\n" for it in range(501)), 11),
    ("direct", ENDS + f"arc,A,B,5,1,{GREAT},0\nshipment,S1,A,B,{GREAT},0,10\n", 12),
    ("plan --scale 1000000000", ENDS + f"arc,A,B,5,10,{GREAT},1\nshipment,S1,A,B,1000000000,0,10\n", 12),
    ("plan --scale 1", ENDS + f"arc,A,B,5,1,{GREAT},0\nshipment,S1,A,B,{GREAT},0,10\n", 12),
    ("improve --scale 1000000000", ENDS + f"arc,A,B,5,10,{GREAT},1\nshipment,S1,A,B,1000000000,0,10\nanswer,direct,1\nend\n", 12),
    ("improve --scale 1000000000", ENDS + f"arc,A,B,5,10,{GREAT},1\nshipment,S1,A,B,1000000000,0,10\nanswer,direct,1\n", 26),
    ("check", ENDS + f"arc,A,B,5,1,{GREAT},0\nshipment,S1,A,B,{GREAT},0,10\nanswer\n", 12),
    ("replan", ENDS + f"arc,A,B,5,1,{GREAT},0\nshipment,S1,A,B,{GREAT},0,10\nkept\n", 12),
    ("check", ANSWER + "lag,S1,A,B,0,5\n", 21),
    ("check", DAY + "answer\n", 21),
    ("check", DAY + "answer,bound,3\n", 21),
    ("check", ANSWER + "split\n", 21),
    ("check", ANSWER + "split,S1,A,B\n", 21),
    ("check", ANSWER + "\"split,arc\",S1,A,B\n", 21),
    ("check", ANSWER + "split,truck,A,B,0,9,1\n", 21),
    ("check", ANSWER + "split,ways,S1,A,B\n", 21),
    ("check", DAY + "answer,optimal\n", 22),
    ("check", ANSWER + "split,trucks,A,B,0,9\n", 22),
    ("check", ANSWER + "split,way,S1,A\n", 22),
    ("check", TABLE + "gift,A,B,0,9,1\n", 22),
    ("check", ANSWER + "table,1,moments,1\n", 22),
    ("check", ANSWER + "leaf,linear,0\n", 22),
    ("check", ANSWER + "narrow,linear,0\n", 22),
    ("check", ANSWER + "narrow,linear,0,plain,1,1\n", 22),
    ("check", ANSWER + "end,0\n", 22),
    ("check", ANSWER + "leg,S1,A,B,0,5x\n", 23),
    ("check", ANSWER + "leaf,1,0,loose\n", 23),
    ("check", ANSWER + "leaf,linear,0,plain,x\n", 23),
    ("check", ANSWER + "narrow,line,0,plain\n", 23),
    ("check", ANSWER + "narrow,linear,0,loose\n", 23),
    ("check", ANSWER + "narrow,linear,0,plain,x\n", 23),
    ("check", DAY + "answer,unfinished,3,2,seconds\n", 23),
    ("check", TABLE + "gift,A,B,0,9,more,1\n", 23),
    ("check", ANSWER + "table,1,moment\n", 23),
    ("check", ANSWER + "table,moments,1\n", 23),
    ("check", ANSWER + "split,trucks,A,B,0,9,one\n", 23),
    ("check", DAY + "answer,infeasible,S1,never\n", 23),
    ("check", ANSWER + "truck,A,B,0,1,4\nleg,S1,A,B,0,5\n", 24),
    ("check", ANSWER + "answer,optimal,104\n", 24),
    ("check", ANSWER + "scale,7\nscale,7\n", 24),
    ("check", ANSWER + "unit,7\nscale,7\n", 24),
    ("check", ANSWER + "table,2\n", 24),
    ("check", TABLE + "table,3,moments\n", 24),
    ("check", ANSWER + "table,1,moments\n", 26),
    ("check", ANSWER + "share,A,B,0,1\n", 24),
    ("check", TABLE + "weight,S1,1\n", 24),
    ("check", TABLE + "span,A,B,0,5,1,0\nshare,A,B,0,1\n", 24),
    ("check", TABLE + "share,A,B,0,1\ntable,2\nweight,S1,1\n", 24),
    ("check", ANSWER + "gift,A,B,0,9,least,1\n", 24),
    ("check", ANSWER + "leaf,linear,0,plain\ngift,A,B,0,9,least,1\n", 24),
    ("check", ANSWER + "narrow,linear,0,plain\ntable,1\n", 24),
    ("check", DAY + "answer,direct,104\nnarrow,linear,0,plain\n", 24),
    ("check", TABLE + "gift,A,B,0,9,least,1\nshare,A,B,0,1\n", 24),
    ("check", TABLE + "gift,A,B,0,9,least,1\nspan,A,B,0,5,1,0\n", 24),
    ("check", TABLE + "span,A,B,0,5,1,0\ngift,A,B,0,9,most,1\nweight,S1,1\n", 24),
    ("check", TABLE + "span,A,B,0,5,1,0\ngift,A,B,0,9,most,1\ngroup,3\n", 24),
    ("check", TABLE + "gift,A,B,0,9,least,1\ntable,2\nshare,A,B,0,1\n", 26),
    ("check", DAY + "answer,direct,104\npoint,A,3,1\n", 24),
    ("check", DAY + "answer,direct,104\nsplit,way,S9,A,B\n", 24),
    ("check", DAY + "answer,infeasible,S1,none\nleg,S1,A,B,0,5\n", 24),
    ("check", ANSWER + "leg,S9,A,B,0,5\n", 25),
    ("check", ANSWER + "leg,S1,B,A,0,5\n", 25),
    ("check", ANSWER + "split,time,S1,C,5\n", 25),
    ("check", ANSWER + "split,trucks,B,A,0,9,1\n", 25),
    ("check", ANSWER + "split,way,S9,A,B\n", 25),
    ("check", ANSWER + "split,way,S1,B,A\n", 25),
    ("check", TABLE + "gift,B,A,0,9,most,1\n", 25),
    ("check", "answer,optimal,104\nleg,S1,A,B,0,5\n" + DAY, 25),
    ("check", ANSWER, 26),
    ("check", DAY, 26),
    ("check", "", 26),
    ("fleet", ANSWER + "end\nend\n", 27),
    ("yard 1", ANSWER + "end\ndepot\n", 27),
    ("check", ANSWER + "leaf,1,0,plain\n", 28),
    ("check", ANSWER + "leaf,0,4001,plain\n", 28),
    ("check", ANSWER + "leaf,linear,0,plain,100001\n", 28),
    ("check", ANSWER + "narrow,1,0,plain\n", 28),
    ("check", ANSWER + "narrow,0,0,plain\n", 28),
    ("check", ANSWER + "narrow,linear,4001,plain\n", 28),
    ("check", ANSWER + f"narrow,linear,0,plain,{2**127}\n", 28),
    ("check", ANSWER + f"narrow,linear,0,plain,{2**127 - 1}\n", 26),
    ("check", ANSWER + "unit,0\n", 28),
    ("check", ANSWER + f"unit,{2**127}\n", 28),
    ("check", ANSWER + "scale,1000000001\n", 28),
    ("check", ENDS + f"arc,A,B,5,10,{GREAT},1\nshipment,S1,A,B,1000000000,0,10\nanswer,optimal,1\nscale,1000000000\n", 28),
    ("check", TABLE + "span,A,B,5,5,1,0\n", 28),
    ("check", TABLE + "span,A,B,100000,100002,1,0\n", 28),
    ("check", TABLE + "gift,A,B,9,0,most,1\n", 28),
    ("check", TABLE + "gift,A,B,0,100002,least,1\n", 28),
    ("check", ANSWER + "split,trucks,A,B,9,9,1\n", 28),
    ("check", ANSWER + f"split,trucks,A,B,0,9,{2**32}\n", 28),
    ("check", ANSWER + "point,A,3,0\n", 28),
    ("replan", DAY + "kept,S1,A,B,0\nkeep\n", 31),
    ("replan", DAY + "kept,S1,A,B,0\nterminal,C\n", 31),
    ("replan", DAY + "kept,S1,A,B\n", 32),
    ("replan", DAY + "kept,S1,A,B,0x\n", 33),
    ("replan", DAY + "kept,S9,A,B,0\n", 34),
    ("replan", DAY + "kept,S1,B,A,0\n", 34),
    ("replan", DAY + "kept,S1,A,B,100001\n", 35),
    ("replan", DAY + "kept,S1,A,B,0\nkept,S1,A,B,0\n", 36),
    ("replan", CHAIN + CARRIED + KEPT, 37),
    ("replan", DAY + "now,5\n" + "now,6\n", 38),
    ("check", DAY + "now,5\nnow,5\nanswer,optimal,104\n", 38),
    ("quote", ENDS, 38),
    ("quote", "", 38),
    ("quote S2", DAY, 38),
    ("replan", DAY + "kept,S1,A,B,4,3\n", 39),
    ("check", DAY + "kept,S1,A,B,4,3\n", 39),
    ("check", DAY + "kept,S1,A,B,0\nanswer,optimal,104\n", 26),
    ("check", DAY + "kept,S1,A,B,0,5\nanswer,direct,0\nleg,S1,A,B,0,5\n", 25),
    ("check", ENDS + f"arc,A,B,5,10,{GREAT},1\nshipment,S1,A,B,1000000000,0,10\nshipment,S2,A,B,1,0,10\nkept,S1,A,B,0,5\nanswer,optimal,1\nscale,1000000000\nend\n", 12),
)  # fmt: skip

# What examples are damaged by: one of their bytes, a field or a record becomes one of these, or goes, or comes once more.
BYTES = (b",", b"\n", b"\r", b'"', b" ", b"\t", b"0", b"9", b"A", b";", b"\xa0", b"\xc3\x89", b"\0", b"-")
FIELDS = (b"", b"0", b"100001", b"99999999999999999999", b"A", b"S1", b"terminal", b"answer", b"kept", b"end", b"table", b"optimal", b"none", b'"x"', b"now", b"stuck", b"700", b"trucks", b"way", b"gift", b"most", b"narrow")
EXAMPLES = (
    ("direct", "carrier-day.csv"), ("bound", "one-arc.csv"), ("quote --rounds 0 --branches 0", "shared-truck.csv"),
    ("check", "hub-proof.csv"), ("check", "two-or-three.csv"), ("check", "two-ways.csv"), ("check", "parted-shipments.csv"), ("check", "narrowed-ways.csv"), ("check", "proved-plan.csv"), ("yard 1", "proved-plan.csv"), ("fleet", "proved-plan.csv"), ("replan --rounds 0 --branches 0", "kept-day.csv"),
    ("replan --rounds 0 --branches 0", "new-order.csv"), ("check", "late-answer.csv"), ("check", "stuck-answer.csv"), ("yard 1", "late-answer.csv"),
    ("fleet --trucks", "late-answer.csv"), ("improve --rounds 0 --branches 0", "late-answer.csv"), ("quote --rounds 0 P4", "carrier-day.csv"),
)  # fmt: skip
DAMAGED = 60


def first_fault(words, data):
    """The first fault that the second reading finds, as the program prints it, or None."""
    listed = findings_of(words.split(), records_of(data), data).listed
    return f"refused,{listed[0].ordinal},{listed[0].fault.code}" if listed else None


def damaged_bytes(draw, data):
    at = draw.randrange(len(data) + 1)
    return data[:at] + draw.choice((b"", *BYTES)) + data[at + draw.randrange(2) :]


def damaged_field(draw, data):
    lines = data.split(b"\n")
    at = draw.randrange(len(lines))
    fields = lines[at].split(b",")
    fields[draw.randrange(len(fields))] = draw.choice(FIELDS)
    lines[at] = b",".join(fields)
    return b"\n".join(lines)


def damaged_order(draw, data):
    lines = data.split(b"\n")
    line = draw.choice(lines)
    if draw.randrange(2):
        lines.remove(line)
    lines.insert(draw.randrange(len(lines) + 1), line)
    return b"\n".join(lines)


def damaged_lines(draw, data):
    lines = data.split(b"\n")
    del lines[draw.randrange(len(lines))]
    return b"\n".join(lines)


DAMAGES = (damaged_bytes, damaged_bytes, damaged_field, damaged_field, damaged_order, damaged_lines)


@unittest.skipIf(proved() is None, "the proved program of these sources isn't here")
class Agreement(unittest.TestCase):
    def agrees(self, words, data):
        """What the program refuses, after it was compared with the second reading; None where it refuses nothing."""
        done = subprocess.run([proved(), *words.split()], input=data, capture_output=True)
        refusal = done.stdout.decode().strip() if done.returncode == 21 else None
        self.assertEqual(first_fault(words, data), refusal, (words, data))
        return refusal

    def test_each_code(self):
        for words, text, code in INPUTS:
            refusal = self.agrees(words, text.encode())
            self.assertEqual(refusal and refusal.split(",")[2], str(code), text[-200:])
        self.assertEqual({code for *_, code in INPUTS}, set(NAMES))

    def test_damaged_examples(self):
        draw = random.Random(1)
        for words, name in EXAMPLES:
            whole = (TOP / "examples" / name).read_bytes()
            for _ in range(DAMAGED):
                data = whole
                for _ in range(draw.randrange(1, 4)):
                    data = draw.choice(DAMAGES)(draw, data)
                self.agrees(words, data)


if __name__ == "__main__":
    unittest.main()
