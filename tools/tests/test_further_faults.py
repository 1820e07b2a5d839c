"""Which faults of an input are listed, which follow from others, and how many there are."""

import pathlib
import sys
import unittest

sys.dont_write_bytecode = True
HERE = pathlib.Path(__file__).resolve().parent
sys.path[:0] = [str(HERE.parent), str(HERE)]

from freight_text.answers import explanation  # noqa: E402
from freight_text.faults.readings import findings_of  # noqa: E402
from freight_text.records import records_of  # noqa: E402

ENDS = "terminal,A\nterminal,LYON\n"
ARC = "arc,A,LYON,5,10,100,1\n"
DAY = ENDS + ARC + "shipment,S1,A,LYON,4,0,10\n"

# The command, an input, the ordinal and the code of each fault that is listed, and how many more follow from these.
INPUTS = (
    ("direct", "terminal,C,9999\narc,C,C,x,0,y,1\n", "1,5 2,4 2,4 2,5 2,8", 0),
    ("direct", "terminal,C,9999\nterminal,D\nshipment,S1,C,D,1,0,9\nterminal,C\n", "1,5 4,6", 0),
    ("direct", ENDS + "terminal,S E,1\nterminal,B,x\narc,A,S E,5,1,1,1\narc,S E,B,5,1,1,1\n", "3,3 4,4", 0),
    ("direct", ENDS + "arc,A,S E,5,1,1,1\narc,LYON,S E,5,1,1,1\n", "3,3", 1),
    ("direct", ENDS + "arc,A,LYONN,5,1,1,1\narc,LYONN,A,5,1,1,1\narc,A,LYON,5,1,1,1\n", "3,7 4,7 5,9", 0),
    ("direct", ENDS + "arc,A,MARS,5,1,1,1\narc,MARS,A,5,1,1,1\nshipment,S1,A,MARS,1,9,5\n", "3,7 5,10", 2),
    ("direct", "depot,C\nterminal,A\narc,C,A,5,1,1,1\n", "1,1", 0),
    ("direct", "Terminal,C,x\nterminal,A\narc,C,A,5,1,1,1\n", "1,1 1,4", 0),
    ("direct", ENDS + "arc,A\nshipment\narc,A,LYON,5,1,1\nshipment,S1,A,LYON,,1,0\n", "3,2 4,2 5,2 6,4 6,10", 0),
    ("direct", ENDS + "terminal,,5\narc,A,,5,1,1,1\n", "3,3 4,3", 0),
    ("check", DAY + "terminal,B,x\narc,B,A,x,1,1,1\nanswer,optimal,9\nleg,S1,B,A,0,5\nleg,S2,A,A,0,5\nend\n", "5,4 6,4 9,25 9,25", 0),
    ("check", DAY + "answer,optimal\nleg,S1,A,LYON,0,5\ntruck,A,LYON,0,1,x\nleg,S1,A,LYON,0,5\nleg,S1,A,LYON,1,5\nend\n", "5,22 7,23 8,24", 1),
    ("check", DAY + "answer,optimal,9\nshare,A,LYON,0,1\nshare,A,LYON,1,1\nweight,S1,1\nleaf,1,0,plain\nend\n", "6,24", 0),
    ("check", DAY + "answer,optimal,9\nleaf,2,0,plain\nleaf,2,5000,plain\nend\nend\nend\n", "6,28 7,28 9,27", 2),
    ("check", DAY + "answer,optimal,9\nleaf,linear,0,plain\nEnd\n", "7,21", 0),
    ("check", DAY + "answer,optimal,9\nleg,S9,A,LYON,0,5\nleg,S9,A,LYON,0,5\n", "6,25 8,26", 1),
    ("check", DAY + "anwser,optimal,9\nleg,S1,A,LYON,0,5\nend\n", "5,1", 2),
    ("replan", DAY + "kept,S1,A,LYON,x\nkept,S1,A,LYON,0\nkept,S1,A,LYON,0\nkept,S2,A,LYON,100001\n", "5,33 6,36 8,34 8,35", 1),
    ("replan", ENDS + ARC + "shipment,S1,A\nkept,S1,A,LYON,0\n", "4,2", 0),
    ("replan", DAY + "now,x\nnow,1,2\nkept,S1,A,LYON,9,5\nkept,S1,A,LYON,y,z\n", "5,33 6,32 7,39 8,33 8,33 8,36", 0),
    ("replan", DAY + "now,1\nnow,2\nnow,3\n", "6,38", 1),
    ("check", DAY + "now,1\nkept,S1,A,LYON,0,5\nanswer,direct,9\nleg,S1,A,LYON,0,5\ntruck,A,LYON,0,1,4\n", "8,25 10,26", 0),
    ("check", DAY + "now,9999\nanswer,direct,9\nleg,S9,A,LYON,0,5\n", "", 0),
    ("check", DAY + "now,9999\nanswer,stuck,S9\nleg,S1,A,LYON,0,5\nleg,S1,A,LYON,0,5\n", "6,25 7,21 9,26", 1),
    ("quote", ENDS + "terminal,A\n", "3,6 0,38", 0),
    ("quote", ENDS + "shipment,S1\n", "3,2", 0),
    ("direct", "".join(f"terminal,T{it}\n" for it in range(105)) + "terminal,T1\n", "101,11 106,6", 5),
)  # fmt: skip

# What is said of a fault in one of the records after the first.
SENTENCES = (
    ("direct", ENDS + "terminal,A\narc,A,LYONN,5,1,1,1\n", 'line 4 (record 4), field TO is "LYONN": no terminal before this record has this name (code 7, NoTerminal); is there a typo? "LYON" is there'),
    ("direct", ENDS + "terminal,A\n\narc,A,B,5,1,1,1\nterminal,B\n", "line 5 (record 4), field TO is \"B\": no terminal before this record has this name (code 7, NoTerminal); line 6 has that terminal: move it up"),
    ("direct", "terminal,A\narc,A,LYONN,5,1,1,1\nterminal,LYON\n", 'is there a typo? "LYON" is there'),
    ("check", DAY + "answer,optimal,x\nleg,s1,LYON,A,0,5\n", 'field SHIPMENT is "s1": no shipment has this name (code 25, Name); "S1" is there: names are compared letter by letter'),
    ("check", DAY + "answer,optimal,x\nleg,S1,LYON,A,0,5\n", 'no arc leads from "LYON" to "A" (code 25, Name); there is one in the other direction'),
)  # fmt: skip


class Listed(unittest.TestCase):
    def test_faults(self):
        for command, text, faults, following in INPUTS:
            found = findings_of([command], records_of(text.encode()), text.encode())
            self.assertEqual(" ".join(f"{it.ordinal},{it.fault.code}" for it in found.listed), faults, text)
            self.assertEqual(found.following, following, text)

    def test_sentences(self):
        for command, text, part in SENTENCES:
            found = findings_of([command], records_of(text.encode()), text.encode())
            self.assertIn(part, "\n".join(it.sentence() for it in found.listed))

    def said(self, text, refusal):
        return explanation(["direct"], 21, text.encode(), f"refused,{refusal}\n".encode())

    def test_how_many_more(self):
        lines = self.said("terminal\n" * 50, "1,2")
        self.assertEqual((len(lines), "line 50" in lines[-1]), (50, True))
        self.assertEqual(self.said("terminal\n" * 51, "1,2")[50:], ["1 more fault"])
        self.assertEqual(self.said("terminal\n" * 1060, "1,2")[50:], ["1,010 more faults"])
        self.assertEqual(self.said("# one\n# two\n", "1,1")[1:], ["1 more fault that may follow from earlier ones"])
        self.assertEqual(self.said("# one\n# two\n" + "terminal\n" * 51, "1,1")[50:], ["2 more faults, and 1 that may follow from earlier ones"])
        self.assertEqual(self.said("terminal\n" * 20_000, "1,2")[50:], ["more than 10,000 more faults"])

    def test_the_program_is_right(self):
        self.assertEqual(self.said("terminal\n", "1,3"), ["record 1 has the fault 3, Name: docs/formats.md says when it comes"])
        self.assertEqual(self.said(DAY, "4,7"), ["record 4 has the fault 7, NoTerminal: docs/formats.md says when it comes"])


if __name__ == "__main__":
    unittest.main()
