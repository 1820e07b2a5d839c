"""What is said beside each refusal and each rejection: one case a code, one a part."""

import pathlib
import subprocess
import sys
import unittest

sys.dont_write_bytecode = True
HERE = pathlib.Path(__file__).resolve().parent
sys.path[:0] = [str(HERE.parent), str(HERE)]

from freight_text.answers import explanation  # noqa: E402
from freight_text.rejections import PARTS as RULES  # noqa: E402
from programs import proved  # noqa: E402

ENDS = "terminal,A\nterminal,B\n"
ONE_ARC = ENDS + "arc,A,B,5,10,100,1\nshipment,S1,A,B,4,0,10\n"
CERTIFICATE = ("answer,optimal,104", "leg,S1,A,B,0,5", "truck,A,B,0,1,4", "leaf,linear,0,forced", "end")

# What follows the two terminals A and B, the refusal, and what is said of it.
INPUTS = (
    ("depot,C", "3,1", 'line 3 (record 3), the first field is "depot": none of terminal, arc, shipment (code 1, Kind)'),
    ("arc,A,B,5,10,100", "3,2", "6 fields, and a record of this kind has 7"),
    ("terminal,C C", "3,3", 'field NAME is "C C"'),
    ("arc,A,B,5x,10,100,1", "3,4", 'field TIME is "5x": not whole digits (code 4, Digits)'),
    ("arc,A,B,5,10,100,", "3,2", "6 fields"),
    ("terminal,C,1001", "3,5", 'field HOLD is "1001": it has to be 0 to 1,000'),
    ("terminal,A", "3,6", "the terminal of line 1 has this name"),
    ("arc,A,D,5,10,100,1\nterminal,D", "3,7", 'field TO is "D"', "line 4 has that terminal"),
    ("arc,A,b,5,10,100,1", "3,7", 'field TO is "b"', "letter by letter"),
    ("arc,A,A,5,10,100,1", "3,8", 'FROM and TO are both "A"'),
    ("arc,A,B,5,10,100,1\n\narc,A,B,6,10,100,1", "4,9", "line 5 (record 4)", ),
    ("shipment,S1,A,B,4,10,9", "3,10", "DUE is 9, before RELEASE, which is 10"),
    ("arc,A,B,5,10,100,1000000000000000000\nshipment,S1,A,B,1000000000000000000,0,10", "0,12", "(code 12, TooLarge)"),
)  # fmt: skip

# Which lines stand in place of one of the certificate's, the refusal, and what is said of it.
LINES = (
    (2, ("lag,S1,A,B,0,5",), "6,21", 'the first field is "lag"'),
    (1, ("answer,bound,104",), "5,21", 'the second field is "bound"'),
    (4, ("leaf,linear,0",), "8,22", "3 fields in place of 4: leaf,KIND,ROUND,MODE"),
    (2, ("leg,S1,A,B,0,5x",), "6,23", 'field ARRIVE is "5x": not whole digits'),
    (4, ("leaf,linear,0,loose",), "8,23", 'field MODE is "loose": not plain or forced'),
    (4, ("leaf,linear,0,plain,0,0",), "8,22", "6 fields in place of 5: leaf,KIND,ROUND,MODE,SIDES"),
    (4, ("leaf,linear,0,plain,-1",), "8,23", 'field SIDES is "-1": not whole digits'),
    (4, ("leaf,linear,0,plain,100001",), "8,28", 'field SIDES is "100001"'),
    (4, ("narrow,linear,0", "leaf,linear,0,forced"), "8,22", "3 fields in place of 4: narrow,KIND,ROUND,MODE"),
    (4, ("narrow,linear,0,plain,1,1", "leaf,linear,0,forced"), "8,22", "6 fields in place of 5: narrow,KIND,ROUND,MODE,WORTH"),
    (4, ("narrow,linear,0,plain,all", "leaf,linear,0,forced"), "8,23", 'field WORTH is "all": not whole digits'),
    (4, ("narrow,linear,0,loose", "leaf,linear,0,forced"), "8,23", 'field MODE is "loose": not plain or forced'),
    (4, ("narrow,linear,0,plain", "table,1", "leaf,1,0,plain"), "9,24", "a table can't stand after the narrow of line 8"),
    (4, ("narrow,1,0,plain", "leaf,linear,0,forced"), "8,28", "there is no table 1"),
    (4, ("narrow,even,4001,plain", "leaf,linear,0,forced"), "8,28", 'field ROUND is "4001": it has to be 0 to 4,000'),
    (4, (f"narrow,even,0,plain,{2**127}", "leaf,linear,0,forced"), "8,28", 'field WORTH is "170141183460469231731687303715884105728"'),
    (3, ("truck,A,B,0,1,4", "leg,S1,A,B,0,5"), "8,24", "a leg can't stand after the truck of line 7"),
    (4, ("table,2", "leaf,linear,0,forced"), "8,24", "this has to be table 1"),
    (4, ("table,1,moment", "leaf,1,0,plain"), "8,23", 'field MOMENTS is "moment": not moments'),
    (4, ("table,1,moments,1", "leaf,1,0,plain"), "8,22", "4 fields in place of 3: table,ID,MOMENTS"),
    (2, ("leg,S9,A,B,0,5",), "6,25", 'field SHIPMENT is "S9": no shipment'),
    (2, ("leg,S1,B,A,0,5",), "6,25", 'no arc leads from "B" to "A"'),
    (2, ("leg,S1,A,B,100001,5",), "6,28", 'field DEPART is "100001"'),
    (4, ("leaf,7,0,plain",), "8,28", 'there is no table 7'),
    (2, ("unit,4", "unit,4", "leg,S1,A,B,0,5"), "7,24", "there is a unit already"),
    (2, ("unit,0", "leg,S1,A,B,0,5"), "6,28", 'field Q is "0"'),
    (4, ("span,A,B,0,5,1,0", "leaf,linear,0,forced"), "8,24", "a span stands in a table"),
    (4, ("table,1", "span,A,B,0,5,1,0", "share,A,B,0,0", "leaf,1,0,plain"), "10,24", "the shares of a table stand before its spans"),
    (4, ("table,1", "span,A,B,5,5,1,0", "leaf,1,0,plain"), "9,28", "UNTIL isn't after POINT"),
    (4, ("table,1", "gift,A,B,0,5,more,1", "leaf,1,0,plain"), "9,23", 'field SIDE is "more": not least or most'),
    (4, ("gift,A,B,0,5,least,1", "leaf,linear,0,forced"), "8,24", "a gift stands in a table"),
    (4, ("table,1", "gift,A,B,0,5,least,1", "span,A,B,0,5,1,0", "leaf,1,0,plain"), "10,24", "the spans of a table stand before its gifts"),
    (4, ("table,1", "gift,A,B,5,0,most,1", "leaf,1,0,plain"), "9,28", "UNTIL isn't after POINT"),
    (4, ("split,truck,A,B,0,5,1", "leaf,linear,0,plain"), "8,21", 'the second field is "truck": none of arc, time, trucks, way'),
    (4, ("split,trucks,A,B,0,1", "leaf,linear,0,plain"), "8,22", "6 fields in place of 7: split,trucks,FROM,TO,POINT,UNTIL,N"),
    (4, ("split,trucks,A,B,5,5,1", "leaf,linear,0,plain"), "8,28", "UNTIL isn't after POINT"),
    (4, ("split,trucks,A,B,0,5,4294967296", "leaf,linear,0,plain"), "8,28", 'field N is "4294967296": it has to be 0 to 4,294,967,295'),
    (4, ("split,way,S1,A", "leaf,linear,0,plain"), "8,22", "4 fields in place of 5: split,way,SHIPMENT,FROM,TO"),
    (4, ("split,way,S9,A,B", "leaf,linear,0,plain"), "8,25", 'field SHIPMENT is "S9": no shipment'),
    (4, ("split,way,S1,B,A", "leaf,linear,0,plain"), "8,25", 'no arc leads from "B" to "A"'),
    (5, (), "9,26", 'the line "end" is missing'),
    (5, ("end", "end"), "10,27", "stands after the certificate's end"),
)

TWO_ARCS = "terminal,A\nterminal,B\nterminal,C\narc,A,B,4,10,100,0\narc,B,C,5,10,100,0\nshipment,S1,A,C,4,0,9\nshipment,S2,B,C,4,0,8\n"
PROVED = (
    "answer,optimal,300", "leg,S1,A,B,0,4", "leg,S2,B,C,0,5", "leg,S1,B,C,4,9", "truck,A,B,0,1,4", "truck,B,C,0,1,4",
    "truck,B,C,4,1,4", "point,B,4,1", "table,1", "share,B,C,4,0", "weight,S1,100000000", "leaf,linear,1,forced", "end",
)  # fmt: skip

TIMETABLE = (*PROVED[:7], "end")

# Which line of the certificate over two arcs is another, the part that fails, and the place that is named.
PARTS = (
    (3, "leg,S2,B,C,1,5", 1, "line 10: the arc takes 5, so S2 arrives at 6"),
    (4, "leg,S1,B,C,3,8", 1, "line 11: S1 leaves B at 3, and can at 4"),
    (1, "answer,optimal,301", 2, "line 8: the plan costs 300 (trucks 300, flow 0), not 301"),
    (5, "truck,A,B,0,2,4", 3, "line 12: the next departure is truck,A,B,0,1,4"),
    (8, "point,C,8,1", 4, "line 15: 8 is an initial point of C"),
    (11, "weight,S1,100000001", 5, "line 17: the share pays 100,000,001"),
    (10, "span,B,C,4,5,100000001,0", 5, "line 17: at 4 the spans of the arc have 100,000,001"),
    (10, "span,B,C,4,5,99999999,0", 5, "the CHARGE of a span doesn't pay"),
    (12, "gift,B,C,4,5,least,1", 5, "line 19: at 4 no span of the arc holds, so shipments pay 100,000,000 and its gifts with least have 1, and scale"),
    (12, "span,B,C,4,6,5,0\ngift,B,C,4,6,least,99999996", 5, "line 20: at 4 the spans of the arc have 5 and its gifts with least have 99,999,996,"),
    (12, "span,B,C,4,9,150000000,0\ngift,B,C,4,6,most,50000000", 5, "line 20: at 6 the spans of the arc have 150,000,000, and scale times TRUCK is"),
    (12, "span,B,C,4,9,150000001,0\ngift,B,C,4,9,most,50000000", 5, "at 4 the spans of the arc have 150,000,001, and scale times TRUCK is 100,000,000, tog"),
    (12, f"gift,B,C,4,6,most,{2**89}\ngift,A,B,4,6,most,{2**89}", 5, "line 20: the AMOUNTs of the table's gifts sum to 1,237,940,"),
    (12, "split,arc,S1,A,B", 6, "2 more leaves are wanted"),
    (12, "split,trucks,B,C,4,6,0", 6, "2 more leaves are wanted"),
    (12, "split,way,S1,B,C", 6, "2 more leaves are wanted"),
    (12, "narrow,linear,0,plain", 6, "1 more leaf is wanted"),
    (12, "leaf,linear,1,forced\nnarrow,linear,1,plain", 6, "line 20: the tree is whole before it"),
    (12, "narrow,1,0,plain\n" * 50_001 + "leaf,linear,1,forced", 6, "50,001 narrowings, and 50,000 are allowed"),
    (12, "leaf,linear,0,forced", 7, "isn't looked for here"),
)


# What follows the instance over two arcs, the refusal of the kept legs, and what is said of it.
KEPT = (
    ("kept,S1,A,B,0\nkeep", "9,31", 'the first field is "keep": after the first kept or now record only such records come (code 31, KeptKind)'),
    ("kept,S1,A,B", "8,32", "4 fields in place of 5 or 6: kept,SHIPMENT,FROM,TO,DEPART"),
    ("kept,S1,A,B,0x", "8,33", 'field DEPART is "0x": not whole digits'),
    ("kept,S9,A,B,0", "8,34", 'field SHIPMENT is "S9": no shipment'),
    ("kept,S1,A,D,0", "8,34", 'field TO is "D": no terminal'),
    ("kept,S1,A,C,0", "8,34", 'no arc leads from "A" to "C"'),
    ("kept,S1,A,B,100001", "8,35", 'field DEPART is "100001": it has to be 0 to 100,000'),
    ("kept,S1,B,C,4", "8,36", "S1 is at A after 0 kept legs, and this one leaves B"),
    ("arc,C,A,1,10,100,0\nkept,S1,A,B,0\nkept,S1,B,C,4\nkept,S1,C,A,9", "11,36", "S1 is at its destination C already"),
    ("arc,B,A,1,10,100,0\nkept,S1,A,B,0\nkept,S1,B,A,4", "10,36", "S1 was at A before, and no route passes a terminal twice"),
)  # fmt: skip

# Kept legs that no plan has, the shipment that is stuck, and why.
STUCK = (
    ("kept,S2,B,C,4", "S2", "S2 arrives at 9, and is due at 8"),
    ("kept,S1,A,B,1", "S1", "from B S1 can be at C at 10, and is due at 9"),
    ("kept,S1,A,B,0\nkept,S1,B,C,3", "S1", "line 9: S1 leaves B at 3, and can at 4"),
    ("terminal,D\narc,A,D,1,10,100,0\nkept,S1,A,D,0", "S1", "no way leads on from D to C for S1"),
)


# Which searches of a quote ended unfinished, and what is said of them.
QUOTED = (("before", "the search without it"), ("after", "the search with it"), ("both", "each of the two searches"))


def said(words, status, data, answer):
    return "\n".join(explanation(words.split(), status, data, answer.encode() + b"\n"))


class Explanations(unittest.TestCase):
    def holds(self, text, *parts):
        for part in parts:
            self.assertIn(part, text)

    def test_codes_of_the_input(self):
        for record, refusal, *parts in INPUTS:
            self.holds(said("direct", 21, (ENDS + record + "\n").encode(), f"refused,{refusal}"), *parts)

    def test_too_many(self):
        data = "".join(f"terminal,T{it}\n" for it in range(101)).encode()
        self.holds(said("direct", 21, data, "refused,101,11"), "terminal number 101: there may be 100")

    def test_codes_of_the_certificate(self):
        for place, lines, refusal, part in LINES:
            changed = CERTIFICATE[: place - 1] + lines + CERTIFICATE[place:]
            data = (ONE_ARC + "\n".join(changed) + "\n").encode()
            self.holds(said("check", 21, data, f"refused,{refusal}"), part)

    def test_no_certificate(self):
        self.holds(said("check", 21, ONE_ARC.encode(), "refused,5,26"), "no certificate comes")

    def test_parts(self):
        for place, line, part, words in PARTS:
            lines = [*PROVED[: place - 1], line, *PROVED[place:]]
            text = said("check", 12, (TWO_ARCS + "\n".join(lines) + "\n").encode(), f"rejected,{part}")
            self.holds(text, f"part {part} of the certificate fails", words)

    def test_a_timetable_alone(self):
        text = said("check", 12, (TWO_ARCS + "\n".join(TIMETABLE) + "\n").encode(), "rejected,6")
        self.holds(text, "part 6 of the certificate fails: this is a timetable alone", "keeps with --certificate FILE")

    def test_part_of_an_infeasible_answer(self):
        text = said("check", 12, (TWO_ARCS + "answer,infeasible,S1,9\nend\n").encode(), "rejected,8")
        self.holds(text, "part 8", "S1 takes 9 at the fastest, and has 9")

    def test_infeasible(self):
        late = ENDS + "arc,A,B,5,10,100,1\nshipment,S1,A,B,4,0,4\n"
        self.holds(said("direct", 11, late.encode(), "answer,infeasible,S1,5"), "line 4: S1 takes 5 at the fastest, and has 4")
        back = ENDS + "arc,A,B,5,10,100,1\nshipment,S1,B,A,4,0,4\n"
        self.holds(said("direct", 11, back.encode(), "answer,infeasible,S1,none"), "no way leads from B to A")

    def test_unfinished(self):
        text = said("plan --rounds 50", 10, ONE_ARC.encode(), "answer,unfinished,300,200,rounds")
        self.holds(text, "no plan costs less than 200, and the one printed costs 300: at most 100 more than the cheapest, 33.3 %")
        self.holds(text, "all 50 rounds were used: a round adds time points", "with --spans or --rounds 100 (at most 4000)")
        self.holds(said("plan", 10, ONE_ARC.encode(), "answer,unfinished,300,200,rounds"), "all 400 rounds", "or --rounds 800")
        self.holds(said("plan --branches=0", 10, ONE_ARC.encode(), "answer,unfinished,180,150,branches"), "or --branches 4000")
        self.holds(said("plan --spans --branches 0", 10, ONE_ARC.encode(), "answer,unfinished,180,150,branches"), "with --branches 4000")
        text = said("plan --branches 100000", 10, ONE_ARC.encode(), "answer,unfinished,180,150,branches")
        self.holds(text, "all 100,000 branches were used, as many as there may be", "the bound can rise")
        text = said("plan --seconds 60", 10, ONE_ARC.encode(), "answer,unfinished,180,150,time")
        self.holds(text, "its 60 seconds were over", "the cost may fall or the bound rise")
        text = said("replan --seconds=3600", 10, ONE_ARC.encode(), "answer,unfinished,180,150,time")
        self.holds(text, "its 3,600 seconds were over", "no plan that keeps the legs costs less than 150")

    def test_kept_legs(self):
        for records, refusal, part in KEPT:
            self.holds(said("replan", 21, f"{TWO_ARCS}{records}\n".encode(), f"refused,{refusal}"), part)

    def test_stuck(self):
        for records, shipment, part in STUCK:
            self.holds(said("replan", 11, f"{TWO_ARCS}{records}\n".encode(), f"answer,stuck,{shipment}"), "no plan keeps the legs", part)

    def test_quotes(self):
        self.holds(said("quote", 21, ENDS.encode(), "refused,0,38"), "no shipment", "(code 38, NoShipment)")
        self.holds(said("quote --rounds 0", 10, TWO_ARCS.encode(), "quote,S2,0,100"), "carrying S2 costs 0 to 100 more", "--branches N")
        self.assertEqual(said("quote", 0, TWO_ARCS.encode(), "quote,S2,100,100"), "")

    def test_quotes_by_a_name(self):
        self.holds(said("quote S9 --rounds 0", 21, TWO_ARCS.encode(), "refused,0,38"), 'no shipment "S9", whose price is asked for (code 38')
        self.holds(said("quote --rounds 0 s1", 21, TWO_ARCS.encode(), "refused,0,38"), '"S1" is there: names are compared letter by letter')
        for unproved, part in QUOTED:
            text = said("quote S1 --rounds=0", 10, TWO_ARCS.encode(), f"quote,S1,1000,2000,1500,{unproved}")
            self.holds(text, f"carrying S1 costs 1,000 to 2,000 more: {part} had used up", "between the two timetables that were found S1 adds 1,500")
        self.assertEqual(said("quote S1", 0, TWO_ARCS.encode(), "quote,S1,100,100,100,none"), "")

    def test_long_inputs_are_not_read_again(self):
        data = ONE_ARC.encode() + b"\n" * 33_000_000
        self.assertEqual(said("check", 12, data, "rejected,5"), f"part 5 of the certificate fails: {RULES[5]}")
        self.holds(said("check", 21, data, "refused,1234567,24"), "record 1,234,567 has the fault 24")
        self.assertEqual(said("check", 0, data, "accepted,optimal"), "")

    def test_scale(self):
        large = ENDS + "arc,A,B,5,10,1000000000000000000,1\nshipment,S1,A,B,1000000000,0,10\n"
        text = said("plan --scale=1000000000", 21, large.encode(), "refused,0,12")
        self.holds(text, "the scale 1,000,000,000 is too large", "it may be 25,961,484 at most")

    def test_other_ends(self):
        self.holds(said("direct", 22, b"", "refused,long"), "more than 16,777,216 bytes")
        self.holds(said("bound", 22, b"", "refused,long"), "more than 16,777,216 bytes")
        self.holds(said("direct", 0, b"", "answer,direct,0"), "no shipments")
        for status in (30, 31, 40, 41):
            self.assertTrue(said("direct", status, b"", ""))
        self.assertEqual(said("direct", 0, ONE_ARC.encode(), "answer,direct,104"), "")


@unittest.skipIf(proved() is None, "the proved program of these sources isn't here")
class Program(unittest.TestCase):
    """That the program refuses and rejects what stands above as it is said there."""

    def prints(self, words, data, status, line):
        done = subprocess.run([proved(), *words.split()], input=data.encode(), capture_output=True)
        if done.stdout != b"refused,words\n":
            self.assertEqual((done.returncode, done.stdout.decode().split("\n")[0]), (status, line), data)

    def test_refusals(self):
        for record, refusal, *_ in INPUTS:
            self.prints("direct", ENDS + record + "\n", 21, f"refused,{refusal}")
        for place, lines, refusal, _ in LINES:
            changed = CERTIFICATE[: place - 1] + lines + CERTIFICATE[place:]
            self.prints("check", ONE_ARC + "\n".join(changed) + "\n", 21, f"refused,{refusal}")
        for records, refusal, _ in KEPT:
            self.prints("replan", f"{TWO_ARCS}{records}\n", 21, f"refused,{refusal}")
        self.prints("quote", ENDS, 21, "refused,0,38")
        self.prints("quote S9", TWO_ARCS, 21, "refused,0,38")

    def test_rejections(self):
        self.prints("check", TWO_ARCS + "\n".join(PROVED) + "\n", 0, "accepted,optimal")
        for place, line, part, _ in PARTS:
            lines = [*PROVED[: place - 1], line, *PROVED[place:]]
            self.prints("check", TWO_ARCS + "\n".join(lines) + "\n", 12, f"rejected,{part}")
        self.prints("check", TWO_ARCS + "\n".join(TIMETABLE) + "\n", 12, "rejected,6")
        self.prints("check", f"{TWO_ARCS}answer,infeasible,S1,9\nend\n", 12, "rejected,8")

    def test_kept_legs_that_no_plan_has(self):
        for records, shipment, _ in STUCK:
            self.prints("replan", f"{TWO_ARCS}{records}\n", 11, f"answer,stuck,{shipment}")


if __name__ == "__main__":
    unittest.main()
