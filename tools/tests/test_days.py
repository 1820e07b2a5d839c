"""What is said of kept legs and of a day that is under way: their faults, who is stuck, answers that aren't accepted, and what is shown."""

import pathlib
import random
import subprocess
import sys
import unittest

sys.dont_write_bytecode = True
HERE = pathlib.Path(__file__).resolve().parent
sys.path[:0] = [str(HERE.parent), str(HERE)]

from freight_text.answers import explanation  # noqa: E402
from freight_text.days import planned_of, told_of  # noqa: E402
from freight_text.faults.readings import findings_of  # noqa: E402
from freight_text.records import records_of  # noqa: E402
from programs import TOP, proved  # noqa: E402

# A hub B with a hold of 10 between A and C. P1 goes over it, P3 goes to it, and P4 leaves it.
HUB = (
    "terminal,A\nterminal,B,10\nterminal,C\narc,A,B,100,10,100,0\narc,B,C,120,10,100,0\narc,B,A,100,10,100,0\n"
    "shipment,P1,A,C,4,0,600\nshipment,P3,A,B,4,0,600\nshipment,P4,B,C,4,0,520\n"
)

# What follows the hub, as the program refuses it after `replan` and `check`, and what is said of it.
TOLD = (
    ("now,5\nthen,5", "11,31", 'the first field is "then": after the first kept or now record only such records come (code 31, KeptKind)'),
    ("now,5\nNow,6", "11,31", '"now" is one, in small letters'),
    ("now", "10,32", "1 field in place of 2: now,TIME (code 32, KeptFields)"),
    ("now,5,6", "10,32", "3 fields in place of 2: now,TIME"),
    ("kept,P1,A,B", "10,32", "4 fields in place of 5 or 6: kept,SHIPMENT,FROM,TO,DEPART, and ARRIVE where it is told"),
    ("kept,P1,A,B,0,1,2", "10,32", "7 fields in place of 5 or 6"),
    ("now,9h00", "10,33", "a clock time: times are whole numbers from a zero of your own, as 540 in minutes"),
    ("kept,P1,A,B,0,x", "10,33", 'field ARRIVE is "x": not whole digits'),
    ("kept,P9,A,B,0,100001", "10,34", 'field SHIPMENT is "P9": no shipment'),
    ("now,100001", "10,35", 'field TIME is "100001": it has to be 0 to 100,000'),
    ("kept,P1,A,B,0,100001", "10,35", 'field ARRIVE is "100001"'),
    ("kept,P1,B,C,9,5", "10,36", "P1 is at A after 0 kept legs, and this one leaves B"),
    ("now,5\nkept,P1,A,B,0\nnow,5", "12,38", "line 10 tells the present already (code 38, PresentTwice)"),
    ("kept,P1,A,B,100,99", "10,39", "ARRIVE is 99, before DEPART, which is 100 (code 39, ArriveBeforeDepart)"),
)

# What follows the hub and an answer after it, as `check` refuses them, and what is said of it.
CHECKED = (
    ("now,300", "answer,stuck,P9\nend", "11,25", 'field SHIPMENT is "P9": no shipment has this name'),
    ("now,300", "answer,stuck", "11,22", "2 fields in place of 3: answer,stuck,SHIPMENT"),
    ("now,300", "answer,stuck,P1", "12,26", 'the line "end" is missing'),
    ("now,300", "answer,stuck,P1\nleg,P1,A,B,0,100", "12,21", 'after an answer stuck only "end" comes'),
    ("now,300", "answer,stuck,P1\nend,1", "12,22", "2 fields in place of 1: end"),
    ("now,300", "answer,stuck,P1\nend\nend", "13,27", "stands after the certificate's end"),
    ("now,300", "answer,best,1\nend", "11,21", 'the second field is "best"'),
    ("now,300", "answer,direct,0\nkept,P1,A,B,0\nend", "12,21", "kept and now records are read by ./freight replan, check, yard, fleet and improve, after the instance and before an answer"),
    ("now,300", "leg,P1,A,B,0,100\nend", "11,31", 'an answer begins with its line "answer": none stands before this one'),
    ("kept,P3,A,B,0\nnow,100", "answer,direct,0\nleg,P3,A,B,0,100\nend", "13,25", "its kept legs bring it to its destination"),
    ("", "answer,stuck,P1\nend", "10,21", "an answer stuck is read after the kept or now records that replan was given"),
    ("kept,P1,A,B,0,280", "", "11,26", 'no certificate comes'),
)  # fmt: skip

# What follows the hub, the shipment that is stuck, and why.
STUCK = (
    ("now,450", "P1", "no plan goes on with the day: from A P1 can be at C at 680, and is due at 600"),
    ("now,401\nkept,P1,A,B,0", "P4", "from B P4 can be at C at 521, and is due at 520"),
    ("kept,P3,A,B,0,700", "P3", "no plan goes on with the day: P3 arrives at 700, and is due at 600"),
    ("kept,P1,A,B,0\nkept,P1,B,C,60", "P1", "no plan keeps the legs: line 11: P1 leaves B at 60, and can at 110"),
    ("kept,P1,A,B,0,150\nkept,P1,B,C,159", "P1", "line 11: P1 leaves B at 159, and can at 160"),
    ("now,120\nkept,P1,A,B,0\nkept,P1,B,C,100", "P1", "line 12: P1 leaves B at 100, and can at 110"),
)

# Answers of what is left of the hub's day at 300, when P1 has come to B; and of the hub where P1 is kept.
LEFT = (
    "answer,direct,200", "leg,P1,B,C,300,420", "leg,P3,A,B,300,400", "leg,P4,B,C,300,420", "truck,A,B,300,1,4", "truck,B,C,300,1,8", "end",
)  # fmt: skip
WAITING = "kept,P1,A,B,0\nnow,300"

# What follows the hub, the lines of an answer, the part that fails, and what is said.
REJECTED = (
    ("kept,P1,A,B,0\nnow,310", LEFT, 1, "line 13: P1 leaves B at 300, and can at 310"),
    ("kept,P1,A,B,0,291\nnow,300", LEFT, 1, "line 13: P1 leaves B at 300, and can at 301"),
    (WAITING, ("answer,direct,201", *LEFT[1:]), 2, "the plan costs 200 (trucks 200, flow 0), not 201"),
    (WAITING, (*LEFT[:5], "truck,B,C,300,2,8", "end"), 3, "the next departure is truck,B,C,300,1,8"),
    (f"{WAITING}\nkept,P4,B,C,310", LEFT, 1, "line 16: P4 has to leave B for C at 310, as it is kept on line 12"),
    ("now,450", LEFT, 1, "no plan goes on with the day, so an answer stuck is the one that is accepted\nfrom A P1 can be at C at 680"),
    ("kept,P1,A,B,0\nkept,P1,B,C,60", ("answer,direct",), 1, "no plan keeps the legs, so an answer stuck is the one that is accepted"),
    ("now,300", ("answer,stuck,P1", "end"), 8, "the answer stuck is false: the shipment isn't the first that is stuck\nline 11: no shipment is stuck"),
    ("now,450", ("answer,stuck,P4", "end"), 8, "line 11: the first that is stuck is P1: from A P1 can be at C at 680"),
    (WAITING, ("answer,infeasible,P1,120", "end"), 8, "P1 takes 120 at the fastest, and has 300 from release to due"),
    (WAITING, ("answer,optimal,200", *LEFT[1:6], "point,B,300,1", "leaf,linear,0,plain", "end"), 4, "300 is an initial point of B"),
    ("now,150\nkept,P4,B,C,200", ("answer,direct,300", "leg,P1,A,B,150,250", "leg,P3,A,B,150,250", "leg,P4,B,C,201,321", "leg,P1,B,C,260,380", "end"), 1,
     "line 15: P4 has to leave B for C at 200, as it is kept on line 11"),
)  # fmt: skip

# What follows the hub, the lines of an answer that tells no timetable of what is left, the part, and what is said.
UNTOLD = (
    ("now,450", ("answer,stuck,P1", "end"), 1, "line 11: an answer stuck tells no timetable"),
    ("now,300", ("answer,stuck,P1", "end"), 1, "line 11: an answer stuck tells no timetable"),
    ("now,450", LEFT, 1, "no plan goes on with the day"),
    ("kept,P1,A,B,0\nnow,310", LEFT, 1, "line 13: P1 leaves B at 300, and can at 310"),
)

# What is said of records that a command doesn't read there.
HINTS = (
    ("plan", f"{HUB}now,300\n", "plan reads no present: ./freight replan, check, yard, fleet and improve do"),
    ("bound", f"{HUB}kept,P1,A,B,0\nanswer,direct,0\nend\n", "bound reads no kept legs: ./freight replan, check, yard, fleet and improve do"),
    ("fleet", f"now,300\n{HUB}answer,direct,0\nend\n", "the instance's records stand before all kept legs: move them up"),
    ("replan", f"now,300\n{HUB}", "the instance's records stand before all kept legs: move them up"),
    ("check", f"now,300\n{HUB}answer,direct,0\nend\n", "the instance's records stand before all kept legs: move them up"),
    ("replan", f"{HUB}now,300\nanswer,direct,0\nend\n", "replan reads no answer: take its lines out"),
)

# What follows the hub, and what is left of its shipments: where each is, and when it can go on.
PLANNED = (
    ("", "P1 A 0, P3 A 0, P4 B 0"),
    ("kept,P1,A,B,100", "P1 A 0, P3 A 0, P4 B 0"),
    (WAITING, "P1 B 300, P3 A 300, P4 B 300"),
    ("kept,P1,A,B,100,380", "P1 B 390, P3 A 0, P4 B 0"),
    ("kept,P1,A,B,100,150", "P1 B 160, P3 A 0, P4 B 0"),
    ("now,50\nkept,P1,A,B,100", "P1 A 50, P3 A 50, P4 B 50"),
    ("kept,P1,A,B,100\nkept,P1,B,C,300,500", "P3 A 0, P4 B 0"),
    ("kept,P3,A,B,0\nnow,200", "P1 A 200, P4 B 200"),
    ("now,450", "P1 A 0, P3 A 0, P4 B 0"),
)


def joined(*parts):
    """An input of the hub's records and of what follows them."""
    return "".join([HUB, *(f"{it}\n" for it in parts if it)]).encode()


def drawn(draw):
    """What is told of a day that is drawn: P1 may go over the hub, the others straight, early, in time or late."""
    records = ["now,%d" % draw.randrange(550)] if draw.randrange(2) else []
    for legs in (("P1,A,B", "P1,B,C"), ("P3,A,B",), ("P4,B,C",)):
        depart = draw.randrange(200)
        for leg in legs[: draw.randrange(3)]:
            arrive = depart + draw.randrange(300)
            records.append(f"kept,{leg},{depart}" + (f",{arrive}" if draw.randrange(2) else ""))
            depart = arrive + draw.randrange(30)
    return "\n".join(records)


def said(words, status, data, answer):
    return "\n".join(explanation(words.split(), status, data, f"{answer}\n".encode()))


class Days(unittest.TestCase):
    def test_what_is_told(self):
        for records, refusal, part in TOLD:
            self.assertIn(part, said("replan", 21, joined(records), f"refused,{refusal}"), records)
            self.assertIn(part, said("check", 21, joined(records, *LEFT), f"refused,{refusal}"), records)

    def test_answers(self):
        for records, answer, refusal, part in CHECKED:
            self.assertIn(part, said("check", 21, joined(records, answer), f"refused,{refusal}"), (records, answer))

    def test_who_is_stuck(self):
        for records, shipment, part in STUCK:
            self.assertIn(part, said("replan", 11, joined(records), f"answer,stuck,{shipment}"), records)

    def test_answers_that_are_not_accepted(self):
        for records, lines, number, part in REJECTED:
            self.assertIn(part, said("check", 12, joined(records, *lines), f"rejected,{number}"), (records, lines))

    def test_answers_that_tell_no_timetable(self):
        for records, lines, number, part in UNTOLD:
            self.assertIn(part, said("yard 1", 12, joined(records, *lines), f"rejected,{number}"), (records, lines))

    def test_records_that_are_not_read(self):
        for command, text, part in HINTS:
            self.assertIn(part, findings_of([command], records_of(text.encode()), text.encode()).listed[0].sentence())

    def test_what_is_left(self):
        for records, wanted in PLANNED:
            left = planned_of(records_of(joined(records))).shipments.values()
            self.assertEqual(", ".join(f"{it.name} {it.origin} {it.release}" for it in left), wanted, records)


@unittest.skipIf(proved() is None, "the proved program of these sources isn't here")
class Program(unittest.TestCase):
    """That the program answers what stands above as it is said there."""

    def prints(self, words, data, status, line):
        done = subprocess.run([proved(), *words.split()], input=data, capture_output=True)
        self.assertEqual((done.returncode, done.stdout.decode().split("\n")[0]), (status, line), data.decode())
        return done.stdout.decode()

    def test_refusals(self):
        for records, refusal, _ in TOLD:
            self.prints("replan", joined(records), 21, f"refused,{refusal}")
            self.prints("check", joined(records, *LEFT), 21, f"refused,{refusal}")
        for records, answer, refusal, _ in CHECKED:
            self.prints("check", joined(records, answer), 21, f"refused,{refusal}")

    def test_stuck(self):
        for records, shipment, _ in STUCK:
            answer = self.prints("replan", joined(records), 11, f"answer,stuck,{shipment}")
            self.prints("check", joined(records, answer), 0, "accepted,stuck")

    def test_rejections(self):
        self.prints("check", joined(WAITING, *LEFT), 0, "accepted,direct")
        for records, lines, number, _ in REJECTED:
            self.prints("check", joined(records, *lines), 12, f"rejected,{number}")
        for records, lines, number, _ in UNTOLD:
            for words in ("yard 1", "fleet", "improve"):
                self.prints(words, joined(records, *lines), 12, f"rejected,{number}")

    def test_what_the_new_order_of_the_guide_costs(self):
        data = (TOP / "examples/new-order.csv").read_bytes()
        self.prints("replan", data, 0, "answer,optimal,104800")
        self.prints("replan", data.replace(b"shipment,P5,LYON,PARIS,10,600,1200\n", b""), 0, "answer,optimal,103400")

    def test_drawn_days(self):
        draw = random.Random(1)
        for _ in range(200):
            records = drawn(draw)
            told = told_of(records_of(joined(records)))
            done = subprocess.run([proved(), "replan"], input=joined(records), capture_output=True)
            _, kind, shipment = done.stdout.decode().split("\n")[0].split(",")[:3]
            self.assertEqual(told.stuck and told.stuck[0], shipment if kind == "stuck" else None, records)
            self.prints("check", joined(records) + done.stdout, 0, f"accepted,{kind}")

    def test_what_is_left_costs_as_an_instance_of_its_own(self):
        for records, _ in PLANNED:
            told = told_of(records_of(joined(records)))
            if not told.stuck and not any(told.day.promised(it) for it in told.instance.shipments):
                left = told.planned().shipments.values()
                shipments = "".join(f"shipment,{it.name},{it.origin},{it.destination},{it.size},{it.release},{it.due}\n" for it in left)
                own = HUB[: HUB.index("shipment")] + shipments
                cost = subprocess.run([proved(), "plan"], input=own.encode(), capture_output=True).stdout.decode().split("\n")[0]
                self.prints("replan", joined(records), 0, cost)


if __name__ == "__main__":
    unittest.main()
