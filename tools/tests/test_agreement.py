"""Small instances planned by the proved program, and what it answers of each: no two answers gainsay each other."""

import pathlib
import subprocess
import sys
import unittest

sys.dont_write_bytecode = True
sys.path.insert(0, str(pathlib.Path(__file__).resolve().parent))
from programs import TOP, proved  # noqa: E402

sys.path.insert(0, str(TOP / "bench"))
from instances import generated, hubs, line  # noqa: E402

INSTANCES = {
    "6x15": generated(1, 6, 15),
    "8x20": generated(2, 8, 20),
    "line": line(6, 20, 120),
    "hub": hubs(1, 9, 20, 120),
    "two hubs": hubs(2, 4, 15, 720),
}
SEARCHES = ("--rounds 0 --branches 0", "--rounds 5 --branches 2", "--rounds 0 --branches 0 --spans", "--seconds 1", "--seconds 1 --spans")


def cost_of(text, lines):
    """What truck lines and leg lines cost."""
    fields = [it.split(",") for it in text.splitlines()]
    arcs = {tuple(it[1:3]): it for it in fields if it[0] == "arc"}
    sizes = {it[1]: int(it[4]) for it in fields if it[0] == "shipment"}
    parts = [it.split(",") for it in lines]
    trucks = sum(int(it[4]) * int(arcs[it[1], it[2]][5]) for it in parts if it[0] == "truck")
    return trucks + sum(sizes[it[1]] * int(arcs[it[2], it[3]][6]) for it in parts if it[0] == "leg")


@unittest.skipIf(proved() is None, "the proved program of these sources isn't here")
class Agreement(unittest.TestCase):
    def prints(self, words, text):
        """The fields of the first line, and the whole."""
        done = subprocess.run([proved(), *words.split()], input=text.encode(), capture_output=True)
        self.assertIn(done.returncode, (0, 10), words)
        return done.stdout.decode().splitlines()[0].split(","), done.stdout.decode()

    def test_plans(self):
        for name, text in INSTANCES.items():
            direct = int(self.prints("direct", text)[0][2])
            bound = int(self.prints("bound", text)[0][2])
            for options in SEARCHES:
                with self.subTest(name=name, options=options):
                    self.agrees(text, options, direct, bound)

    def test_notes(self):
        for name, text in INSTANCES.items():
            for options in SEARCHES[:3]:
                with self.subTest(name=name, options=options):
                    self.is_noted(text, options)

    def is_noted(self, text, options):
        """Notes change no answer, get no worse, and hold a timetable that is accepted, at the cost of the last one."""
        done = subprocess.run([proved(), "plan", *options.split(), "--notes"], input=text.encode(), capture_output=True)
        self.assertEqual(done.stdout.decode(), self.prints(f"plan {options}", text)[1])
        notes = done.stderr.decode()
        figures = [tuple(map(int, it.split(",")[3:])) for it in notes.splitlines() if it.startswith("note,")]
        costs, bounds = zip(*figures)
        self.assertEqual((list(costs), list(bounds)), (sorted(costs, reverse=True), sorted(bounds)))
        timetable = "answer,direct," + notes.split("answer,direct,")[-1].split("end\n")[0] + "end\n"
        self.assertEqual(self.prints("check", text + timetable)[0], ["accepted", "direct"])
        self.assertEqual(int(timetable.split("\n")[0].split(",")[2]), costs[-1])

    def test_days_that_are_under_way(self):
        for name, text in INSTANCES.items():
            answer = self.prints("plan --rounds 0 --branches 0", text)[1].splitlines()
            departs = sorted(int(it.split(",")[4]) for it in answer if it.startswith("leg,"))
            for now in (departs[0], departs[len(departs) // 2], departs[-1]):
                with self.subTest(name=name, now=now):
                    self.goes_on(text, answer, now)

    def goes_on(self, text, answer, now):
        """What is left of a plan at a moment is a plan of what is left, and what is planned of that is accepted and no number under it is above."""
        legs = [it for it in answer if it.startswith("leg,")]
        told = text + f"now,{now}\n" + "".join(f"kept,{','.join(it.split(',')[1:5])}\n" for it in legs if int(it.split(",")[4]) < now)
        rest = [it for it in legs if int(it.split(",")[4]) >= now] + [it for it in answer if it.startswith("truck,") and int(it.split(",")[3]) >= now]
        cost = cost_of(text, rest)
        self.assertEqual(self.prints("check", told + "\n".join([f"answer,direct,{cost}", *rest, "end\n"]))[0], ["accepted", "direct"])
        (_, kind, *figures), replanned = self.prints("replan --rounds 5 --branches 5", told)
        self.assertEqual(self.prints("check", told + replanned)[0], ["accepted", kind])
        self.assertLessEqual(int(figures[1] if kind == "unfinished" else figures[0]), cost)

    def agrees(self, text, options, direct, bound):
        (_, kind, cost, *rest), answer = self.prints(f"plan {options}", text)
        self.assertEqual(self.prints("check", text + answer)[0], ["accepted", kind])
        self.assertLessEqual(int(cost), direct)
        self.assertLessEqual(bound, int(cost))
        if kind == "unfinished":
            self.assertLess(int(rest[0]), int(cost))
        trucks = sum(int(it.split(",")[4]) for it in answer.splitlines() if it.startswith("truck,"))
        fleet = self.prints("fleet", text + answer)
        self.assertLessEqual(int(fleet[0][1]), trucks)
        needs = sum(int(it.split(",")[2]) for it in fleet[1].splitlines() if it.startswith("need,"))
        self.assertEqual(needs, int(fleet[0][1]))


if __name__ == "__main__":
    unittest.main()
