"""Days under way that are drawn: `replan` answers what `plan` answers of what is left, written as an instance of its own."""

import pathlib
import random
import subprocess
import sys
import unittest

sys.dont_write_bytecode = True
sys.path.insert(0, str(pathlib.Path(__file__).resolve().parent))
from programs import proved  # noqa: E402

DAYS = 200
PRESENT = 200


def drawn_network(draw):
    """Terminals with holds, and arcs that lead ahead alone: so no way of what is left comes to a terminal where the shipment was."""
    count = draw.randrange(3, 6)
    holds = {f"T{it}": draw.choice((0, 0, 5, 20)) for it in range(count)}
    lines = [f"terminal,{name},{hold}" for name, hold in holds.items()]
    for tail in range(count):
        for head in range(tail + 1, count):
            if head == tail + 1 or draw.randrange(3):
                lines.append(f"arc,T{tail},T{head},{draw.randrange(20, 60) * (head - tail)},10,{draw.randrange(50, 150)},{draw.randrange(3)}")
    return holds, lines


def drawn_shipments(draw, count):
    """Name, origin, destination, size, release and due time of each."""
    shipments = []
    for number in range(draw.randrange(2, 7)):
        tail = draw.randrange(count - 1)
        head = draw.randrange(tail + 1, count)
        release = draw.randrange(100)
        shipments.append((f"S{number}", f"T{tail}", f"T{head}", draw.randrange(1, 9), release, draw.randrange(150, 320)))
    return shipments


def shipment_line(shipment):
    return "shipment," + ",".join(map(str, shipment))


def drawn_arrival(draw, leg):
    """When a truck comes that is told of: mostly as planned, at times sooner or later."""
    planned = int(leg[5])
    return max(int(leg[4]), planned + draw.choice((0, 0, -5, 20, 60, 120)))


class Told:
    """What is told of a planned day at its present: the legs that left before it, of which a shipment's last may arrive at another time."""

    def __init__(self, draw, answer):
        self.now = draw.randrange(PRESENT)
        self.records = [f"now,{self.now}"]
        self.places = {}
        gone = [it.split(",") for it in answer if it.startswith("leg,") and int(it.split(",")[4]) < self.now]
        for number, leg in enumerate(gone):
            is_last = not any(it[1] == leg[1] for it in gone[number + 1 :])
            arrive = drawn_arrival(draw, leg) if is_last else int(leg[5])
            told = f",{arrive}" if arrive != int(leg[5]) or draw.randrange(2) else ""
            self.records.append("kept," + ",".join(leg[1:5]) + told)
            self.places[leg[1]] = (leg[3], arrive)

    def left(self, shipments, holds):
        """The shipments of what is left, each from where it is as soon as it can go on; None where one comes too late."""
        left = []
        for name, origin, destination, size, release, due in shipments:
            place, ready = self.places.get(name, (origin, release))
            if place == destination:
                if ready > due:
                    return None
                continue
            if name in self.places:
                ready += holds[place]
            left.append((name, place, destination, size, max(ready, self.now), due))
        return None if any(it[4] >= it[5] for it in left) else left


@unittest.skipIf(proved() is None, "the proved program of these sources isn't here")
class Left(unittest.TestCase):
    def answer_of(self, command, lines):
        done = subprocess.run([proved(), command], input="".join(f"{it}\n" for it in lines).encode(), capture_output=True)
        return done.stdout.decode().splitlines()

    def day(self, seed):
        """What `replan` answers of a drawn day, and `plan` of what is left of it; None where nothing is left, or was to be planned."""
        draw = random.Random(seed)
        holds, network = drawn_network(draw)
        shipments = drawn_shipments(draw, len(holds))
        lines = network + [shipment_line(it) for it in shipments]
        answer = self.answer_of("plan", lines)
        if not answer[0].startswith("answer,optimal"):
            return None
        told = Told(draw, answer)
        left = told.left(shipments, holds)
        if left == []:
            return None
        found = self.answer_of("replan", lines + told.records)
        self.assertEqual(self.answer_of("check", lines + told.records + found), [f"accepted,{found[0].split(',')[1]}"])
        own = self.answer_of("plan", network + [shipment_line(it) for it in left])[0] if left else "answer,infeasible"
        return found[0].split(",")[1:3], own.split(",")[1:3]

    def test_replan_and_plan_of_what_is_left(self):
        answers = [(seed, self.day(seed)) for seed in range(DAYS)]
        kinds = {"stuck": 0, "optimal": 0}
        for seed, answer in answers:
            if answer is not None:
                with self.subTest(seed=seed):
                    found, own = answer
                    if found[0] == "stuck":
                        self.assertEqual(own[0], "infeasible")
                    else:
                        self.assertEqual(found, own)
                    kinds[found[0]] += 1
        self.assertTrue(min(kinds.values()) >= 10, kinds)


if __name__ == "__main__":
    unittest.main()
