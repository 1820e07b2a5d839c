"""What `day` makes: the day of the examples, days of other sizes that can be carried, and each fault of its words."""

import csv
import functools
import pathlib
import subprocess
import sys
import unittest

sys.dont_write_bytecode = True
HERE = pathlib.Path(__file__).resolve().parent
sys.path[:0] = [str(HERE), str(HERE.parent)]
from freight_days.arcs import Arc, fastest  # noqa: E402
from programs import TOP, proved  # noqa: E402

ENOUGH = 600

# Words, and how many terminals, arcs and shipments the day has.
SIZES = (
    ("--seed 2", (30, 120, 150)),
    ("--terminals 20 --hubs 3 --arcs 62 --shipments 60 --service-days 2 --pallets 6", (20, 62, 60)),
    ("--terminals 30 --hubs 4 --arcs 98 --shipments 120 --service-days 2", (30, 98, 120)),
    ("--terminals 50 --shipments 300 --service-days 1", (50, 200, 300)),
    ("--terminals 100 --hubs 8 --shipments 500 --service-days 1", (100, 400, 500)),
    ("--terminals 100 --hubs 29 --arcs 1000", (100, 1000, 150)),
    ("--terminals 2 --shipments 1", (2, 2, 1)),
    ("--terminals 4", (4, 12, 150)),
    ("--terminals 10 --hubs 1 --arcs 18", (10, 18, 150)),
)

# Words of no day, and what is said of them.
FAULTS = (
    ("many", "argument SEED: 'many' is no whole number; --help has all words"),
    ("--seed 1.5", "argument --seed: '1.5' is no whole number; --help has all words"),
    ("3 --seed 4", "the seed is said twice, 3 and --seed 4: say it once"),
    ("1 2", "unrecognized arguments: 2; --help has all words"),
    ("--days 2", "unrecognized arguments: --days; --help has all words"),
    ("--terminals", "argument --terminals: expected one argument; --help has all words"),
    ("--terminals 1", "argument --terminals: '1' is no whole number from 2 to 100; --help has all words"),
    ("--terminals 101", "argument --terminals: '101' is no whole number from 2 to 100; --help has all words"),
    ("--shipments 501", "argument --shipments: '501' is no whole number from 1 to 500; --help has all words"),
    ("--service-days 0", "argument --service-days: '0' is no whole number from 1 to 30; --help has all words"),
    ("--pallets -1", "argument --pallets: '-1' is no whole number from 1 to 33; --help has all words"),
    ("--hubs 31", "31 hubs are more than 30 terminals: say fewer --hubs"),
    ("--terminals 60 --hubs 40", "40 hubs among 60 terminals need 1600 arcs, more than 1000: say fewer --hubs"),
    ("--arcs 121", "--arcs 121 is odd, and trucks run both ways: say an even number"),
    ("--arcs 68", "--arcs 68: 5 hubs among 30 terminals have 70 arcs at least and 870 at most"),
)


@functools.cache
def day(words):
    """A run of the tool with some words."""
    return subprocess.run([TOP / "tools/day", *words.split()], capture_output=True, text=True, timeout=ENOUGH)


class Records:
    """The records of a day, by their kinds."""

    def __init__(self, text):
        rows = list(csv.reader(text.splitlines()))
        self.holds = {row[1]: int(row[2]) for row in rows if row[0] == "terminal"}
        self.arcs = [Arc(*row[1:3], *(int(row[it]) for it in (3, 5, 6))) for row in rows if row[0] == "arc"]
        self.shipments = [(*row[2:4], *map(int, row[4:])) for row in rows if row[0] == "shipment"]


class Days(unittest.TestCase):
    def made(self, words):
        done = day(words)
        self.assertEqual((done.returncode, done.stderr), (0, ""), words)
        return done.stdout

    def test_the_day_of_the_examples(self):
        example = (TOP / "examples/france-day.csv").read_text()
        for words in ("", "1", "--seed 1", "--terminals 30 --hubs 5 --arcs 120 --shipments 150 --service-days 3 --pallets 12"):
            self.assertEqual(self.made(words), example, words)

    def test_a_seed_gives_its_day(self):
        self.assertEqual(self.made("7"), self.made("--seed 7"))
        self.assertEqual(self.made("-7"), self.made("--seed=-7"))
        self.assertNotEqual(self.made("7"), self.made("8"))
        self.assertNotEqual(self.made("7 --terminals 31"), self.made("8 --terminals 31"))

    def test_sizes(self):
        for words, sizes in SIZES:
            with self.subTest(words):
                found = Records(self.made(words))
                self.assertEqual((len(found.holds), len(found.arcs), len(found.shipments)), sizes)

    def test_every_shipment_can_be_carried(self):
        for words, _ in SIZES:
            with self.subTest(words):
                found = Records(self.made(words))
                least = {origin: fastest(origin, found.arcs, found.holds) for origin in found.holds}
                for origin, destination, _, release, due in found.shipments:
                    self.assertLessEqual(release + least[origin][destination], due)

    def test_days_of_service_and_pallets(self):
        for service_days in (1, 2, 5):
            found = Records(self.made(f"--terminals 20 --service-days {service_days} --pallets 2"))
            self.assertEqual({size for _, _, size, _, _ in found.shipments}, {1, 2})
            for origin, destination, _, release, due in found.shipments:
                late = release + fastest(origin, found.arcs, found.holds)[destination] > due - 1440
                self.assertTrue(max(1, service_days - 1) <= due // 1440 <= service_days or late)

    @unittest.skipIf(proved() is None, "the proved program of these sources isn't here")
    def test_the_program_carries_them(self):
        for words, _ in SIZES:
            done = subprocess.run([proved(), "direct"], input=self.made(words), capture_output=True, text=True, timeout=ENOUGH)
            self.assertEqual((done.returncode, done.stdout[:14]), (0, "answer,direct,"), words)


class Words(unittest.TestCase):
    def test_faults(self):
        for words, said in FAULTS:
            done = day(words)
            self.assertEqual((done.returncode, done.stdout, done.stderr), (2, "", f"day: {said}\n"), words)

    def test_help(self):
        done = day("--help")
        self.assertEqual((done.returncode, done.stderr), (0, ""))
        self.assertIn("--service-days N", done.stdout)

    def test_output_that_is_full(self):
        with open("/dev/full", "w") as full:
            done = subprocess.run([TOP / "tools/day"], stdout=full, stderr=subprocess.PIPE, text=True, timeout=ENOUGH)
        self.assertEqual((done.returncode, done.stderr), (2, "day: standard output can't be written: no space left on device\n"))


if __name__ == "__main__":
    unittest.main()
