"""The way from a carrier's tables to an instance, its plan, and back to tables."""

import csv
import datetime
import io
import json
import pathlib
import subprocess
import sys
import unittest
import zoneinfo
from decimal import Decimal

sys.dont_write_bytecode = True
sys.path.insert(0, str(pathlib.Path(__file__).resolve().parent))
from carrier_tables import CARRIER, DATA, TABLES, exported, imported, needs_openpyxl, needs_zones  # noqa: E402
from programs import proved  # noqa: E402
from schemas import answer_faults  # noqa: E402


def amount(text):
    return Decimal(text.replace(" €", "").replace(",", "."))


def planned(words, instance, *more):
    return subprocess.run([proved(), *words.split()], input=b"".join((instance, *more)), capture_output=True, timeout=600).stdout


@unittest.skipIf(proved() is None, "the proved program of these sources isn't here")
class RoundTrips(unittest.TestCase):
    """Tables to an instance, its plan, and the plan back in the names, dates and units of the tables."""

    def tables(self, *names):
        return {it.name: it.read_bytes() for it in names}

    def back(self, done, *words):
        """The rows by shipment, under their headings, of the plan of an instance."""
        answer = planned("plan --rounds 0 --branches 0", done.files["day.csv"])
        self.assertTrue(planned("check", done.files["day.csv"], answer).startswith(b"accepted,"))
        fleet = planned("fleet", done.files["day.csv"], answer)
        given = {"day.csv": done.files["day.csv"], "day.names.json": done.files["day.names.json"], "answer.csv": answer, "fleet.csv": fleet}
        for view in ("terminal", "truck"):
            made = exported(given, "answer.csv", "--names", "day.names.json", "--fleet", "fleet.csv", "--by", view, "--to", "csv", "-o", "out.csv")
            self.assertEqual(made.status, 0, made.said)
        whole = exported(given, "answer.csv", "--names", "day.names.json", "--fleet", "fleet.csv", "--to", "json", "-o", "out.json")
        self.assertEqual(answer_faults(json.loads(whole.files["out.json"])), [])
        made = exported(given, "answer.csv", "--names", "day.names.json", "--instance", "day.csv", "--by", "shipment", "--to", "csv", "-o", "out.csv")
        separator = done.names["text"]["separator"]
        return list(csv.DictReader(io.StringIO(made.files["out.csv"].decode("utf-8-sig"), newline=""), delimiter=separator))

    def wanted(self):
        """The shipments of the example, with dates in ISO's form."""
        with open(CARRIER / "shipments.csv", encoding="utf-8", newline="") as file:
            for row in csv.DictReader(file, delimiter=";"):
                times = [datetime.datetime.strptime(row[it], "%d.%m.%Y %H:%M").isoformat(" ", "minutes") for it in ("Bereit ab", "Lieferung bis")]
                yield row["Sendung"], row["Von"], row["Nach"], row["Paletten"], *times

    def is_back(self, done, mark):
        self.assertEqual((done.status, done.faults()), (0, []), done.said)
        rows, legs = self.back(done), {}
        for row in rows:
            legs.setdefault(row["Shipment"], []).append(row)
        self.assertEqual(list(legs), [name for name, *_ in self.wanted()])
        for name, origin, destination, size, ready, due in self.wanted():
            first, last = legs[name][0], legs[name][-1]
            self.assertEqual((first["From"], last["To"], first["Ready"], last["Due"]), (origin, destination, ready, due))
            self.assertEqual(float(first["Size"].replace(mark, ".")), float(size.replace(",", ".")))
            self.assertTrue(ready <= first["Departs"] and last["Arrives"] <= due)

    def test_the_example(self):
        given = self.tables(*(CARRIER / f"{it}.csv" for it in ("terminals", "lanes", "shipments")))
        for words in ((), ("--zone", "Europe/Berlin")) if zoneinfo.available_timezones() else ((),):
            self.is_back(imported(given, *words), ",")

    def test_the_cost_is_that_of_the_tables(self):
        """What the answer costs, counted by hand in the money and sizes of the tables."""
        done = imported(self.tables(*(CARRIER / f"{it}.csv" for it in ("terminals", "lanes", "shipments"))))
        answer = planned("plan --rounds 0 --branches 0", done.files["day.csv"])
        given = {"answer.csv": answer, "day.names.json": done.files["day.names.json"]}
        whole = json.loads(exported(given, "answer.csv", "--names", "day.names.json", "--to", "json", "-o", "out.json").files["out.json"])
        with open(CARRIER / "lanes.csv", encoding="utf-8", newline="") as file:
            costs = {(it["Von"], it["Nach"]): [amount(it[cost]) for cost in ("Kosten je LKW", "Kosten je Palette")] for it in csv.DictReader(file, delimiter=";")}
        total = sum(it["trucks"] * costs[it["from"], it["to"]][0] + Decimal(it["load"]) * costs[it["from"], it["to"]][1] for it in whole["trucks"])
        self.assertEqual(Decimal(whole["cost"]), total)

    def test_tables_of_libreoffice(self):
        day = imported(self.tables(*(CARRIER / f"{it}.csv" for it in ("terminals", "lanes", "shipments")))).files["day.csv"]
        for language, words, mark in (("german", (), ","), ("french", ("--dates", "day-first"), ","), ("english", ("--dates", "month-first"), ".")):
            with self.subTest(language):
                done = imported(self.tables(*(DATA / f"{language}-{it}.csv" for it in ("terminals", "lanes", "shipments"))), *words)
                self.is_back(done, mark)
                self.assertEqual(done.files["day.csv"], day)

    def test_dates_of_libreoffice_that_can_be_read_two_ways(self):
        for language in ("french", "english"):
            done = imported(self.tables(*(DATA / f"{language}-{it}.csv" for it in ("terminals", "lanes", "shipments"))))
            self.assertEqual((done.status, len(done.faults())), (1, 24))

    @needs_openpyxl
    def test_a_workbook_of_libreoffice(self):
        day = imported(self.tables(*(CARRIER / f"{it}.csv" for it in ("terminals", "lanes", "shipments")))).files["day.csv"]
        done = imported(self.tables(DATA / "german.xlsx"))
        self.is_back(done, ".")
        self.assertEqual(done.files["day.csv"], day)

    @needs_zones
    def test_what_is_exported_is_read_as_it_was(self):
        """The times of a timetable, taken as a table of shipments again, on a day with a clock change."""
        shipments = TABLES["shipments.csv"].replace("08:30;17:00", "2026-10-25 02:50+02:00;2026-10-25 02:50+01:00")
        lanes = TABLES["lanes.csv"].replace("04:30", "01:00")
        done = imported({**TABLES, "lanes.csv": lanes, "shipments.csv": shipments}, "--zone", "Europe/Paris")
        row = self.back(done)[0]
        self.assertEqual((row["Ready"], row["Departs"], row["Arrives"], row["Due"]), ("2026-10-25T02:50:00+02:00",) * 2 + ("2026-10-25T02:50:00+01:00",) * 2)


if __name__ == "__main__":
    unittest.main()
