"""How a day that is under way is shown: on a page and in exported tables, from what is left of it."""

import json
import pathlib
import sys
import unittest
from datetime import datetime
from html import unescape

sys.dont_write_bytecode = True
TOP = pathlib.Path(__file__).resolve().parents[2]
sys.path[:0] = [str(TOP / "tools"), str(pathlib.Path(__file__).resolve().parent)]

from carrier_tables import exported  # noqa: E402
from freight_text.file_faults import FileFault  # noqa: E402
from freight_text.page.clocks import Clock  # noqa: E402
from freight_text.page.displays import Display  # noqa: E402
from freight_text.page.faults import check_answer, checked_instance  # noqa: E402
from freight_text.page.inputs import Inputs  # noqa: E402
from freight_text.page.pages import whole_page  # noqa: E402
from freight_text.records import records_of  # noqa: E402
from freight_text.timetables import Timetable  # noqa: E402
from pages_read import Page  # noqa: E402

WHOLE = "terminal,A\nterminal,B,10\nterminal,C\narc,A,B,100,10,100,0\narc,B,C,120,10,100,1\nshipment,P1,A,C,4,0,600\nshipment,P3,A,B,4,0,600\nshipment,P4,B,C,4,0,520\n"
# P1 is late, P3 is there, and it is 300.
NOW = "now,300\nkept,P1,A,B,0,350\nkept,P3,A,B,0\n"
LEFT = "answer,optimal,108\nleg,P1,B,C,360,480\nleg,P4,B,C,360,480\ntruck,B,C,360,1,8\nleaf,linear,0,plain\nend\n"
# The whole day, when P1 has left and is on time.
KEEPING = (
    "answer,optimal,208\nleg,P1,A,B,0,100\nleg,P3,A,B,0,100\nleg,P1,B,C,110,230\nleg,P4,B,C,110,230\n"
    "truck,A,B,0,1,8\ntruck,B,C,110,1,8\nleaf,linear,0,plain\nend\n"
)
CLOCK = Display(Clock(datetime(2026, 3, 2)))

# What is told, the answer, what check said and the display, and what the page says.
CLAIMS = (
    (NOW, LEFT, "accepted,optimal", Display(), "Cost 108: the cheapest that goes on with the day, proved."),
    (NOW, LEFT, "accepted,optimal", Display(), "Checked and proved: no plan that goes on with the day is cheaper, with departures in any fraction"),
    (NOW, LEFT, None, Display(), "Cost 108. The answer says that it is the cheapest that goes on with the day, and that is not checked."),
    (NOW, LEFT, "rejected,7", Display(), "Cost 108.<"),
    (NOW, LEFT.replace("optimal,108", "unfinished,108,100,time"), "accepted,unfinished", Display(), "proved (no plan that goes on with the day costs less than 100)"),
    (NOW, LEFT, None, Display(), "It is 300. This is what is left of the day: what has left isn't shown, nor what it costs. Trucks 100, flow 8. 2 shipments, 2 legs"),
    (NOW, LEFT, None, CLOCK, "It is 05:00. This is what is left of the day"),
    ("kept,P1,A,B,0,350\nkept,P3,A,B,0,100\n", LEFT, None, Display(), '"note">This is what is left of the day'),
    ("kept,P1,A,B,0\n", KEEPING, "accepted,optimal", Display(), "Cost 208: the cheapest that keeps the legs, proved."),
    ("kept,P1,A,B,0\n", KEEPING, "accepted,optimal", Display(), "</p><p class=\"note\">Trucks 200, flow 8. 3 shipments, 4 legs"),
    ("kept,P4,B,C,360\n", "answer,stuck,P1\nend\n", None, Display(), "No timetable keeps the legs that stand: shipment P1 can't go on"),
    ("now,500\n", "answer,stuck,P1\nend\n", "accepted,stuck", Display(), "No timetable goes on with the day: shipment P1 can't go on from its legs in time."),
    ("now,500\n", "answer,stuck,P1\nend\n", "accepted,stuck", Display(), "Checked and proved: no such plan exists"),
)  # fmt: skip

# What is told and an answer, and what keeps them from being shown.
FAULTS = (
    ("now,300\nthen,5\n", LEFT, "line 10: the first field is"),
    ("now,9h\n", LEFT, 'line 9: field TIME is "9h": not whole digits'),
    ("kept,P1,A,C,0\n", LEFT, 'line 9: no arc leads from "A" to "C"'),
    ("kept,P1,B,C,0,9\n", LEFT, "line 9: P1 is at A after 0 kept legs"),
    (NOW, LEFT.replace("leg,P4", "leg,P3"), 'field SHIPMENT is "P3": no shipment has this name'),
    (NOW, LEFT.replace("leg,P4,B,C,360,480\n", ""), "no leg carries P4"),
)

NAMES = {
    "format": "freight names 1",
    "time": {"unit_seconds": 60, "zero": None, "zone": None},
    "size": {"decimals": 0},
    "money": {"decimals": 2, "currency": "EUR"},
    "text": {"separator": ";", "decimal": ","},
    "terminals": {it: f"Hub {it}" for it in "ABC"},
    "shipments": {it: it for it in ("P1", "P3", "P4")},
}

# What is told, and what export says of it.
EXPORT_FAULTS = (
    ("now,9h\n", 'day.csv, line 9: field TIME is "9h": not what stands there'),
    ("now\n", "day.csv, line 9: 1 field in place of 2: now,TIME"),
    ("kept,P1,A,B\n", "day.csv, line 9: 4 fields in place of 5: kept,SHIPMENT,FROM,TO,DEPART"),
    ("kept,P9,A,B,0\n", 'day.csv, line 9: field SHIPMENT is "P9": no shipment of the file of names'),
    ("kept,P1,A,C,0\n", 'day.csv, line 9: no arc leads from "A" to "C"'),
    ("now,5\nterminal,A\n", 'day.csv, line 10: it is no line of an instance: "terminal"'),
    (NOW.replace("350", "350,1"), "day.csv, line 10: 7 fields in place of 6: kept,SHIPMENT,FROM,TO,DEPART,ARRIVE"),
)  # fmt: skip


def page(told, answer, checked=None, display=Display()):
    timetable = Timetable((WHOLE + told).encode(), answer.encode())
    return whole_page(Inputs(timetable, checked.split(",") if checked else None, None, display))


class Shown(unittest.TestCase):
    def test_claims(self):
        for told, answer, checked, display, words in CLAIMS:
            with self.subTest(words=words):
                self.assertIn(words, unescape(page(told, answer, checked, display)))

    def test_what_is_left_is_shown(self):
        found = Page(page(NOW, LEFT))
        self.assertEqual(
            found.rows("Each shipment"),
            [["P1", "4", "B → C", "360", "360", "480", "600", "120"], ["P4", "4", "B → C", "300", "360", "480", "520", "40"]],
        )
        self.assertEqual(found.rows("What goes out of B"), [["360", "C", "1", "8 of 10", "P1 (4), P4 (4)"]])

    def test_faults(self):
        for told, answer, part in FAULTS:
            with self.subTest(part=part), self.assertRaises(FileFault) as found:
                data = (WHOLE + told).encode()
                records = records_of(answer.encode())
                check_answer(checked_instance(records_of(data), data), records, records)
            self.assertIn(part, str(found.exception))


class Exported(unittest.TestCase):
    def export(self, told, *words):
        files = {"answer.csv": LEFT, "day.names.json": json.dumps(NAMES), "day.csv": WHOLE + told}
        return exported(files, "answer.csv", "--names", "day.names.json", "--instance", "day.csv", *words)

    def test_what_is_left_is_written(self):
        done = self.export(NOW, "--by", "shipment", "--to", "json", "-o", "out.json")
        rows = json.loads(done.files["out.json"])
        self.assertEqual([(it["Shipment"], it["From"], it["Departs"], it["Ready"], it["Slack"]) for it in rows], [("P1", "Hub B", "06:00", "06:00", "02:00"), ("P4", "Hub B", "06:00", "05:00", "00:40")])

    def test_faults(self):
        for told, said in EXPORT_FAULTS:
            done = self.export(told, "--by", "shipment", "--to", "json", "-o", "out.json")
            self.assertEqual((done.status, done.said), (1, f"freight export: {said}\n"))


if __name__ == "__main__":
    unittest.main()
