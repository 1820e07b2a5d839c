"""What the page of a timetable shows: what is claimed, tables, sheets of terminals and trucks, clock times, and how it is built."""

import pathlib
import re
import sys
import unittest
import zoneinfo
from dataclasses import replace
from datetime import datetime, timedelta, timezone
from fractions import Fraction
from html import unescape

sys.dont_write_bytecode = True
TOP = pathlib.Path(__file__).resolve().parents[2]
sys.path[:0] = [str(TOP / "tools"), str(pathlib.Path(__file__).resolve().parent)]

from freight_text.page.clocks import Clock, minutes_of  # noqa: E402
from freight_text.fleets import trucks_of  # noqa: E402
from freight_text.names_files import NamesFile  # noqa: E402
from freight_text.page.displays import ANY_DAY, Amounts, Display, display_of  # noqa: E402
from freight_text.page.inputs import Inputs  # noqa: E402
from freight_text.page.pages import whole_page  # noqa: E402
from freight_text.page.row_order import Rows, row_order  # noqa: E402
from freight_text.records import records_of  # noqa: E402
from freight_text.timetables import Departure, Timetable  # noqa: E402
from carrier_tables import needs_zones  # noqa: E402
from pages_read import Page  # noqa: E402

DAY = (TOP / "examples/carrier-day.csv").read_bytes()
DIRECT = (TOP / "examples/carrier-day.csv.stdout").read_bytes()
PLAN = (TOP / "examples/carrier-day.csv.plan.stdout").read_bytes()
FRANCE = (TOP / "examples/france-day.csv").read_bytes()
FRANCE_DIRECT = (TOP / "examples/france-day.csv.stdout").read_bytes()
# An instance and a certificate in one file, in which two shipments leave together in two trucks.
HUB = (TOP / "examples/hub-proof.csv").read_bytes()
UNFINISHED = HUB.replace(b"answer,optimal,1503", b"answer,unfinished,1503,1400,branches")
# What `fleet` prints of the carrier's day as it is planned, and of the hub.
FLEET = b"""fleet,2
need,NICE,1,900
need,LYON,1,540
start,LYON,PARIS,540,1
start,NICE,LYON,900,1
turn,LYON,PARIS,540,LILLE,1480,1
turn,NICE,LYON,900,PARIS,1200,1
end
"""
HUB_FLEET = b"fleet,3\nneed,DEPOT,2,0\nneed,HUB,1,40\nstart,DEPOT,PORT,0,2\nstart,HUB,PORT,40,1\nend\n"

CLOCK = Clock(datetime(2026, 3, 2))
NAMED = Display(CLOCK, {"NICE": "Nice Côte d’Azur", "LYON": "Lyon & Isère"}, {"P1": "<Müller>"}, Amounts(1, "pallets"), Amounts(2, "EUR"))


def page_text(instance=DAY, answer=PLAN, checked=None, fleet=None, display=Display()):
    timetable = Timetable(instance, answer)
    trucks = trucks_of(records_of(fleet), timetable.departures) if fleet else None
    return whole_page(Inputs(timetable, checked.split(",") if checked else None, trucks, display))


def page(*given, **named):
    return Page(page_text(*given, **named))


def many_shipments(count):
    """An instance and its answer with so many shipments, each in a truck of its own."""
    names = [f"S{it}" for it in range(count)]
    shipments = "".join(f"shipment,{name},A,B,1,{it},{it + 60}\n" for it, name in enumerate(names))
    legs = "".join(f"leg,{name},A,B,{it},{it + 50}\n" for it, name in enumerate(names))
    trucks = "".join(f"truck,A,B,{it},1,1\n" for it in range(count))
    instance = f"terminal,A\nterminal,B\narc,A,B,50,4,10,0\n{shipments}"
    return instance.encode(), f"answer,direct,{10 * count}\n{legs}{trucks}end\n".encode()


class Claims(unittest.TestCase):
    def test_what_is_said_of_the_cost(self):
        gap = "at most 7.4 % above the cheapest there can be"
        for instance, answer, checked, words in (
            (DAY, PLAN, None, "Cost 182,900. The answer says that it is the cheapest there is, and that is not checked."),
            (DAY, PLAN, "accepted,optimal", "Cost 182,900: the cheapest there is, proved."),
            (DAY, PLAN, "accepted,optimal", "no plan is cheaper, with departures in any fraction"),
            (DAY, PLAN, "rejected,2", "Cost 182,900.<"),
            (DAY, PLAN, "rejected,2", "Not accepted by check (rejected,2): nothing on this page is proved."),
            (DAY, DIRECT, None, "Not checked"),
            (DAY, DIRECT, "accepted,direct", "Cost 356,900.<"),
            (DAY, DIRECT, "accepted,direct", "Nothing is said of other plans"),
            (HUB, UNFINISHED, "accepted,unfinished", f"Cost 1,503: {gap}, proved (no plan costs less than 1,400)."),
            (HUB, UNFINISHED, None, f"The answer says that it is {gap} (no plan costs less than 1,400), and that is not checked."),
            (HUB, UNFINISHED.replace(b",1400,", b",0,"), "accepted,unfinished", "at most 1,503 above the cheapest there can be, proved"),
            (HUB, UNFINISHED.replace(b",1400,", b",1502,"), "accepted,unfinished", "at most 0.1 % above"),
            (HUB, HUB, "accepted,optimal", "The certificate has 1 table, 8 splits, 9 leaves."),
            (HUB, HUB.replace(b"split,arc,S1", b"narrow,1,0,plain\nsplit,arc,S1"), None, "The certificate has 1 table, 8 splits, 1 narrowing, 9 leaves."),
            (HUB, HUB, None, "Trucks 1,500, flow 3. 3 shipments, 3 legs, 2 departures, 3 trucks (one for each leg alone: 3)."),
            (DAY, b"answer,infeasible,P1,580\nend\n", None, "No plan exists: shipment P1 can't be carried in time."),
            (DAY, b"answer,stuck,P1\nend\n", None, "No timetable keeps the legs that stand: shipment P1"),
            (b"terminal,A\n", b"answer,optimal,0\nend\n", "accepted,optimal", "Cost 0: the cheapest there is, proved."),
        ):
            with self.subTest(words=words):
                self.assertIn(words, unescape(page_text(instance, answer, checked)))

    def test_nothing_is_proved_where_nothing_is_accepted(self):
        for checked in (None, "rejected,7", "refused,3,25"):
            for answer in (HUB, UNFINISHED):
                header = page_text(HUB, answer, checked).split("<header>")[1].split("</header>")[0]
                self.assertNotIn("proved", header.replace("nothing on this page is proved", ""))


class Tables(unittest.TestCase):
    def test_shipments(self):
        rows = page(answer=DIRECT).rows("Each shipment")
        self.assertEqual(rows[0], ["P1", "12", "NICE → LYON → PARIS", "480", "480", "1060", "1500", "440"])
        self.assertEqual(len(rows), 4)
        self.assertEqual([row[-1] for row in page(HUB, HUB).rows("Each shipment")], ["70", "70", "45"])

    def test_departures(self):
        rows = page(answer=DIRECT).rows("Each truck line")
        self.assertEqual(rows[0], ["NICE → LYON", "480", "780", "1", "12 of 33", "36 %", "P1"])
        self.assertEqual(len(rows), 8)
        self.assertEqual(page(HUB, HUB).rows("Each truck line")[0], ["DEPOT → PORT", "0", "50", "2", "10 of 12", "83 %", "S1, S2"])

    def test_costs(self):
        self.assertEqual(page(answer=DIRECT).rows("What trucks and flow cost")[-1], ["all", "8", "348,000", "8,900", "356,900"])

    def test_picture(self):
        text = page_text(answer=DIRECT)
        self.assertEqual((text.count('class="departure '), text.count('class="way"')), (8, 4))
        self.assertIn("<title>DEPOT → PORT, 0 to 50: 2 trucks, 10 of 12; S1, S2</title>", page_text(HUB, HUB))

    def test_a_terminal_without_trucks_has_no_row_and_no_sheet(self):
        found = page(DAY.replace(b"arc,NICE", b"terminal,METZ\narc,NICE", 1))
        self.assertEqual([row[0] for row in found.rows("What leaves each terminal")], ["NICE", "LYON", "PARIS", "LILLE"])
        self.assertNotIn("METZ", found.sheets("What comes into "))


class Sheets(unittest.TestCase):
    def test_what_goes_out_and_what_comes_in(self):
        found = page()
        self.assertEqual(
            found.rows("What goes out of LYON"),
            [["540", "PARIS", "1", "5 of 33", "P3 (5)"], ["1200", "PARIS", "1", "33 of 33", "P1 (12), P2 (15), P4 (6)"]],
        )
        self.assertEqual(
            found.rows("What comes into PARIS"),
            [
                ["820", "LYON", "1", "", "P3 (5) → LILLE 1480"],
                ["1480", "LYON", "1", "P1 (12), P2 (15)", "P4 (6) → LILLE 1480"],
            ],
        )
        self.assertEqual(found.rows("What leaves each terminal")[1], ["LYON", "2", "38", "540", "1", "18", "1200"])
        self.assertEqual(set(found.sheets("What comes into ")), {"LYON", "PARIS", "LILLE"})

    def test_every_leg_stands_once_in_what_goes_out_and_once_in_what_comes_in(self):
        for instance, answer in ((DAY, PLAN), (DAY, DIRECT), (HUB, HUB), (FRANCE, FRANCE_DIRECT)):
            legs, found = Timetable(instance, answer).legs, page(instance, answer)
            out, come = [], []
            for name, rows in found.sheets("What goes out of ").items():
                out += [(one, name, row[1], row[0]) for row in rows for one in re.findall(r"(\w+) \(", row[4])]
            for name, rows in found.sheets("What comes into ").items():
                come += [(one, row[1], name, row[0]) for row in rows for one in re.findall(r"(\w+) \(", f"{row[3]}, {row[4]}")]
            self.assertEqual(sorted(out), sorted((it.shipment, it.tail, it.head, str(it.depart)) for it in legs))
            self.assertEqual(sorted(come), sorted((it.shipment, it.tail, it.head, str(it.arrive)) for it in legs))

    def test_every_leg_stands_once_in_the_tables_of_shipments_and_departures(self):
        for instance, answer in ((DAY, PLAN), (HUB, HUB), (FRANCE, FRANCE_DIRECT)):
            legs, found = Timetable(instance, answer).legs, page(instance, answer)
            steps = [(row[0], *ends) for row in found.rows("Each shipment") for ends in zip(row[2].split(" → "), row[2].split(" → ")[1:])]
            self.assertEqual(sorted(steps), sorted((it.shipment, it.tail, it.head) for it in legs))
            loads = [(one, row[0], row[1]) for row in found.rows("Each truck line") for one in row[6].split(", ")]
            self.assertEqual(sorted(loads), sorted((it.shipment, f"{it.tail} → {it.head}", str(it.depart)) for it in legs))

    def test_every_leg_stands_in_the_sheet_of_each_truck_that_runs_its_departure(self):
        for instance, answer, fleet in ((DAY, PLAN, FLEET), (HUB, HUB, HUB_FLEET)):
            timetable, found = Timetable(instance, answer), page(instance, answer, fleet=fleet)
            runs = []
            for rows in found.sheets("What truck ").values():
                runs += [(one, row[1], row[2], row[0]) for row in rows for one in re.findall(r"(\w+) \(", row[5])]
            trucks = {it.key: it.trucks for it in timetable.departures}
            wanted = [it for it in timetable.legs for _ in range(trucks[it.tail, it.head, it.depart])]
            self.assertEqual(sorted(runs), sorted((it.shipment, it.tail, it.head, str(it.depart)) for it in wanted))

    def test_trucks(self):
        found = page(fleet=FLEET)
        one, two = (found.rows(f"What truck {it} runs") for it in (1, 2))
        self.assertEqual(one, [["540", "LYON", "PARIS", "820", "5", "P3 (5)"], ["1480", "PARIS", "LILLE", "1630", "11", "P3 (5), P4 (6)"]])
        self.assertEqual([row[:5] for row in two], [["900", "NICE", "LYON", "1200", "18"], ["1200", "LYON", "PARIS", "1480", "33"]])
        self.assertEqual(found.rows("Each truck's way")[0], ["Truck 1", "2", "540", "LYON → PARIS → LILLE", "1630"])
        both = page_text(HUB, HUB, fleet=HUB_FLEET).replace("\u00a0", " ")
        self.assertEqual(both.count("10 in 2 trucks"), 2)
        self.assertIn("Where several trucks run one line, the shipments are those of all of them.", both)
        self.assertNotIn("Trucks</h2>", page_text())

    def test_many_shipments_open_by_terminal(self):
        for count, first in ((150, "Shipments"), (151, "Terminals")):
            text = page_text(*many_shipments(count))
            headings = [words for level, words in Page(text).headings if level == 2]
            self.assertEqual(headings[:2], ["Time and space", first])
            self.assertEqual("<details open" in text.replace(' class="drawn"', ""), count == 150)


class Clocks(unittest.TestCase):
    def test_times(self):
        zoned = Clock(datetime(2026, 3, 29, tzinfo=timezone(timedelta(hours=1))))
        for clock, time, words in (
            (Clock(), 1423, "1423"), (CLOCK, 0, "00:00"), (CLOCK, 1423, "23:43"), (CLOCK, 1455, "Tue 00:15"), (CLOCK, 1440 * 6 + 1, "Sun 00:01"),
            (CLOCK, 1440 * 7, "Mon 9 Mar 00:00"), (CLOCK, 100_000, "Sun 10 May 10:40"), (zoned, 65, "01:05"),
            (Clock(datetime(2026, 3, 2, 6, 30)), 60, "07:30"), (Clock(datetime(2026, 3, 2), Fraction(1, 2)), 3, "00:01:30"),
            (Clock(datetime(2026, 3, 2), Fraction(15)), 95, "23:45"), (Clock(ANY_DAY, dated=False), 1455, "00:15 +1"),
        ):  # fmt: skip
            self.assertEqual(clock.time(time), words)

    def test_spans(self):
        for clock, time, words in (
            (Clock(), 440, "440"), (CLOCK, 0, "0 min"), (CLOCK, 45, "45 min"), (CLOCK, 440, "7 h 20"), (CLOCK, 1441, "24 h 01"), (CLOCK, -65, "-1 h 05"),
            (Clock(CLOCK.zero, Fraction(1, 2)), 3, "1 min 30 s"),
        ):  # fmt: skip
            self.assertEqual(clock.span(time), words)

    def test_units(self):
        for text, minutes in (("1min", 1), ("30s", Fraction(1, 2)), ("0.5h", 30), ("15 min", 15)):
            self.assertEqual(minutes_of(text), minutes)
        for text in ("", "1", "min", "0min", "-1min", "1day"):
            self.assertRaises(ValueError, minutes_of, text)

    def test_the_head_of_a_chart_has_few_times_within_it(self):
        for clock in (Clock(), CLOCK, Clock(datetime(2026, 3, 2, 6, 20), Fraction(1, 60))):
            for first, last in ((0, 1), (480, 1630), (7, 100_000), (900, 901), (1, 60)):
                ticks = clock.ticks(first, last)
                self.assertTrue(all(first <= it <= last for it in ticks))
                self.assertLessEqual(len(ticks), 14)
        self.assertEqual([CLOCK.tick(it) for it in CLOCK.ticks(480, 1630)], ["08:00", "10:00", "12:00", "14:00", "16:00", "18:00", "20:00", "22:00", "Tue", "Tue 02:00"])
        self.assertEqual([CLOCK.tick(it) for it in (11520, 12240)], ["Tue 10 Mar", "12:00"])

    def test_a_page_in_a_carriers_words(self):
        found, text = page(display=NAMED, fleet=FLEET), page_text(display=NAMED, fleet=FLEET)
        self.assertEqual(
            found.rows("Each shipment")[0],
            ["<Müller>", "1.2", "Nice Côte d’Azur → Lyon & Isère → PARIS", "08:00", "15:00", "Tue 00:40", "Tue 01:00", "20 min"],
        )
        self.assertEqual(found.rows("What goes out of Lyon & Isère")[0], ["09:00", "PARIS", "1", "0.5 of 3.3", "P3 (0.5)"])
        for words in ("Cost 1,829.00 EUR.", "Sizes are in pallets.", "The first day is Mon 2 Mar 2026", "Lyon &amp; Isère", "&lt;Müller&gt;"):
            self.assertIn(words, text)
        self.assertNotIn("<Müller>", text)

    def test_names_as_an_import_writes_them(self):
        names = NamesFile({"LYON": "Lyon"}, {}, 30, CLOCK.zero, None, 1, None, 3, "EUR", ";", ",")
        display = display_of(names)
        self.assertEqual((display.clock, display.terminal("LYON"), display.terminal("NICE")), (Clock(CLOCK.zero, Fraction(1, 2)), "Lyon", "NICE"))
        self.assertEqual((display.sizes.words(125), display.money.words(10**39 + 1)), ("12.5", f"{10**36:,}.001 EUR"))
        self.assertEqual(display_of(names, datetime(2026, 3, 3), Fraction(60)).clock, Clock(datetime(2026, 3, 3), Fraction(60)))
        undated = replace(names, seconds=60, zero=None)
        self.assertEqual(display_of(undated).clock, Clock(ANY_DAY, dated=False))
        self.assertEqual(display_of(undated, CLOCK.zero).clock, CLOCK)
        self.assertEqual(display_of(None), Display())

    @needs_zones
    def test_the_hour_that_comes_twice(self):
        zone = zoneinfo.ZoneInfo("Europe/Paris")
        clock = display_of(NamesFile({}, {}, 60, datetime(2026, 10, 25), zone, 0, None, 0, None, ";", ",")).clock
        self.assertEqual([clock.time(it) for it in (90, 150, 210, 300)], ["01:30", "02:30+02:00", "02:30+01:00", "04:00"])


class Builds(unittest.TestCase):
    def test_the_page_is_whole_and_in_order(self):
        for text in (page_text(fleet=FLEET), page_text(HUB, HUB, "accepted,optimal", HUB_FLEET, NAMED), page_text(*many_shipments(151))):
            found = Page(text)
            self.assertEqual((found.language, found.headings[0]), ("en", [1, "Timetable"]))
            levels = [level for level, _ in found.headings]
            self.assertTrue(all(later <= before + 1 for before, later in zip(levels, levels[1:])))
            self.assertTrue(all(it.caption and it.heads for it in found.tables))
            self.assertEqual(len(found.ids), len(set(found.ids)))
            self.assertLessEqual(set(found.targets), set(found.ids))
            self.assertEqual((found.controls, found.unlabelled), (["part", "t", "s", "l"], []))
            self.assertNotRegex(text, r"https?:|src=|url\(|@import")

    def test_colours_pass_contrast(self):
        style = (TOP / "tools/freight_text/page/page.css").read_text()
        colours = dict(re.findall(r"--([a-z-]+): (#[0-9a-f]{6})", style))
        for front, back, least in (
            ("ink", "paper", 7), ("ink", "head", 7), ("ink", "lit", 7), ("soft", "paper", 4.5), ("link", "paper", 4.5), ("link", "lit", 4.5), ("ink", "neutral", 4.5),
            ("yes-ink", "yes", 4.5), ("no-ink", "no", 4.5), ("low", "paper", 3), ("half", "paper", 4.5), ("full", "paper", 7), ("way", "paper", 3), ("way", "lit", 3),
            # The steps of a truck's use are told apart in grey too.
            ("half", "low", 1.5), ("full", "half", 1.5),
        ):  # fmt: skip
            high, low = sorted((luminance(colours[it]) for it in (front, back)), reverse=True)
            self.assertGreaterEqual((high + 0.05) / (low + 0.05), least, f"{front} on {back}")


def luminance(colour):
    """The relative luminance of a colour, as the guidelines for accessible pages define it."""
    parts = [int(colour[it : it + 2], 16) / 255 for it in (1, 3, 5)]
    red, green, blue = (it / 12.92 if it <= 0.04045 else ((it + 0.055) / 1.055) ** 2.4 for it in parts)
    return 0.2126 * red + 0.7152 * green + 0.0722 * blue


def between(one, two, trucks):
    return Departure(one, two, 0, 1, trucks, 1, 1)


class RowOrders(unittest.TestCase):
    def test_a_good_order_stays(self):
        names = ["A", "B", "C", "D"]
        self.assertEqual(row_order(names, [between("A", "B", 1), between("C", "B", 2), between("C", "D", 1)]), names)
        self.assertEqual(row_order([], []), [])

    def test_joined_terminals_come_together(self):
        order = row_order(["A", "B", "C", "D"], [between("A", "D", 9), between("B", "C", 1)])
        self.assertEqual(abs(order.index("A") - order.index("D")), 1)
        self.assertEqual(abs(order.index("B") - order.index("C")), 1)

    def test_the_length_of_lines_after_each_swap(self):
        rows = Rows("ABCDE", [between(one, two, trucks) for one, two, trucks in (("A", "C", 3), ("B", "E", 2), ("D", "A", 5), ("E", "D", 1))])
        for place in (0, 3, 1, 2, 0, 1):
            before = rows.length()
            more = rows.swap(place)
            self.assertEqual(rows.length(), before + 2 * more)


if __name__ == "__main__":
    unittest.main()
