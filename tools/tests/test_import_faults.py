"""Each fault that `import` finds in a carrier's tables, and what it says of its words."""

import pathlib
import subprocess
import sys
import tempfile
import unittest
import unittest.mock

sys.dont_write_bytecode = True
sys.path.insert(0, str(pathlib.Path(__file__).resolve().parent))
from carrier_tables import CARRIER, DATA, LANES, SHIPMENTS, TABLES, TOP, dated, edited, imported, needs_zones  # noqa: E402

from freight_tables import whole_files  # noqa: E402


class Faults(unittest.TestCase):
    """Each fault: the table, what is changed in it, and what is said."""

    CASES = (
        ("terminals.csv", "00:30", "abc", 'terminals.csv, row 2, column "Hold", "abc": not a duration, as 02:30, 150 min or 2.5 h'),
        ("terminals.csv", "00:30", "17:00", 'terminals.csv, row 2, column "Hold", "17:00": it has to be at most 16:40 h'),
        ("terminals.csv", "00:30", "30", 'terminals.csv, row 2, column "Hold", "30": a number without a unit of time: write it in the heading, as (min) or (h), or say --time-unit min or --time-unit h'),
        ("terminals.csv", "Lyon", "Orléans", 'terminals.csv, row 3, column "Name", "Orléans": row 2 has this name too'),
        ("terminals.csv", "Lyon", "", 'terminals.csv, row 3, column "Name", empty: it has to be there'),
        ("lanes.csv", "Orléans;Lyon", "Orleans;Lyon", 'lanes.csv, row 2, column "From", "Orleans": no terminal of the table of terminals has this name; the nearest is "Orléans"'),
        ("lanes.csv", "Orléans;Lyon", "Lyon;Lyon", 'lanes.csv, row 2, column "To", "Lyon": it is the origin too'),
        ("lanes.csv", "1,5\n", "1,5\nOrléans;Lyon;1 h;1;1;1\n", 'lanes.csv, row 3, column "To", "Lyon": row 2 has a lane from "Orléans" to here too'),
        ("lanes.csv", "04:30", "00:00", 'lanes.csv, row 2, column "Travel time", "00:00": it has to be above 0'),
        ("lanes.csv", "04:30", "1700:00", 'lanes.csv, row 2, column "Travel time", "1700:00": it has to be at most 1666:40 h'),
        ("lanes.csv", "04:30", "04:30:01", 'terminals.csv, row 2, column "Hold", "00:30": it has to be at most 00:16:40 h; the unit is a second, since some time isn\'t whole minutes'),
        ("lanes.csv", "04:30", "0,3333 min", 'lanes.csv, row 2, column "Travel time", "0,3333 min": not a whole number of seconds'),
        ("lanes.csv", "33", "0", 'lanes.csv, row 2, column "Capacity", "0": it has to be above 0'),
        ("lanes.csv", "33", "-2", 'lanes.csv, row 2, column "Capacity", "-2": it has to be above 0'),
        ("lanes.csv", "33", "thirty", 'lanes.csv, row 2, column "Capacity", "thirty": not a number'),
        ("lanes.csv", "33", "0,0000001", 'lanes.csv, row 2, column "Capacity", "0,0000001": it has more than 6 decimals: round it'),
        ("lanes.csv", "33", "1" + 18 * "0", 'lanes.csv, row 2, column "Capacity", "1000000000000000000": it has to be at most 100,000,000,000,000,000'),
        ("lanes.csv", LANES, LANES.replace("1,5", "1.5").replace(";", ",").replace("480", "480,25"), 'lanes.csv, row 2: "1.5" stands past the last heading: is a decimal comma taken for the end of a cell?'),
        ("lanes.csv", "480", "", 'lanes.csv, row 2, column "Cost per truck", empty: it has to be there'),
        ("lanes.csv", "1,5", "-1,5", 'lanes.csv, row 2, column "Cost per unit", "-1,5": it has to be 0 or more'),
        ("lanes.csv", "480;1,5", "480 €;1,5 $", 'lanes.csv, row 2, column "Cost per unit", "1,5 $": it is in USD, and other money in EUR'),
        ("shipments.csv", "Lyon", "Lion", 'shipments.csv, row 2, column "To", "Lion": no terminal of the table of terminals has this name; the nearest is "Lyon"'),
        ("shipments.csv", "17:00\n", "17:00\nS 1;Lyon;Orléans;1;08:30;17:00\n", 'shipments.csv, row 3, column "Shipment", "S 1": row 2 has this name too'),
        ("shipments.csv", "17:00", "07:00", 'shipments.csv, row 2, column "Due", "07:00": it is before Ready, which is 08:30; a clock time of the day after is written as 06:00 +1'),
        ("shipments.csv", "17:00", "31/12/2026 17:00", 'shipments.csv, row 2, column "Ready", "08:30": it has no date, and others have one'),
        ("shipments.csv", "17:00", "31.12.2026", 'shipments.csv, row 2, column "Due", "31.12.2026": a day without a clock time: add one, as 08:30 (24:00 is its end)'),
        ("shipments.csv", "17:00", "tomorrow", 'shipments.csv, row 2, column "Due", "tomorrow": not a clock time, and not a date with one, as 2026-12-31 08:30, 31.12.2026 08:30 or 08:30'),
        ("shipments.csv", "17:00", "1700", 'shipments.csv, row 2, column "Due", "1700": a number without a unit: write a clock time as 08:30, or say --time-unit min where it counts minutes from midnight'),
        ("shipments.csv", "08:30;17:00", "2026-12-01 08:30;2026-02-30 17:00", 'shipments.csv, row 2, column "Due", "2026-02-30 17:00": no day of the calendar'),
        ("shipments.csv", "08:30;17:00", "1926-12-01 08:30;1926-12-01 17:00", 'shipments.csv, row 2, column "Due", "1926-12-01 17:00": its year isn\'t 1970 to 2999'),
        ("shipments.csv", "08:30;17:00", "2026-12-01 08:30;2027-03-01 17:00", 'shipments.csv, row 2, column "Due", "2027-03-01 17:00": it has to be at most 1666:40 h after the zero of time'),
        ("shipments.csv", "08:30;17:00", "2026-12-01 08:30;2026-12-01 17:00Z", 'shipments.csv, row 2, column "Due", "2026-12-01 17:00Z": it says how far it is from UTC: say --zone, the zone of all other clocks'),
        ("shipments.csv", "08:30;17:00", "2026-12-01 08:30;2026-12-01 17:00-09:00", 'shipments.csv, row 2, column "Due", "2026-12-01 17:00-09:00": two times, or one with its distance to UTC? the last is written with a T, as 2026-12-31T08:30-05:00'),
        ("shipments.csv", "Size", "Colis", 'shipments.csv, row 1: a heading for shipments.size is missing; name it as --columns shipments.size=HEADING; the headings are Shipment, From, To, Colis, Ready, Due'),
        ("shipments.csv", "Shipment;", "Pallets;Shipment;", 'shipments.csv, row 1: more than one column can be shipments.size: A "Pallets", E "Size"; name it as --columns shipments.size=HEADING'),
        ("shipments.csv", SHIPMENTS, "", "shipments.csv: no row has the headings of terminals, lanes, shipments; name them by --columns, docs/tables.md has the usual ones"),
    )  # fmt: skip

    def test_each(self):
        for table, before, after, said in self.CASES:
            with self.subTest(said):
                done = imported(edited(table, before, after))
                self.assertEqual(done.status, 1)
                self.assertIn(said, done.faults(), done.said)
                self.assertNotIn("day.csv", done.files)
                self.assertNotIn("day.names.json", done.files)

    @needs_zones
    def test_zones(self):
        for ready, said in (
            ("2026-03-29 02:30", "the clocks are put forward over this time, so it never comes"),
            ("2026-10-25 02:30", "the clocks are put back, so this time comes twice: write it as 2026-10-25T02:30:00+02:00 or 2026-10-25T02:30:00+01:00"),
        ):
            done = imported(dated(ready, "2026-10-25 06:00"), "--zone", "Europe/Paris")
            self.assertIn(f'shipments.csv, row 2, column "Ready", "{ready}": {said}', done.faults())
        done = imported(TABLES, "--zone", "Europe/Paris")
        self.assertEqual(done.faults(), ["the tables: --zone needs dates, and the clock times have none: say --day, as --day 2026-12-31"])

    def test_a_day_beside_dates(self):
        done = imported(dated("2026-12-01 08:00", "2026-12-01 09:00"), "--day", "2026-12-01")
        self.assertEqual(done.faults(), ['shipments.csv, row 2, column "Ready", "2026-12-01 08:00": it has a date, and --day is for clock times without one'])

    def test_files_that_are_no_tables(self):
        for data, said in (
            (b"\x7fELF\x02\x01\0\0", "it has bytes that are 0: no text, or UTF-16 without a mark; save it as CSV in UTF-8"),
            (SHIPMENTS.encode("utf-16-le"), "it has bytes that are 0: no text, or UTF-16 without a mark; save it as CSV in UTF-8"),
            (b"\xef\xbb\xbfa\xff", "it has the mark of UTF-8 with a mark, and its byte 5 is none of that"),
            (b"a\x81", "its byte 2 is a character neither of UTF-8 nor of Windows-1252"),
            (b"a\x07b", "it is no text and no workbook (.xlsx)"),
            (b"PK\x03\x04rest", "it begins as a workbook (.xlsx) and is a broken one"),
            (b"\xd0\xcf\x11\xe0\xa1\xb1", "it is an old workbook (.xls): save it as .xlsx or CSV"),
            (b'"a;b', "row 1 can't be read as CSV: unexpected end of data"),
        ):
            with self.subTest(said):
                self.assertEqual(imported({**TABLES, "more.csv": data}).faults(), [f"more.csv: {said}"])

    def test_a_workbook_without_openpyxl(self):
        with unittest.mock.patch.dict(sys.modules, {"openpyxl": None}):
            done = imported({"german.xlsx": (DATA / "german.xlsx").read_bytes()})
        self.assertIn("german.xlsx: openpyxl isn't installed, which reads and writes .xlsx: install it (`apt install python3-openpyxl`), or use CSV", done.faults())

    def test_two_files_of_the_same_name(self):
        with tempfile.TemporaryDirectory() as name:
            for place in ("one", "two"):
                pathlib.Path(name, place).mkdir()
                pathlib.Path(name, place, "day.csv").write_text("nothing")
            done = subprocess.run([sys.executable, TOP / "tools/import", "one/day.csv", "two/day.csv"], cwd=name, capture_output=True, text=True, timeout=600)
        self.assertIn("two/day.csv: no row has the headings", done.stderr)

    def test_at_most_fifty_are_shown(self):
        rows = "".join(f"T{it};Orléans;Lyon;x;08:30;17:00\n" for it in range(60))
        done = imported({**TABLES, "shipments.csv": SHIPMENTS + rows})
        self.assertIn("60 faults; nothing is written", done.said)
        self.assertEqual((len(done.faults()), done.faults()[-1]), (51, "and 10 more"))

    def test_faults_stand_by_file_and_row(self):
        files = {**edited("lanes.csv", "33", "x"), "shipments.csv": SHIPMENTS.replace("Lyon", "Lion") + "S2;Orléans;Lyon;y;08:30;z\n"}
        self.assertEqual([it.split(": ")[0][:22] for it in imported(files).faults()], ["lanes.csv, row 2, colu", *["shipments.csv, row 2, "], *["shipments.csv, row 3, "] * 2])

    def test_limits(self):
        names = [f"T{it}" for it in range(101)]
        many = "Name\n" + "".join(f"{it}\n" for it in ("Orléans", "Lyon", *names[:99]))
        done = imported({**TABLES, "terminals.csv": many})
        self.assertEqual(done.faults(), ['terminals.csv, row 102, column "Name", "T98": these are 101 terminals, and one day may have 100'])
        chain = LANES + "".join(f"{one};{two};1 h;1;1;1\n" for one, two in zip(names, names[1:]))
        done = imported({"lanes.csv": chain, "shipments.csv": SHIPMENTS})
        self.assertEqual(done.faults(), ["the tables: the lanes have 103 terminals, and one day may have 100"])
        star = "Name\n" + "".join(f"{it}\n" for it in ("Orléans", "Lyon", *names[:33]))
        pairs = [(one, two) for one in names[:33] for two in names[:33] if one != two][:1000]
        done = imported({**TABLES, "terminals.csv": star, "lanes.csv": LANES + "".join(f"{one};{two};1 h;1;1;1\n" for one, two in pairs)})
        self.assertEqual(done.faults(), [f'lanes.csv, row 1002, column "From", "{pairs[-1][0]}": these are 1,001 lanes, and one day may have 1,000'])
        done = imported({**TABLES, "shipments.csv": SHIPMENTS + "".join(f"{it};Orléans;Lyon;1;08:30;17:00\n" for it in range(500))})
        self.assertEqual(done.faults(), ['shipments.csv, row 502, column "Shipment", "499": these are 501 shipments, and one day may have 500'])

    def test_the_weight(self):
        files = edited("shipments.csv", "2,5", "1" + 15 * "0")
        files["lanes.csv"] = LANES.replace("480;1,5", f"480;1{14 * '0'}")
        self.assertEqual(
            imported(files).faults(), ["the tables: sizes and costs together are too large for the program: write sizes with fewer decimals, or money in a larger unit"]
        )

    def test_what_is_missing(self):
        self.assertEqual(imported({"lanes.csv": LANES}).faults(), ["the tables: none of shipments was found"])
        self.assertIn("the tables: none of lanes was found", imported({"shipments.csv": SHIPMENTS}).faults())


class Words(unittest.TestCase):
    def test_words(self):
        for words, said in (
            ((), "the following arguments are required: FILE; docs/tables.md has them all"),
            (("x.csv", "--colour"), "unrecognized arguments: --colour; docs/tables.md has them all"),
            (("x.csv", "--day", "31.12.2026"), "--day 31.12.2026: it is no day as 2026-12-31"),
            (("x.csv", "--columns", "shipment.size=X"), "--columns 'shipment.size=X': there is no table 'shipment'; the nearest is \"shipments\"; they are terminals, lanes, shipments"),
            (("x.csv", "--columns", "shipments.sise=X"), "--columns 'shipments.sise=X': shipments has no column 'sise'; the nearest is \"size\"; they are name, origin, destination, size, release, due"),
            (("x.csv", "--columns", "shipments.size="), "--columns 'shipments.size=': no heading stands after ="),
            (("x.csv", "--columns", "none.txt"), "none.txt can't be read: no such file or directory"),
            (("x.csv",), "x.csv can't be read: no such file or directory"),
            (("one-arc.csv", "-o", "./one-arc.csv"), "./one-arc.csv is one of the files to read, and would be written over"),
            (("x.csv", "-o", "a.csv", "--names", "b/../a.csv"), "a.csv can't hold the instance and the names"),
        ):  # fmt: skip
            with self.subTest(said):
                done = subprocess.run([sys.executable, TOP / "tools/import", *words], capture_output=True, text=True, cwd=TOP / "examples", timeout=600)
                self.assertEqual((done.returncode, done.stdout, done.stderr), (2, "", f"freight import: {said}\n"))

    @needs_zones
    def test_a_zone_that_is_none(self):
        done = imported(TABLES, "--zone", "Europe/Pariss")
        self.assertEqual((done.status, done.said), (2, 'freight import: no zone is called "Europe/Pariss"; the nearest is "Europe/Paris"\n'))

    def test_without_a_table_of_zones(self):
        with unittest.mock.patch("zoneinfo.available_timezones", return_value=set()):
            done = imported(TABLES, "--zone", "Europe/Paris")
        self.assertEqual((done.status, done.said), (2, "freight import: this machine has no table of zones: install one (`apt install tzdata`)\n"))

    def test_help(self):
        done = subprocess.run([sys.executable, TOP / "tools/import", "--help"], capture_output=True, text=True, timeout=600)
        self.assertEqual((done.returncode, done.stderr), (0, ""))
        self.assertIn("--columns TABLE.COLUMN=HEADING", done.stdout)

    def test_files_are_written_whole_or_not_at_all(self):
        words = [sys.executable, TOP / "tools/import", *(CARRIER / f"{it}.csv" for it in ("terminals", "lanes", "shipments")), "-o", "/dev/full/day.csv"]
        done = subprocess.run(words, capture_output=True, text=True, timeout=600)
        self.assertEqual(done.returncode, 2)
        self.assertTrue(done.stderr.endswith("/dev/full/day.csv can't be written: not a directory; nothing was written\n"), done.stderr)

    def test_a_device_stays_one_and_a_link_a_link(self):
        with tempfile.TemporaryDirectory() as name:
            whole_files.write([("/dev/null", b"text")])
            self.assertTrue(pathlib.Path("/dev/null").is_char_device())
            target, link = pathlib.Path(name, "target"), pathlib.Path(name, "link")
            link.symlink_to(target)
            whole_files.write([(str(link), b"text")])
            self.assertEqual((link.is_symlink(), target.read_bytes()), (True, b"text"))


if __name__ == "__main__":
    unittest.main()
