"""What `import` reads of a carrier's tables: files, headings, names and values."""

import datetime
import io
import pathlib
import re
import subprocess
import sys
import unittest

sys.dont_write_bytecode = True
sys.path.insert(0, str(pathlib.Path(__file__).resolve().parent))
from carrier_tables import CARRIER, LANES, SHIPMENTS, TABLES, TERMINALS, TOP, dated, edited, imported, needs_openpyxl, needs_zones, openpyxl  # noqa: E402

from freight_tables import heading_words, headings  # noqa: E402

DAY = [
    "terminal,Orleans,30",
    "terminal,Lyon,45",
    "arc,Orleans,Lyon,270,330,48000,15",
    "shipment,S_1,Orleans,Lyon,25,510,1020",
]


class Forms(unittest.TestCase):
    def is_day(self, files, *words):
        done = imported(files, *words)
        self.assertEqual((done.status, done.faults()), (0, []), done.said)
        self.assertEqual(done.lines, DAY)
        return done

    def test_encodings(self):
        for coding, said in (
            ("utf-8", "UTF-8;"),
            ("utf-8-sig", "UTF-8 with a mark;"),
            ("utf-16", "UTF-16;"),
            ("cp1252", "Windows-1252, since it isn't UTF-8;"),
        ):
            with self.subTest(coding):
                done = self.is_day({name: text.encode(coding) for name, text in TABLES.items()})
                self.assertEqual(done.said.count(said), 3, done.said)
        big = {name: b"\xfe\xff" + text.encode("utf-16-be") for name, text in TABLES.items()}
        self.is_day(big)

    def test_separators(self):
        for separator, said in ((";", "semicolons"), ("\t", "tabs"), (",", "commas")):
            with self.subTest(said):
                files = {name: text.replace(",", ".").replace(";", separator) for name, text in TABLES.items()}
                done = self.is_day(files)
                self.assertEqual(done.said.count(said), 3)
                self.assertEqual(done.names["text"], {"separator": separator, "decimal": "."})
        self.is_day({**TABLES, "shipments.csv": "sep=;\n" + SHIPMENTS})
        self.is_day({**TABLES, "shipments.csv": SHIPMENTS.replace("\n", "\r\n")})
        self.is_day({**TABLES, "shipments.csv": SHIPMENTS.replace("S 1", '"S 1"').replace("2,5", '"2,5"').replace(";", ",")})

    def test_tables_in_one_file_under_titles_and_with_empty_rows(self):
        self.is_day({"all.csv": f"Tuesday\n\nTerminals\n{TERMINALS};;\n\nLanes\n{LANES}\n{SHIPMENTS}"})

    def test_a_table_in_two_files(self):
        second = SHIPMENTS.replace("S 1", "S 2").replace("2,5", "1,25")
        done = imported({**TABLES, "more.csv": second})
        self.assertEqual(done.lines[-2:], ["shipment,S_1,Orleans,Lyon,250,510,1020", "shipment,S_2,Orleans,Lyon,125,510,1020"])
        # Money for a unit of size is money for 100 of the program's.
        self.assertEqual(done.lines[2], "arc,Orleans,Lyon,270,3300,480000,15")
        self.assertEqual((done.names["size"], done.names["money"]["decimals"]), ({"decimals": 2, "unit": None}, 3))

    def test_headings(self):
        for table, heads, usual in (
            ("terminals.csv", "Name;Hold", "Niederlassung;Umschlagzeit|Dépôt;Temps de manutention|DEPOT;dwell time|Standort;Haltezeit"),
            (
                "lanes.csv",
                "From;To;Travel time;Capacity;Cost per truck;Cost per unit",
                "Von;Nach;Fahrzeit;Kapazität;Kosten je LKW;Kosten pro Einheit|Origine;Destination;Durée du trajet;Capacité;Coût par camion;Coût unitaire"
                "|Départ;Arrivée;Temps;Capacité camion;Coût / camion;Coût par palette|De;À;durée;capacité;prix camion;prix unitaire"
                "|VON;NACH;FAHRTZEIT;KAPAZITAET;LKW-Kosten (EUR);Stückkosten (EUR)|origin;destination;transit time;truck capacity;truck cost;unit cost",
            ),
            (
                "shipments.csv",
                "Shipment;From;To;Size;Ready;Due",
                "Sendung;Von;Nach;Menge;Bereit ab;Fällig|Sendungs-Nr.;Ladeort;Entladeort;Paletten;Abholung;Lieferung bis"
                "|Envoi;Départ;Arrivée;Palettes;Disponible;Échéance|N° d'envoi;Origine;Destination;Poids;Prêt à;Livraison au plus tard"
                "|Reference;Origin;Destination;Pallets;Release time;Deadline|Nr;Von;Nach;Größe;Verfügbar ab;Spätestens",
            ),
        ):
            for line in usual.split("|"):
                with self.subTest(line):
                    self.is_day(edited(table, heads, line))

    def test_headings_of_the_guide(self):
        """docs/tables.md has each heading that is known, and no other."""
        lines = (TOP / "docs/tables.md").read_text().splitlines()
        told = {}
        for columns, *words in (line.strip("| ").split(" | ") for line in lines if re.match(r"\| [a-z]+\.[a-z_]+", line)):
            for column in columns.split(", "):
                told[tuple(column.split("."))] = {headings.folded(it) for text in words for it in text.split(", ")}
        for table, columns in heading_words.WORDS.items():
            for column, words in columns.items():
                self.assertEqual(told[table, column], {headings.folded(it.strip()) for it in words.split(",")}, (table, column))

    def test_columns_in_another_order_and_more_of_them(self):
        swapped = "Note;Due;Ready;Size;To;From;Shipment\nx;17:00;08:30;2,5;Lyon;Orléans;S 1\n"
        done = self.is_day({**TABLES, "shipments.csv": swapped})
        self.assertIn('(left out)   column A "Note"', done.said)

    def test_a_column_without_a_heading(self):
        done = self.is_day(edited("shipments.csv", SHIPMENTS, SHIPMENTS.replace("Due\n", "Due;\n").replace("17:00\n", "17:00;x\n")))
        self.assertRegex(done.said, r"\(left out\) +column G +it has no heading")

    def test_one_column_of_names_with_commas(self):
        done = imported({**TABLES, "terminals.csv": "Name\nOrléans\nLyon\n\"Nice, port\"\nSète, port\n"})
        self.assertEqual([done.lines[it] for it in (2, 3)], ["terminal,Nice_port", "terminal,Sete_port"], done.said)

    def test_named_columns(self):
        odd = edited("shipments.csv", "Size", "Colis")
        self.is_day(odd, "--columns", "shipments.size=COLIS")
        both = edited("shipments.csv", "Shipment;From;To;Size;Ready;Due\nS 1;", "Weight;Shipment;From;To;Size;Ready;Due\n900;S 1;")
        self.is_day(both, "--columns", "shipments.size=Size")
        done = imported({**odd, "names.txt": "# ours\n\nshipments.size = Colis\n"}, "--columns", "names.txt")
        self.assertEqual(done.status, 1)  # names.txt was given as a table too, which it isn't.
        self.assertEqual(done.faults(), ["names.txt: no row has the headings of terminals, lanes, shipments; name them by --columns, docs/tables.md has the usual ones"])

    def test_without_terminals(self):
        done = imported({name: TABLES[name] for name in ("lanes.csv", "shipments.csv")})
        self.assertEqual(done.lines[:2], ["terminal,Orleans", "terminal,Lyon"])
        self.assertRegex(done.said, "terminals +no table +2, those of the lanes, without hold")

    def test_terminals_without_holds(self):
        for text in ("Name\nOrléans\nLyon\n", "Name;Hold\nOrléans;\nLyon;0 min\n"):
            done = imported({**TABLES, "terminals.csv": text})
            self.assertEqual(done.lines[:2], ["terminal,Orleans", "terminal,Lyon"], done.said)
            self.assertIn("no hold", done.said)

    def test_names(self):
        rows = "".join(f"{name};Orléans;Lyon;1;08:30;17:00\n" for name in ("Été", "Ete", "été", "北京", "a" * 40, "a" * 41, "=1+1", '"x;y"'))
        done = imported({**TABLES, "shipments.csv": SHIPMENTS + rows})
        self.assertEqual([it.split(",")[1] for it in done.lines[3:]], ["S_1", "Ete_2", "Ete", "ete", "shipment", "a" * 32, "a" * 30 + "_2", "1_1", "x_y"])
        self.assertEqual(list(done.names["shipments"].values())[1:5], ["Été", "Ete", "été", "北京"])
        self.assertIn('note: shipments "Été" and "Ete" are two', done.said)
        self.assertIn('note: shipments "Été" and "été" are two', done.said)

    def test_standard_output(self):
        words = [sys.executable, TOP / "tools/import", *(CARRIER / f"{it}.csv" for it in ("terminals", "lanes", "shipments"))]
        done = subprocess.run(words, capture_output=True, text=True, timeout=600)
        self.assertEqual((done.returncode, done.stdout.splitlines()[0]), (0, "terminal,Koln,45"))
        self.assertIn("no file of names is written", done.stderr)
        with open("/dev/full", "wb") as full:
            done = subprocess.run(words, stdout=full, stderr=subprocess.PIPE, text=True, timeout=600)
        self.assertEqual(done.returncode, 2)
        self.assertTrue(done.stderr.endswith("freight import: standard output can't be written: no space left on device\n"), done.stderr)


class Values(unittest.TestCase):
    def test_sizes(self):
        for text, size, decimals in (
            ("2,5", "25", 1), ("2.5", "25", 1), ("12", "12", 0), ("12,00", "12", 0), ("0,125", "125", 3), ("1.234,5", "12345", 1), ("1,234.5", "12345", 1),
            ("1 234,5", "12345", 1), ("1\u202f234,5", "12345", 1), ("1'234.5", "12345", 1), ("1.234.567", "1234567", 0), (",5", "5", 1), ("+3", "3", 0),
        ):  # fmt: skip
            with self.subTest(text):
                done = imported(edited("shipments.csv", "2,5", text))
                self.assertEqual((done.record("shipment")[4], done.names["size"]), (size, {"decimals": decimals, "unit": None}), done.said)

    def test_a_number_that_can_be_read_two_ways(self):
        for more, words, size in (("0,5", (), "1234"), ("0.5", (), "12340"), ("7", ("--decimal", "comma"), "1234"), ("7", ("--decimal", "point"), "1234")):
            with self.subTest(more=more, words=words):
                text = SHIPMENTS.replace("2,5", "1,234") + f"S2;Orléans;Lyon;{more};08:30;17:00\n"
                done = imported({**TABLES, "shipments.csv": text}, *words)
                self.assertEqual(done.record("shipment")[4], size, done.said)
        for more in ("7", "0,5;08:30;17:00\nS3;Orléans;Lyon;0.5"):
            text = SHIPMENTS.replace("2,5", "1,234") + f"S2;Orléans;Lyon;{more};08:30;17:00\n"
            self.assertEqual(
                imported({**TABLES, "shipments.csv": text}).faults(),
                ['shipments.csv, row 2, column "Size", "1,234": can be read as 1.234 and as 1234: say --decimal point or --decimal comma'],
            )

    def test_money(self):
        for text, cost, currency in (
            ("480", "48000", None), ("1 234,50 €", "123450", "EUR"), ("$1,234.50", "123450", "USD"), ("€ 480", "48000", "EUR"), ("480 CHF", "48000", "CHF"),
            ("480,-", None, None), ("EUR 12,34", "1234", "EUR"), ("-5", None, None),
        ):  # fmt: skip
            with self.subTest(text):
                done = imported(edited("lanes.csv", "480", text))
                if cost is None:
                    self.assertEqual((done.status, len(done.faults())), (1, 1))
                    continue
                self.assertEqual((done.record("arc")[5], done.names["money"]), (cost, {"decimals": 2, "currency": currency}), done.said)

    def test_currencies_and_units_of_headings(self):
        files = edited("lanes.csv", "Capacity;Cost per truck;Cost per unit", "Capacity (kg);Cost per truck (EUR);Cost per unit [€]")
        files["shipments.csv"] = SHIPMENTS.replace("Size", "Size (pallets)")
        done = imported(files)
        self.assertEqual((done.lines, done.names["money"]["currency"], done.names["size"]["unit"]), (DAY, "EUR", None))
        self.assertIn('note: headings of sizes and capacities name "kg", "pallets": all of them have to count the same', done.said)
        files["shipments.csv"] = SHIPMENTS
        self.assertEqual(imported(files).names["size"]["unit"], "kg")

    def test_durations(self):
        for text, minutes in (
            ("02:30", 150), ("150 min", 150), ("2.5 h", 150), ("2,5 h", 150), ("2h30", 150), ("2 h 30 min", 150), ("2 Std. 30 Min.", 150), ("02:30:00", 150),
            ("1 Tag", 1440), ("1 j 2 h", 1560), ("30:00", 1800), ("2 heures", 120), ("03:15:00 AM", 195), ("1.250 min", 1250),
        ):  # fmt: skip
            with self.subTest(text):
                done = imported(edited("lanes.csv", "04:30", text), "--decimal", "comma")
                self.assertEqual(done.record("arc")[3], str(minutes), done.said)

    def test_bare_numbers_of_time(self):
        for heading, text, words, minutes in (
            ("Travel time (min)", "150", (), 150), ("Travel time [h]", "2,5", (), 150), ("Travel time in minutes", "150", (), 150),
            ("Durée (h)", "2,5", (), 150), ("Travel time", "2,5", ("--time-unit", "h"), 150), ("Travel time", "150", ("--time-unit", "min"), 150),
        ):  # fmt: skip
            with self.subTest(heading=heading, words=words):
                files = edited("lanes.csv", "Travel time", heading)
                files["lanes.csv"] = files["lanes.csv"].replace("04:30", text)
                self.assertEqual(imported(files, *words).record("arc")[3], str(minutes))

    def test_seconds(self):
        files = edited("lanes.csv", "04:30", "04:30:15")
        files["terminals.csv"] = TERMINALS.replace("00:30", "00:10").replace("45 min", "90 s")
        done = imported(files)
        self.assertEqual((done.record("arc")[3], done.names["time"]["unit_seconds"], done.record("shipment")[5]), ("16215", 1, "30600"))

    def test_clock_times(self):
        for text, minutes in (
            ("20:30", 1230), ("8:30 PM", 1230), ("08:30:00 PM", 1230), ("20h30", 1230), ("20 h 30", 1230), ("20:30 Uhr", 1230), ("9:30", 570), ("12:00 AM", 0),
            ("06:00 +1", 1800), ("06:00+1", 1800), ("30:00", 1800), ("24:00", 1440), ("8 pm", 1200),
        ):  # fmt: skip
            with self.subTest(text):
                done = imported(dated("00:00", text))
                self.assertEqual(done.record("shipment")[5:], ["0", str(minutes)], done.said)
        self.assertEqual(done.names["time"], {"unit_seconds": 60, "zero": None, "zone": None})

    def test_dates(self):
        for ready, due in (
            ("2026-12-30 08:30", "2026-12-31 06:00"), ("2026-12-30T08:30", "2026-12-31T06:00:00"), ("30/12/2026 08:30", "31/12/2026 06:00"),
            ("30.12.2026 08:30", "31.12.2026 06:00"), ("12/30/2026 8:30 AM", "12/31/2026 6:00 AM"), ("30-12-2026 08:30", "30-12-2026 30:00"),
            ("30.12.26 08:30", "31.12.26 06:00"), ("2026/12/30 08:30", "2026/12/31 6h00"), ("30/12/2026 08:30", "30/12/2026 06:00 +1"),
            ("30.12.2026, 08:30", "31.12.2026 06:00 Uhr"),
        ):  # fmt: skip
            with self.subTest(ready):
                done = imported(dated(ready, due))
                self.assertEqual(done.record("shipment")[5:], ["510", "1800"], done.said)
                self.assertEqual(done.names["time"]["zero"], "2026-12-30T00:00:00")

    def test_a_date_that_can_be_read_two_ways(self):
        done = imported(dated("03/04/2026 08:30", "04/04/2026 06:00"))
        self.assertEqual(
            done.faults(),
            ['shipments.csv, row 2, column "Ready", "03/04/2026 08:30": the day or the month can stand first: say --dates day-first or --dates month-first'],
        )
        for words, due in (("day-first", "1800"), ("month-first", "45000")):
            self.assertEqual(imported(dated("03/04/2026 08:30", "04/04/2026 06:00"), "--dates", words).record("shipment")[6], due)
        # Another date of the file shows which it is.
        self.assertEqual(imported(dated("03/04/2026 08:30", "13/04/2026 06:00")).record("shipment")[6], "14760")
        self.assertEqual(imported(dated("04/03/2026 08:30", "04/13/2026 06:00")).record("shipment")[6], "14760")

    @needs_zones
    def test_a_day_with_a_clock_change(self):
        for ready, due, minutes in (
            ("2026-03-29 01:00", "2026-03-29 06:00", ["60", "300"]),
            ("2026-10-25 01:00", "2026-10-25 06:00", ["60", "420"]),
            ("2026-10-25 02:30+02:00", "2026-10-25 02:30 +01:00", ["150", "210"]),
            ("2026-10-25T01:00+02:00", "2026-10-24T23:30:00-03:00", ["60", "270"]),
            ("2026-10-24T23:00:00Z", "2026-10-25 03:00", ["60", "240"]),
        ):
            with self.subTest(ready):
                done = imported(dated(ready, due), "--zone", "Europe/Paris")
                self.assertEqual(done.record("shipment")[5:], minutes, done.said)
                self.assertEqual(done.names["time"]["zone"], "Europe/Paris")
        done = imported(dated("08:30", "30:00"), "--zone", "Europe/Paris", "--day", "2026-10-24")
        self.assertEqual(done.record("shipment")[5:], ["510", "1860"])

    def test_a_day_with_a_clock_change_and_no_zone(self):
        done = imported(dated("2026-10-25 01:00", "2026-10-25 06:00"))
        self.assertEqual(done.record("shipment")[5:], ["60", "360"])
        self.assertIn("note: times are local clock times", done.said)


@needs_openpyxl
class Workbooks(unittest.TestCase):
    def book(self, change=lambda book: None):
        """A workbook with the usual tables as true dates, times and numbers, and a sheet that is none."""
        book = openpyxl.Workbook()
        book.active.title = "notes"
        book.active.append(["nothing of the day"])
        day = datetime.datetime(2026, 12, 30)
        for title, rows in (
            ("terminals", [["Name", "Hold"], ["Orléans", datetime.time(0, 30)], ["Lyon", datetime.time(0, 45)]]),
            ("lanes", [LANES.splitlines()[0].split(";"), ["Orléans", "Lyon", datetime.timedelta(hours=4, minutes=30), 33, 480, 1.5]]),
            ("shipments", [SHIPMENTS.splitlines()[0].split(";"), ["S 1", "Orléans", "Lyon", 2.5, day.replace(hour=8, minute=30), day.replace(hour=17)]]),
        ):
            sheet = book.create_sheet(title)
            for row in rows:
                sheet.append(row)
        change(book)
        file = io.BytesIO()
        book.save(file)
        return {"day.xlsx": file.getvalue()}

    def test_values(self):
        done = imported(self.book())
        self.assertEqual(done.lines, DAY, done.said)
        self.assertEqual(done.names["time"]["zero"], "2026-12-30T00:00:00")
        self.assertRegex(done.said, r"\(left out\) +day.xlsx, sheet notes +no row has the headings of a table")

    def test_hidden_sheets(self):
        def hide(book):
            book.copy_worksheet(book["shipments"]).sheet_state = "hidden"

        done = imported(self.book(hide))
        self.assertEqual(done.lines, DAY)
        self.assertRegex(done.said, r"\(left out\) +day.xlsx, sheet shipments Copy +a hidden sheet")

    def test_a_sum_of_numbers_has_no_more_decimals_than_are_shown(self):
        done = imported(self.changed("D2", 0.1 + 0.2))
        self.assertEqual((done.record("shipment")[4], done.names["size"]["decimals"]), ("3", 1))

    def changed(self, place, value):
        """The workbook with another value in a cell of the shipments."""

        def change(book):
            book["shipments"][place].number_format = "yyyy-mm-dd" if type(value) is datetime.date else "General"
            book["shipments"][place].value = value

        return self.book(change)

    def test_faults(self):
        for place, value, said in (
            ("D2", "#N/A", 'column "Size", "#N/A": not a number'),
            ("D2", True, 'column "Size", "True": not a number'),
            ("D2", datetime.datetime(2026, 1, 1, 3), 'column "Size", "2026-01-01 03:00:00": not a number'),
            ("F2", datetime.date(2026, 12, 31), 'column "Due", "2026-12-31": a day without a clock time: add one, as 08:30 (24:00 is its end)'),
            ("F2", 46387.5, 'column "Due", "46387.5": a number without a unit: write a clock time as 08:30, or say --time-unit min where it counts minutes from midnight'),
        ):
            with self.subTest(said):
                done = imported(self.changed(place, value))
                self.assertEqual(done.faults(), [f"day.xlsx, sheet shipments, row 2, {said}"], done.said)


if __name__ == "__main__":
    unittest.main()
