"""What `export` writes of an answer, and each fault that it finds in its files and words."""

import csv
import datetime
import io
import json
import pathlib
import subprocess
import sys
import tempfile
import unittest
import unittest.mock

sys.dont_write_bytecode = True
sys.path.insert(0, str(pathlib.Path(__file__).resolve().parent))
from carrier_tables import TOP, exported, needs_openpyxl, needs_zones, openpyxl  # noqa: E402
from schemas import answer_faults  # noqa: E402

ANSWER = "answer,unfinished,48375,48000,rounds\nleg,S_1,Orleans,Lyon,510,780\ntruck,Orleans,Lyon,510,1,25\npoint,Lyon,3,1\nend\n"
INSTANCE = "terminal,Orleans,30\nterminal,Lyon,45\narc,Orleans,Lyon,270,330,48000,15\nshipment,S_1,Orleans,Lyon,25,510,1020\n"
NAMES = {
    "format": "freight names 1",
    "time": {"unit_seconds": 60, "zero": "2026-12-30T00:00:00", "zone": None},
    "size": {"decimals": 1},
    "money": {"decimals": 2, "currency": "EUR"},
    "text": {"separator": ";", "decimal": ","},
    "terminals": {"Orleans": "Orléans", "Lyon": "Lyon"},
    "shipments": {"S_1": "S 1"},
}
# Two trucks leave together, and go on by two ways; one of them meets a third.
MEETING = (
    "answer,direct,9\nleg,S1,A,B,0,4\nleg,S2,A,B,0,4\nleg,S1,B,C,4,9\nleg,S2,B,A,5,7\nleg,S3,C,B,9,12\n"
    "truck,A,B,0,2,8\ntruck,B,C,4,1,4\ntruck,B,A,5,1,4\ntruck,C,B,9,2,8\nend\n"
)
FLEET = "fleet,3\nneed,A,2,0\nneed,C,1,9\nstart,A,B,0,2\nstart,C,B,9,1\nturn,A,B,0,C,4,1\nturn,A,B,0,A,5,1\nturn,B,C,4,B,9,1\nend\n"
LETTERS = {**NAMES, "terminals": {it: f"Hub {it}" for it in "ABC"}, "shipments": {it: it for it in ("S1", "S2", "S3")}}


def files(answer=ANSWER, names=NAMES, **more):
    return {"answer.csv": answer, "day.names.json": json.dumps(names), "instance.csv": INSTANCE, **more}


def export(*words, **more):
    """What is written, with the instance where no word leaves it out."""
    ending = words[words.index("--to") + 1]
    return exported(files(**more), "answer.csv", "--names", "day.names.json", *words, "-o", f"out.{ending}")


def table(done):
    """The rows of a CSV that was written."""
    text = done.files["out.csv"].decode("utf-8-sig")
    return list(csv.reader(io.StringIO(text, newline=""), delimiter=";"))


class Tables(unittest.TestCase):
    def test_by_terminal(self):
        done = export("--instance", "instance.csv", "--by", "terminal", "--to", "csv")
        self.assertEqual((done.status, done.said), (0, ""))
        self.assertEqual(
            table(done),
            [
                ["Terminal", "Time", "Event", "Other terminal", "Trucks", "Load", "Capacity", "Shipments"],
                ["Orléans", "2026-12-30 08:30", "departs", "Lyon", "1", "2,5", "33,0", "S 1"],
                ["Lyon", "2026-12-30 13:00", "arrives", "Orléans", "1", "2,5", "33,0", "S 1"],
            ],
        )

    def test_by_shipment(self):
        head = ["Shipment", "Leg", "From", "Departs", "To", "Arrives", "Size", "Ready", "Due", "Slack"]
        leg = ["S 1", "1", "Orléans", "2026-12-30 08:30", "Lyon", "2026-12-30 13:00"]
        for words, more in ((("--instance", "instance.csv"), ["2,5", "2026-12-30 08:30", "2026-12-30 17:00", "04:00"]), ((), [""] * 4)):
            self.assertEqual(table(export(*words, "--by", "shipment", "--to", "csv")), [head, leg + more])

    def test_by_departure(self):
        head = ["From", "To", "Departs", "Arrives", "Trucks", "Load", "Capacity", "Use in percent", "Shipments"]
        line = ["Orléans", "Lyon", "2026-12-30 08:30", "2026-12-30 13:00", "1", "2,5"]
        for words, more in ((("--instance", "instance.csv"), ["33,0", "7", "S 1"]), ((), ["", "", "S 1"])):
            self.assertEqual(table(export(*words, "--by", "truck", "--to", "csv")), [head, line + more])

    def test_by_truck(self):
        done = export("--fleet", "fleet.csv", "--by", "truck", "--to", "csv", answer=MEETING, names=LETTERS, **{"fleet.csv": FLEET})
        day = "2026-12-30 00:"
        self.assertEqual(
            table(done)[1:],
            [
                ["1", "1", "Hub A", f"{day}00", "Hub B", f"{day}04", "2", "0,8", "S1 + S2"],
                ["1", "2", "Hub B", f"{day}04", "Hub C", f"{day}09", "1", "0,4", "S1"],
                ["1", "3", "Hub C", f"{day}09", "Hub B", f"{day}12", "2", "0,8", "S3"],
                ["2", "1", "Hub A", f"{day}00", "Hub B", f"{day}04", "2", "0,8", "S1 + S2"],
                ["2", "2", "Hub B", f"{day}05", "Hub A", f"{day}07", "1", "0,4", "S2"],
                ["3", "1", "Hub C", f"{day}09", "Hub B", f"{day}12", "2", "0,8", "S3"],
            ],
        )

    def test_times(self):
        for time, departs, arrives in (
            ({"unit_seconds": 60, "zero": None, "zone": None}, "08:30", "13:00"),
            ({"unit_seconds": 360, "zero": None, "zone": None}, "03:00 +2", "06:00 +3"),
            ({"unit_seconds": 1, "zero": None, "zone": None}, "00:08:30", "00:13"),
        ):
            self.is_shown(time, departs, arrives)

    @needs_zones
    def test_times_in_a_zone(self):
        for seconds, day, departs, arrives in (
            (60, "2026-03-29", "2026-03-29 09:30", "2026-03-29 14:00"),
            (20, "2026-10-25", "2026-10-25T02:50:00+02:00", "2026-10-25 03:20"),
        ):
            self.is_shown({"unit_seconds": seconds, "zero": f"{day}T00:00:00", "zone": "Europe/Paris"}, departs, arrives)

    def is_shown(self, time, departs, arrives):
        with self.subTest(time):
            row = table(export("--by", "shipment", "--to", "csv", names={**NAMES, "time": time}))[1]
            self.assertEqual((row[3], row[5]), (departs, arrives))

    def test_rows_as_json(self):
        done = export("--by", "shipment", "--to", "json")
        rows = json.loads(done.files["out.json"])
        self.assertEqual((len(rows), rows[0]["Shipment"], rows[0]["Departs"], rows[0]["Size"]), (1, "S 1", "2026-12-30T08:30:00", None))

    def test_standard_output(self):
        with tempfile.TemporaryDirectory() as folder:
            names = pathlib.Path(folder, "names.json")
            names.write_text(json.dumps(NAMES))
            words = [sys.executable, TOP / "tools/export", "/dev/stdin", "--names", names, "--by", "truck", "--to", "csv"]
            done = subprocess.run(words, input=ANSWER.encode(), capture_output=True, timeout=600)
        self.assertEqual((done.returncode, done.stderr, done.stdout[:8]), (0, b"", b"\xef\xbb\xbfFrom;"))


class Json(unittest.TestCase):
    def whole(self, answer, *words, **more):
        done = export(*words, "--to", "json", answer=answer, **more)
        self.assertEqual((done.status, done.said), (0, ""))
        value = json.loads(done.files["out.json"])
        self.assertEqual(answer_faults(value), [])
        return value

    def test_a_timetable(self):
        trip = {"from": "Orléans", "to": "Lyon", "departs": "2026-12-30T08:30:00", "arrives": "2026-12-30T13:00:00"}
        self.assertEqual(
            self.whole(ANSWER, "--instance", "instance.csv"),
            {
                "format": "freight answer 1", "answer": "unfinished", "cost": "483.75", "bound": "480.00", "gap": "3.75", "gap_percent": "0.8",
                "spent": "rounds", "currency": "EUR", "zero": "2026-12-30T00:00:00", "zone": None, "legs": [{"shipment": "S 1", **trip}],
                "trucks": [{**trip, "trucks": 1, "load": "2.5", "capacity": "33.0", "shipments": ["S 1"]}],
            },
        )  # fmt: skip

    def test_first_lines(self):
        rest = ANSWER.partition("\n")[2]
        for line, wanted in (
            (f"answer,optimal,48375\n{rest}", {"answer": "optimal", "cost": "483.75", "bound": "483.75", "gap": "0.00", "gap_percent": "0.0"}),
            (f"answer,direct,48375\n{rest}", {"answer": "direct", "cost": "483.75", "bound": None, "gap": None, "spent": None}),
            ("answer,infeasible,S_1,510\nend\n", {"answer": "infeasible", "shipment": "S 1", "fastest": "08:30"}),
            ("answer,infeasible,S_1,none\nend\n", {"shipment": "S 1", "fastest": None}),
            ("answer,stuck,S_1\nend\n", {"answer": "stuck", "shipment": "S 1"}),
            ("answer,bound,100\nend\n", {"answer": "bound", "bound": "1.00"}),
            ("quote,S_1,100,250\nend\n", {"answer": "quote", "shipment": "S 1", "least": "1.00", "most": "2.50"}),
            ("quote,S_1,100,250,200,before\nend\n", {"answer": "quote", "least": "1.00", "most": "2.50", "added": "2.00", "unproved": "before"}),
        ):
            with self.subTest(line):
                value = self.whole(line)
                self.assertEqual({**value, **wanted}, value)

    def test_clock_times(self):
        value = self.whole(ANSWER, names={**NAMES, "time": {"unit_seconds": 180, "zero": None, "zone": None}})
        self.assertEqual((value["zero"], value["legs"][0]["departs"]), (None, "01:30 +1"))

    @needs_zones
    def test_zones(self):
        time = {"unit_seconds": 60, "zero": "2026-10-25T00:00:00", "zone": "Europe/Paris"}
        value = self.whole(ANSWER, names={**NAMES, "time": time})
        self.assertEqual((value["zero"], value["legs"][0]["departs"]), ("2026-10-25T00:00:00+02:00", "2026-10-25T07:30:00+01:00"))

    def test_rosters(self):
        value = self.whole(MEETING, "--fleet", "fleet.csv", names=LETTERS, **{"fleet.csv": FLEET})
        self.assertEqual([(it["truck"], len(it["trips"])) for it in value["rosters"]], [(1, 3), (2, 2), (3, 1)])

    def test_the_schema_refuses(self):
        value = self.whole(ANSWER)
        for change in ({"cost": 483.75}, {"answer": "bound", "cost": "1,5"}, {"more": 1}, {"zero": "noon"}, {"legs": [{}]}, {"answer": "quote"}):
            self.assertTrue(answer_faults({**value, **change}), change)


class Faults(unittest.TestCase):
    def says(self, said, *words, **more):
        done = export(*(words or ("--by", "truck", "--to", "csv")), **more)
        self.assertEqual((done.status, done.said), (1, f"freight export: {said}\n"))
        self.assertFalse(set(done.files) & {"out.csv", "out.json"})

    def test_answers(self):
        for answer, said in (
            ("", 'answer.csv has no line answer or quote, so it is no such answer of the program: it begins with "nothing"'),
            ("refused,3,7\n", 'answer.csv has no line answer or quote, so it is no such answer of the program: it begins with "refused,3,7"'),
            ("rejected,7\n", 'answer.csv has no line answer or quote, so it is no such answer of the program: it begins with "rejected,7"'),
            (INSTANCE, 'answer.csv has no line answer or quote, so it is no such answer of the program: it begins with "terminal,Orleans,30"'),
            ("answer,wrong,3\nend\n", 'answer.csv, line 1: no answer begins so: "answer,wrong"'),
            ("answer\nend\n", 'answer.csv, line 1: no answer begins so: "answer"'),
            ("answer,optimal,x\nend\n", 'answer.csv, line 1: field COST is "x": not what stands there'),
            ("answer,optimal\nend\n", "answer.csv, line 1: 2 fields in place of 3: answer,optimal,COST"),
            (ANSWER.replace("48000", "48376"), "answer.csv, line 1: its bound is above its cost"),
            (ANSWER.replace("end\n", ""), "answer.csv has no line end after its answer: it was cut, or something stands after it"),
            (ANSWER.replace("leg,S_1", "leg,S_9"), 'answer.csv, line 2: field SHIPMENT is "S_9": no shipment of the file of names'),
            (ANSWER.replace("leg,S_1,Orleans", "leg,S_1,Oslo"), 'answer.csv, line 2: field FROM is "Oslo": no terminal of the file of names'),
            (ANSWER.replace(",780", ",100001"), 'answer.csv, line 2: field ARRIVE is "100001": not what stands there'),
            (ANSWER.replace("Lyon,510,1", "Lyon,511,1"), "answer.csv, line 3: no leg leaves by this truck line"),
            ("answer,infeasible,S_1,510\nend\n", "answer.csv has no timetable: its answer is infeasible; --to json without --by tells it"),
            ("answer,optimal," + 5000 * "9" + "\nend\n", f'answer.csv, line 1: field COST is "{40 * "9"}..": not what stands there'),
        ):
            with self.subTest(said):
                self.says(said, answer=answer)

    def test_instances(self):
        words = ("--instance", "instance.csv", "--by", "truck", "--to", "csv")
        for instance, said in (
            (ANSWER, "answer.csv isn't of this instance: it has no S_1, or no arc from Orleans to Lyon"),
            (INSTANCE.replace("arc,Orleans,Lyon", "arc,Lyon,Orleans"), "answer.csv isn't of this instance: it has no S_1, or no arc from Orleans to Lyon"),
            (INSTANCE.replace("terminal,Lyon", "terminal,Nice"), 'instance.csv, line 2: field NAME is "Nice": no terminal of the file of names'),
            (INSTANCE.replace(",270", ",soon"), 'instance.csv, line 3: field TIME is "soon": not what stands there'),
            (INSTANCE.replace(",15\n", "\n"), "instance.csv, line 3: 6 fields in place of 7: arc,FROM,TO,TIME,CAPACITY,TRUCK,FREIGHT"),
            ("Name;Hold\n", 'instance.csv, line 1: it is no line of an instance: "Name;Hold"'),
        ):
            with self.subTest(said):
                self.says(said, *words, **{"instance.csv": instance})

    def test_fleets(self):
        words = ("--fleet", "fleet.csv", "--by", "truck", "--to", "csv")
        for fleet, said in (
            ("rejected,2\n", 'fleet.csv: fleet found no plan ("rejected,2"): there are no trucks to show'),
            (FLEET.replace("start,A,B,0,2", "start,A,B,0,1"), "fleet.csv: the line from A to B at 0 gets 1 truck, and takes 2: this is the fleet of another timetable"),
            (FLEET.replace("end", "turn,C,B,9,A,20,1\nend"), "fleet.csv: line 9: the answer has no truck line from B to A at 20: this is the fleet of another timetable"),
            (FLEET.replace("start,C,B,9,1", "start,C,B,9,20000"), 'fleet.csv: line 5: field COUNT is "20000": it has to be 0 to 10,000'),
        ):
            with self.subTest(said):
                self.says(said, *words, answer=MEETING, names=LETTERS, **{"fleet.csv": fleet})

    def test_files_of_names(self):
        for text, said in (
            ("", "Expecting value: line 1 column 1 (char 0)"),
            ("\xff", "Expecting value: line 1 column 1 (char 0)"),
            ("[]", "list indices must be integers or slices, not str"),
            ("{}", None),
            (json.dumps({**NAMES, "format": "other"}), "its format isn't 'freight names 1'"),
            (json.dumps({**NAMES, "size": {"decimals": "1"}}), "a field is of another kind"),
            (json.dumps({**NAMES, "time": {"unit_seconds": 0, "zero": None, "zone": None}}), "a unit is out of range"),
            (json.dumps({**NAMES, "text": {"separator": ";", "decimal": ";"}}), "the separator or the decimal mark is none"),
            (json.dumps({**NAMES, "time": {"unit_seconds": 60, "zero": "2026-12-30T08:00:00", "zone": None}}), "the zero of time isn't a midnight, as 2026-12-31T00:00:00"),
        ):
            with self.subTest(said):
                done = exported({**files(), "day.names.json": text}, "answer.csv", "--names", "day.names.json", "--by", "truck", "--to", "csv")
                wanted = f" as import writes it: {said}\n" if said else " as import writes it: it has no 'format'\n"
                self.assertEqual((done.status, done.said), (1, f"freight export: day.names.json: it isn't a file of names{wanted}"))

    @needs_zones
    def test_zones(self):
        zone = {**NAMES, "time": {**NAMES["time"], "zone": "Nowhere"}}
        self.says('day.names.json: no zone is called "Nowhere"; one is Europe/Paris', names=zone)

    def test_a_workbook_without_openpyxl(self):
        with unittest.mock.patch.dict(sys.modules, {"openpyxl": None}):
            self.says("openpyxl isn't installed, which reads and writes .xlsx: install it (`apt install python3-openpyxl`), or use CSV", "--to", "xlsx")

    def test_words(self):
        for words, said in (
            (("a.csv",), "the following arguments are required: --names; docs/tables.md has them all"),
            (("a.csv", "--names", "n"), "which form? say --to, one of csv, json, xlsx"),
            (("a.csv", "--names", "n", "--to", "csv"), "CSV holds one timetable: say --by, one of terminal, shipment, truck"),
            (("a.csv", "--names", "n", "--to", "xlsx"), "a workbook goes to a file: say -o FILE.xlsx"),
            (("one-arc.csv", "--names", "n", "--by", "truck", "-o", "one-arc.csv"), "one-arc.csv is one of the files to read, and would be written over"),
            (("a.csv", "--names", "n", "--to", "json"), "n can't be read: no such file or directory"),
            (("a.csv", "--names", "n", "--by", "day", "--to", "csv"), None),
        ):
            with self.subTest(said):
                done = subprocess.run([sys.executable, TOP / "tools/export", *words], capture_output=True, text=True, cwd=TOP / "examples", timeout=600)
                self.assertEqual((done.returncode, done.stdout), (2, ""))
                self.assertEqual(done.stderr, f"freight export: {said}\n" if said else done.stderr)
                self.assertTrue(done.stderr.startswith("freight export: ") and done.stderr.count("\n") == 1)


@needs_openpyxl
class Workbooks(unittest.TestCase):
    def test_three_sheets_with_dates_and_numbers(self):
        done = export("--instance", "instance.csv", "--to", "xlsx", names={**NAMES, "shipments": {"S_1": "=1+1"}})
        book = openpyxl.load_workbook(io.BytesIO(done.files["out.xlsx"]))
        self.assertEqual(book.sheetnames, ["by terminal", "by shipment", "by truck"])
        row = [it.value for it in book["by shipment"][2]]
        self.assertEqual(row[:6], ["=1+1", 1, "Orléans", datetime.datetime(2026, 12, 30, 8, 30), "Lyon", datetime.datetime(2026, 12, 30, 13)])
        self.assertEqual((row[6], row[9], book["by shipment"]["A2"].data_type), (2.5, "04:00", "s"))

    def is_text(self, time, text):
        done = export("--by", "shipment", "--to", "xlsx", names={**NAMES, "time": time})
        self.assertEqual(openpyxl.load_workbook(io.BytesIO(done.files["out.xlsx"]))["by shipment"]["D2"].value, text)

    def test_times_without_dates_are_text(self):
        self.is_text({"unit_seconds": 60, "zero": None, "zone": None}, "08:30")

    @needs_zones
    def test_times_that_come_twice_are_text(self):
        self.is_text({"unit_seconds": 20, "zero": "2026-10-25T00:00:00", "zone": "Europe/Paris"}, "2026-10-25T02:50:00+02:00")


if __name__ == "__main__":
    unittest.main()
