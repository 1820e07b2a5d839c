"""What tools/picture says where its words or its files have a fault: one sentence, a status, and no page."""

import contextlib
import io
import os
import pathlib
import subprocess
import sys
import tempfile
import unittest

sys.dont_write_bytecode = True
TOP = pathlib.Path(__file__).resolve().parents[2]
sys.path.insert(0, str(TOP / "tools"))

from freight_text.names_files import NamesFile  # noqa: E402
from freight_text.page.command import main  # noqa: E402

DAY = (TOP / "examples/carrier-day.csv").read_bytes()
PLAN = (TOP / "examples/carrier-day.csv.plan.stdout").read_bytes()
HUB = (TOP / "examples/hub-proof.csv").read_bytes()
NAMES = NamesFile({"LYON": "Lyon é"}, {}, 60, None, None, 0, None, 0, None, ";", ",")
FLEET = b"fleet,3\nstart,DEPOT,PORT,0,2\nstart,HUB,PORT,40,1\nend\n"


def said(folder, files, words):
    """What picture ends with, the bytes of its page, and its lines on standard error. `files` are written into a folder first."""
    for name, data in files.items():
        pathlib.Path(folder, name).write_bytes(data)
    shown, lines, before = io.TextIOWrapper(io.BytesIO(), encoding="utf-8"), io.StringIO(), os.getcwd()
    os.chdir(folder)
    try:
        with contextlib.redirect_stdout(shown), contextlib.redirect_stderr(lines):
            status = main(words)
    except SystemExit as end:
        status = end.code
    finally:
        os.chdir(before)
    shown.flush()
    return status, shown.buffer.getvalue(), lines.getvalue().splitlines()


class Faults(unittest.TestCase):
    def expect(self, files, words, status, start, part):
        with self.subTest(part=part), tempfile.TemporaryDirectory() as folder:
            ended, shown, lines = said(folder, files, words)
            self.assertEqual((ended, shown, len(lines)), (status, b"", 1), lines)
            self.assertTrue(lines[0].startswith(f"freight picture: {start}"), lines)
            self.assertIn(part, lines[0])

    def test_words(self):
        for words, part in (
            ([], "the following arguments are required: INSTANCE, ANSWER"),
            (["i"], "required: ANSWER"),
            (["i", "a", "c", "more"], "unrecognized arguments: more"),
            (["i", "a", "--flet", "f"], "unrecognized arguments: --flet"),
            (["i", "a", "--fleet"], "expected one argument"),
            (["i", "a", "--zero", "noon"], "--zero: 'noon' is no moment, as 2026-03-02T00:00"),
            (["i", "a", "--unit", "1day"], "--unit: '1day' is no unit of time"),
        ):
            self.expect({}, words, 20, "", part)

    def test_files_that_cannot_be_read(self):
        files = {"i": DAY, "a": PLAN}
        for words, name in (
            (["none", "a"], "none"),
            (["i", "none"], "none"),
            (["i", "."], "."),
            (["i", "a", "none"], "none"),
            (["i", "a", "--fleet", "none"], "none"),
            (["i", "a", "--names", "none"], "none"),
        ):
            self.expect(files, words, 30, f"{name}: ", "directory")

    def test_instances(self):
        for data, part in (
            (b"", "it's empty: an instance is wanted"),
            (b"\n , ,\n", "it's empty"),
            (PLAN, "it's an answer: hand on the instance first"),
            (b"name;from\n", "the fields look separated by semicolons"),
            (DAY.decode().encode("utf-16"), "looks like UTF-16"),
            (b"\x7fELF\x02\x01\x01\x00\x00", "line 1: the first field is"),
            (DAY + b"arc,NICE\n", "line 12: 2 fields, and a record of this kind has 7"),
            (DAY + b"shipment,P5,NICE,PARIS,many,0,900\n", 'field SIZE is "many": not whole digits'),
            (DAY + b"shipment,P5,NICE,PARIS,0,0,900\n", 'field SIZE is "0": it has to be 1 to'),
            (DAY + b"shipment,P5,NICE,METZ,1,0,900\n", 'field TO is "METZ": no terminal before this record'),
            (DAY + b"terminal,\xc3\x89VRY\n", "a name is 1 to 32 ASCII letters"),
            (DAY + b"shipment,P5,NICE,PARIS," + b"9" * 9999 + b",0,900\n", "line 12: a field has more than 1,000 bytes"),
        ):
            self.expect({"i": data, "a": PLAN}, ["i", "a"], 21, "i: ", part)

    def test_answers(self):
        cut = PLAN.rsplit(b"end", 1)[0]
        for data, part in (
            (b"", "it's empty: the program printed no answer"),
            (DAY, "no line begins with answer"),
            (b"refused,3,4\n", 'the program refused its input ("refused,3,4")'),
            (b"answer,bound,100\nend\n", "a number without a timetable"),
            (b"quote,P4,50220,50220\nend\n", "a price without a timetable"),
            (b"trial,7,8,24,30\nanswer,optimal,5\nchecked\n", "the line \"end\" is missing"),
            (b"answer,best,1\nend\n", 'the second field is "best"'),
            (b"answer\nend\n", "none of direct, optimal"),
            (b"answer,optimal\nend\n", "2 fields in place of 3"),
            (b"answer,unfinished,5,x,rounds\nend\n", 'field BOUND is "x"'),
            (b"answer,infeasible,P9,100\nend\n", "no shipment has this name"),
            (cut, "the line \"end\" is missing: the answer was cut"),
            (PLAN.replace(b"leg,P3,LYON,PARIS,540,820", b"leg,P9,LYON,PARIS,540,820"), 'field SHIPMENT is "P9"'),
            (PLAN.replace(b"leg,P3,LYON,PARIS,540,820", b"leg,P3,PARIS,LYON,540,820"), 'no arc leads from "PARIS" to "LYON"'),
            (PLAN.replace(b"leg,P3,LYON,PARIS,540,820", b"leg,P3,LYON,PARIS,541,821"), "no truck line leaves LYON for PARIS at 541"),
            (PLAN.replace(b"leg,P3,LYON,PARIS,540,820", b"leg,P3,LYON,PARIS,-540,820"), 'field DEPART is "-540"'),
            (PLAN.replace(b"truck,NICE,LYON,900,1,18", b"truck,NICE,LYON,900,1"), "line 11: 5 fields in place of 6"),
            (PLAN.replace(b"leg,P2,LYON,PARIS,1200,1480\n", b""), "no leg carries P2"),
            (HUB, "no shipment has this name"),
        ):
            self.expect({"i": DAY, "a": data}, ["i", "a"], 21, "a: ", part)

    def test_what_check_said(self):
        for data, part in (
            (b"", "one line that begins with accepted, rejected or refused"),
            (b"accepted,optimal\naccepted,optimal\n", "one line"),
            (DAY, "it isn't what check prints"),
            (b"accepted,direct\n", 'it accepts an answer of the kind "direct", and the answer shown is of the kind optimal'),
            (b"\xff\xfe\x00", "it isn't what check prints"),
        ):
            self.expect({"i": DAY, "a": PLAN, "c": data}, ["i", "a", "c"], 21, "c: ", part)

    def test_fleets(self):
        for data, part in (
            (b"", "it's empty"),
            (b"rejected,1\n", 'fleet found no plan ("rejected,1")'),
            (HUB, "what fleet prints begins with fleet"),
            (FLEET.replace(b"end\n", b""), "the file was cut"),
            (FLEET.replace(b"PORT,0,2", b"PORT,7,2"), "no truck line from DEPOT to PORT at 7: this is the fleet of another timetable"),
            (FLEET.replace(b"PORT,0,2", b"PORT,0"), "line 2: 4 fields in place of 5"),
            (FLEET.replace(b"PORT,0,2", b"PORT,0,two"), 'field COUNT is "two"'),
            (FLEET.replace(b"end", b"turn,DEPOT,PORT,0,HUB,40,1\nend"), "no truck line from PORT to HUB at 40"),
            (FLEET.replace(b"PORT,0,2", b"PORT,0,3"), "the line from DEPOT to PORT at 0 gets 3 trucks, and takes 2"),
            (FLEET.replace(b"PORT,0,2", b"PORT,0,10001"), "it has to be 0 to 10,000"),
            (FLEET.replace(b"PORT,0,2", b"PORT,0,10000"), "it has 10,001 trucks, and up to 10,000 are shown one by one"),
            (b"fleet,0\nend\n", "the line from DEPOT to PORT at 0 gets 0 trucks, and takes 2"),
        ):
            self.expect({"h": HUB, "f": data}, ["h", "h", "--fleet", "f"], 21, "f: ", part)

    def test_names(self):
        other = "it isn't a file of names as import writes it: "
        for data, part in ((b"", other), (b"\xff\xfe{", other), (b"[" * 100_000, other), (b"[1]", other), (b'{"terminals": {}}', f"{other}it has no 'format'")):
            self.expect({"h": HUB, "n": data}, ["h", "h", "--names", "n"], 21, "n: ", part)

    def test_clocks(self):
        self.expect({"h": HUB}, ["h", "h", "--zero", "2026-03-02", "--unit", "100000000h"], 21, "the words: ", "out of the calendar")

    def test_the_command_itself(self):
        with tempfile.TemporaryDirectory() as folder:
            pathlib.Path(folder, "h").write_bytes(HUB)
            for words, status, start in ((["h", "h"], 0, b"<!doctype html>"), (["h"], 20, b""), (["h", "none"], 30, b"")):
                done = subprocess.run([sys.executable, TOP / "tools/picture", *words], cwd=folder, capture_output=True, timeout=600)
                self.assertEqual((done.returncode, done.stdout[: len(start)], len(done.stderr.splitlines())), (status, start, int(status != 0)))

    def test_a_write_that_fails(self):
        if not pathlib.Path("/dev/full").exists():
            self.skipTest("this system has no /dev/full")
        with tempfile.TemporaryDirectory() as folder, open("/dev/full", "wb") as full:
            pathlib.Path(folder, "h").write_bytes(HUB)
            done = subprocess.run([sys.executable, TOP / "tools/picture", "h", "h"], cwd=folder, stdout=full, stderr=subprocess.PIPE, timeout=600)
        self.assertEqual((done.returncode, done.stderr.decode().splitlines()), (31, ["freight picture: the page wasn't written whole: No space left on device"]))

    def test_files_without_a_fault(self):
        files = {"i": b"\xef\xbb\xbf" + DAY, "a": PLAN, "c": b"accepted,optimal\r\n", "n": b"\xef\xbb\xbf" + NAMES.text().encode()}
        with tempfile.TemporaryDirectory() as folder:
            ended, shown, lines = said(folder, files, ["i", "a", "c", "--names", "n", "--zero", "2026-03-02"])
            self.assertEqual((ended, lines), (0, []))
            self.assertIn("Lyon é", shown.decode())
            ended, shown, lines = said(folder, {}, ["--help"])
            self.assertEqual((ended, lines), (0, []))
            self.assertIn(b"--fleet FILE", shown)


if __name__ == "__main__":
    unittest.main()
