"""What ./freight adds to the program: help, files that are read, answers that are kept whole, and statuses of its own."""

import pathlib
import signal
import stat
import subprocess
import sys
import time
import unittest

sys.dont_write_bytecode = True
HERE = pathlib.Path(__file__).resolve().parent
sys.path[:0] = [str(HERE), str(HERE.parent)]
from freight_words.description import COMMANDS  # noqa: E402
from programs import TOP, proved  # noqa: E402
from repository import INSTANCE, TIMETABLE, UNFINISHED, InRepository  # noqa: E402

ANSWER = "answer,shipped,104\n"
USAGE = (TOP / "tools/usage.txt").read_text()


class Pages(InRepository):
    """Help and the version, on standard output, with the status 0 and without a word beside them."""

    def prints(self, words, text, **more):
        done = self.repository.run(words, stdin=subprocess.DEVNULL, **more)
        self.assertEqual((done.returncode, done.stdout.decode(), done.stderr), (0, text, b""), words)

    def test_usage(self):
        for words in ("help", "--help", "-h", "help help", "help --help"):
            self.prints(words, USAGE)
        self.prints("help", USAGE, quiet=True)

    def test_the_page_of_each_command(self):
        for name in (it.name for it in COMMANDS if it.name != "help"):
            (self.top / "tools" / name).unlink(missing_ok=True)
            for words in (f"{name} --help", f"help {name}"):
                self.prints(words, (TOP / f"tools/launcher/help/{name}.txt").read_text())
        self.prints("plan --rounds 5 day.csv -h", (TOP / "tools/launcher/help/plan.txt").read_text())

    def test_help_needs_no_program(self):
        self.repository.forget()
        self.prints("help", USAGE)
        self.prints("--version", "freight 0.2, no proved program of these sources is here\n")
        self.assertEqual(self.repository.lines("builds"), [])

    def test_the_version(self):
        front = self.repository.checksum(self.repository.shipped)[:12]
        self.prints("--version", f"freight 0.2, program {front}\n")
        self.repository.record(self.repository.shipped, kit=True)
        self.prints("--version", f"freight 0.2, program {front}, kit-of-tests\n")


class Places(InRepository):
    def test_symlinks_and_other_folders(self):
        self.write("away/day.csv", INSTANCE)
        (self.top / "away/link").symlink_to(self.top / "freight")
        (self.top / "away/folder with blanks").symlink_to(self.top)
        for start in ("./link", "./folder with blanks/freight", f"{self.top}/away/link", "../freight"):
            self.ends((0, ANSWER), "direct day.csv", start=start, cwd=self.top / "away")
        self.ends((0, ANSWER), "direct day.csv", start="link", cwd=self.top / "away", names={"PATH": f"{self.top}/away:/usr/bin:/bin"})
        self.assertEqual(self.repository.lines("builds"), [])


# The contents of a, b and c, the files that are named, and what the program reads of them; b is standard input too.
JOINED = (
    ((b"one\n", b"two\n"), "a b", b"one\ntwo\n"),
    ((b"one", b"two"), "a b", b"one\ntwo"),
    ((b"one\r\n", b"two\r\n"), "a b", b"one\r\ntwo\r\n"),
    ((b"", b"two"), "a b", b"two"),
    ((b"one", b"", b"three"), "a b c", b"one\nthree"),
    ((b"o\0e\0", b"\xff"), "a b", b"o\0e\0\n\xff"),
    ((b"one", b"two"), "b a", b"two\none"),
    ((b"one", b"two", b"three"), "a - c", b"one\ntwo\nthree"),
    ((b"one", b"two"), "-", b"two"),
    ((b"one", b"two"), "", b"two"),
)

# A file that can't be read, and what is said of it.
UNREAD = (("gone.csv", "gone.csv isn't here"), (".", ". is a folder"), ("away/gone.csv", "isn't here"))


class Files(InRepository):
    def test_files_are_joined(self):
        for data, names, read in JOINED:
            for name, content in zip("abc", data):
                self.write(name, content)
            self.repository.run(f"direct --allow-empty {names}", input=data[1] if len(data) > 1 else b"", cwd=self.top)
            self.assertEqual((self.top / "read").read_bytes(), read, names)

    def test_names_with_blanks(self):
        name = self.write("a day - copy.csv", INSTANCE)
        self.ends((0, ANSWER), ["direct", name], stdin=subprocess.DEVNULL)

    def test_files_that_cannot_be_read(self):
        self.write("day.csv", INSTANCE)
        for name, said in UNREAD:
            self.ends((30, ""), f"direct day.csv {name}", said, cwd=self.top)
        self.ends((30, ""), "direct gone.csv", quiet=True)
        self.repository.forget()
        self.ends((30, ""), "direct gone.csv", "gone.csv isn't here")
        self.assertEqual(self.repository.lines("builds"), [])

    def test_where_a_second_file_begins(self):
        one, two = self.write("one", INSTANCE), self.write("two", INSTANCE)
        self.ends((21, "refused,1,1\n"), ["bound", one, two], f"lines are counted through all files: {two} begins at line 5")

    def test_without_shipments(self):
        for data in (b"", b"terminal,A\n", b"terminal,shipment\n"):
            self.ends((13, ANSWER), "direct", "the instance has no shipments (status 13", input=data)
            self.assertEqual(self.ends((0, ANSWER), "direct --allow-empty", input=data), "")
            self.ends((0, ANSWER), "direct", input=data, quiet=True)
            self.ends((13, ANSWER), ["direct", self.write("none", data)], quiet=True)
        for data in (INSTANCE, INSTANCE.replace(b"\n", b"\r"), b'terminal,A\n "shipment" ,S\n', b"shipment\t,S"):
            self.ends((0, ANSWER), "direct", input=data)


# Names of shipments, as they are handed on to the program.
NAMED = (b"S1", b"-", b"a name", b"\n", "\u00c9\u0301".encode(), b"\xff", b"*", b"$x", b"\\", b"'", b"--rounds=5"[2:], b"x --rounds")


class Names(InRepository):
    def test_a_shipment_of_any_name(self):
        day = self.write("day", INSTANCE)
        for place, name in enumerate(NAMED):
            forms = ["quote", day, "--shipment", name], ["quote", b"--shipment=" + name, day], ["quote", "--rounds", "5", day, "--shipment", name]
            self.ends((0, "quote,S,1,2\n"), forms[place % 3], quiet=place % 2)
            self.assertEqual((self.top / "named").read_bytes(), name)

    def test_a_name_that_looks_like_a_file(self):
        self.ends((30, ""), "quote S1 day", "S1 isn't here: a shipment is named by --shipment S1\n", cwd=self.top)
        self.assertNotIn("named", self.ends((30, ""), "quote day.csv", "day.csv isn't here", cwd=self.top))
        self.ends((20, "refused,words\n"), ["quote", "--shipment", "-S1"], "write its record behind all others")


# What stands at -o's file after a run: the words, the status, what is printed, and the file.
KEPT = (
    ("direct -o out day", 0, "", ANSWER),
    ("direct day --output=out", 0, "", ANSWER),
    ("plan day -o out", 10, "", UNFINISHED),
    ("plan day -o out --timetable-only", 10, "", TIMETABLE),
    ("plan day -o out --timetable-only --certificate whole", 10, "", TIMETABLE),
    ("direct empty -o out", 13, "", ANSWER),
    ("bound day -o out", 21, "refused,1,1\n", "older"),
    ("plan --turns 3 -o out day", 20, "refused,words\n", "older"),
    ("trial 11 2 0 -o out", 11, "", ""),
    ("trial 40 2 0 -o out", 40, "", "older"),
    ("trial 137 2 0 -o out", 137, "", "older"),
    ("direct gone -o out", 30, "", "older"),
    ("direct day -o day", 31, "", "older"),
    ("direct day -o out --certificate gone/whole", 31, "", "older"),
    ("direct day -o out --certificate .", 31, "", "older"),
    ("direct day -o out --certificate ./out", 31, "", "older"),
)  # fmt: skip


class Outputs(InRepository):
    def test_an_answer_is_kept_whole_or_not_at_all(self):
        for words, status, printed, kept in KEPT:
            with self.subTest(words=words):
                self.write("day", INSTANCE)
                self.write("empty", b"")
                self.write("out", b"older")
                before = set(self.top.iterdir()) | {self.top / it for it in ("whole", "read", "runs")}
                self.ends((status, printed), words, cwd=self.top)
                self.assertEqual(((self.top / "out").read_text(), (self.top / "day").read_bytes()), (kept, INSTANCE))
                self.assertLessEqual(set(self.top.iterdir()), before)

    def test_the_certificate_is_kept_beside_what_is_shown(self):
        whole = self.top / "whole"
        self.ends((10, TIMETABLE), f"plan --timetable-only --certificate {whole}")
        self.assertEqual(whole.read_text(), UNFINISHED)
        self.ends((10, UNFINISHED), "plan --rounds 0")
        self.ends((10, TIMETABLE), "plan --timetable-only", quiet=True)

    def test_a_link_and_a_mode_stay(self):
        kept = pathlib.Path(self.write("kept", b"older"))
        kept.chmod(0o640)
        (self.top / "link").symlink_to(kept)
        self.ends((0, ""), f"direct -o {self.top}/link")
        self.assertEqual((kept.read_text(), stat.S_IMODE(kept.stat().st_mode)), (ANSWER, 0o640))
        self.assertTrue((self.top / "link").is_symlink())

    def test_the_mode_of_a_new_file(self):
        self.repository.run(["direct", "-o", str(self.top / "new")])
        plain = pathlib.Path(self.write("plain", b""))
        self.assertEqual((self.top / "new").stat().st_mode, plain.stat().st_mode)

    def test_no_plain_file(self):
        self.ends((31, ""), "direct -o /dev/full", "/dev/full is no plain file")

    def test_what_is_printed_may_fail(self):
        for words in ("direct", "plan --timetable-only"):
            with open("/dev/full", "wb") as full:
                done = self.repository.run(words, stdout=full)
            self.assertEqual(done.returncode, 31)
            self.assertIn("a write failed", done.stderr.decode())

    def test_a_run_that_is_ended_ends_the_program(self):
        # The words are tried over no input, and that takes no time.
        self.repository.ship(wait=f'[ ! -s "{self.top}/read" ] || {{ echo $$ >"{self.top}/program"; exec sleep 60; }}')
        self.write("out", b"older")
        command = [self.top / "freight", "direct", "-o", self.top / "out", self.write("day", INSTANCE)]
        run = subprocess.Popen(command, env=self.repository.names(False, False))
        while not (self.top / "program").exists() or not (self.top / "program").read_text():
            time.sleep(0.05)
        run.send_signal(signal.SIGTERM)
        self.assertEqual(run.wait(timeout=30), -signal.SIGTERM)
        self.assertEqual(((self.top / "out").read_text(), list(self.top.glob(".freight*"))), ("older", []))
        while pathlib.Path("/proc", (self.top / "program").read_text().strip()).exists():
            time.sleep(0.05)


class Scripts(InRepository):
    def test_words_are_handed_on(self):
        script = self.top / "tools/import"
        script.unlink(missing_ok=True)
        self.ends((2, ""), "import tables.csv", "import isn't here: tools/import is missing")
        script.write_text("import sys\nprint(sys.argv[1:], sys.stdin.read())\nsys.exit(7)\n")
        self.ends((7, "['-o', 'a b'] in\n"), ["import", "-o", "a b"], input=b"in", cwd=self.top)

    def test_the_page_of_a_script(self):
        """It is the script's own where that has one."""
        own = (TOP / "tools/launcher/help/picture.txt").read_text()
        for text, page in (("print('own page')", "own page\n"), ("raise SystemExit('none')", own), ("pass", own)):
            self.write("tools/picture", text.encode())
            for words in ("picture --help", "picture -h", "help picture"):
                self.assertEqual(self.ends((0, page), words), "")


@unittest.skipIf(proved() is None, "the proved program of these sources isn't here")
class Whole(InRepository):
    """With the proved program itself: what is joined is what `cat` joins, and a timetable alone is a text that it reads."""

    def setUp(self):
        super().setUp()
        self.repository.shipped.write_bytes(pathlib.Path(proved()).read_bytes())
        self.repository.record(self.repository.shipped)

    def test_plan_and_check(self):
        day, out = str(TOP / "examples/carrier-day.csv"), str(self.top / "out")
        stored = (TOP / "examples/carrier-day.csv.plan.stdout").read_text()
        self.ends((0, stored), ["plan", day])
        self.ends((0, ""), ["plan", day, "-o", out])
        self.ends((0, "accepted,optimal\n"), ["check", day, out])
        self.ends((0, "accepted,optimal\n"), ["check", day, "-"], input=stored.encode())

    def test_a_day_that_is_under_way(self):
        """The instance, what is told after it and the answer, each in a file of its own."""
        whole = (TOP / "examples/late-truck.csv").read_bytes()
        day, told = self.write("day", whole[: whole.index(b"now,")]), self.write("told", whole[whole.index(b"now,") :].rstrip())
        out = str(self.top / "out")
        self.ends((0, ""), ["replan", day, told, "-o", out])
        self.assertEqual((self.top / "out").read_text(), (TOP / "examples/late-truck.csv.stdout").read_text())
        self.ends((0, "accepted,optimal\n"), ["check", day, told, out])
        self.ends((0, "accepted,optimal\n"), ["check", day, "-", out], input=b"now,540\nkept,P4,NICE,LYON,330,750\nkept,P1,NICE,LYON,330,750")
        self.ends((12, "rejected,1\n"), ["check", day, out], "P1 leaves LYON and is at NICE")
        for words, stored in ((["yard", "1"], "yard"), (["fleet", "--trucks"], "trucks"), (["improve"], "improve")):
            self.ends((0, (TOP / f"examples/late-answer.csv.{stored}.stdout").read_text()), [*words, day, told, out])

    def test_a_quote_by_a_name(self):
        day = str(TOP / "examples/carrier-day.csv")
        self.ends((0, (TOP / "examples/carrier-day.csv.named-quote.stdout").read_text()), ["quote", day, "--shipment", "P4"])
        for name in (b"p4", b"-", b"P4 ", b"*"):
            self.ends((21, "refused,0,38\n"), ["quote", day, "--shipment", name], "whose price is asked for (code 38, NoShipment)")
        self.ends((41, ""), ["quote", "--shipment", b"\xff", day], "the system didn't hand over the words as text")

    def test_a_timetable_alone(self):
        day, out = str(TOP / "examples/carrier-day.csv"), str(self.top / "out")
        self.ends((0, ""), ["plan", day, "--timetable-only", "-o", out])
        self.ends((12, "rejected,6\n"), ["check", day, out], "part 6 of the certificate fails")
        self.ends((0, (TOP / "examples/carrier-day.csv.stdout").read_text()), ["direct", "--timetable-only", day])
        self.assertTrue(self.repository.run(["fleet", day, out]).stdout.startswith(b"fleet,2\n"))
        self.assertTrue(self.repository.run(["yard", "1", day, out]).stdout.startswith(b"yard,4\n"))
        late, none = str(TOP / "examples/late-shipment.csv"), "answer,infeasible,S2,9\nend\n"
        self.ends((11, none), ["plan", "--timetable-only", late])
        self.ends((0, "accepted,infeasible\n"), ["check", late, "-"], input=none.encode())


if __name__ == "__main__":
    unittest.main()
