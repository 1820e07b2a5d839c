"""Searches that are stopped, by a signal to ./freight or to its program: what they hand over, and what they leave."""

import os
import pathlib
import signal
import subprocess
import sys
import time
import unittest

sys.dont_write_bytecode = True
sys.path.insert(0, str(pathlib.Path(__file__).resolve().parent))
from programs import TOP, proved  # noqa: E402
from repository import INSTANCE  # noqa: E402
from searches import ACCEPTS, CHEAP, CUT, DEAR, NOTES, REJECTS, WAITS, Searches, is_alive  # noqa: E402

SIGNALS = (signal.SIGINT, signal.SIGTERM, signal.SIGHUP)
FIGURES = "the cheapest plan so far costs 250, and none costs less than 200 (a gap of 20.0 %)"
QUOTED = f"{DEAR}note,4,2,300,100\n{CHEAP}note,5,2,250,200\n{DEAR}note,0,0,300,220\n"
KEPT = INSTANCE + b'now,3\n"kept" ,S1,A,B,4\n kept,S2\n'
LONG = "answer,unfinished,300,200,rounds\n" + "leg,S1\n" * 100_000 + "end\n"

# The notes, what is done then or WAITS, where SIGTERM is sent, and the status, what is printed, and what is said.
ENDS = (
    (NOTES, WAITS, 143, CHEAP, f"stopped by SIGTERM: {FIGURES}; its timetable, which check accepts, is on standard output"),
    (NOTES + CUT, WAITS, 143, CHEAP, FIGURES),
    ("a word of the loader\n" + NOTES, WAITS, 143, CHEAP, "a word of the loader\nfreight: stopped"),
    (NOTES + "note,4,1,250,2", WAITS, 143, CHEAP, FIGURES),
    (NOTES.replace("note,3,1,250,200\n", ""), WAITS, 143, CHEAP, "none costs less than 100 (a gap of 60.0 %)"),
    (DEAR, WAITS, 143, DEAR, "stopped by SIGTERM: the cheapest plan so far costs 300; its"),
    (DEAR[:-1], WAITS, 143, DEAR, "costs 300"),
    ("", WAITS, 143, "", "stopped by SIGTERM: no plan was found yet"),
    (CUT, WAITS, 143, "", "no plan was found yet"),
    (NOTES, "kill -KILL $$", 137, CHEAP, f"the program was ended by signal 9: {FIGURES}"),
    (NOTES, "kill -XCPU $$", 152, CHEAP, "the program was ended by signal 24"),
    (CUT, "kill -KILL $$", 137, "", "the program was ended by signal 9: no plan was found yet"),
    (NOTES, "exit 40", 40, CHEAP, f"there wasn't memory enough: {FIGURES}"),
    (NOTES, "echo answer,optimal,250; exit 0", 0, "answer,optimal,250\n", ""),
    (NOTES, "echo refused,1,1; exit 21", 21, "refused,1,1\n", "the fault 1"),
    ("", "exit 31", 31, "", "a write failed"),
)  # fmt: skip

# What `check` does with the timetable, whether it is handed over, and what is said.
CHECKS = (
    (ACCEPTS, True, "its timetable, which check accepts, is in out"),
    (REJECTS, False, "check doesn't accept the best timetable so far (status 12), and it isn't handed over"),
    ("exit 21\n", False, "(status 21)"),
    ("exit 40\n", True, "which couldn't be checked (status 40)"),
)


def process_of(group, words):
    """The number of the process of a group that was started with some words."""
    for line in pathlib.Path("/proc").glob("[0-9]*/cmdline"):
        try:
            if os.getpgid(int(line.parent.name)) == group and "\0".join(words.split()) + "\0" in line.read_text():
                return int(line.parent.name)
        except OSError:
            continue
    raise AssertionError(f"{words} doesn't run")


class Stops(Searches):
    def test_each_signal_hands_the_timetable_over(self):
        for name in SIGNALS:
            for send in (os.kill, os.killpg):
                run = self.begin()
                send(run.pid, name)
                words = self.ends_with(run, 128 + name, CHEAP, FIGURES)
                self.assertIn(name.name, words)
                self.assertEqual(words.count("\n"), 1)
                self.assertEqual((self.top / "checked").read_bytes(), INSTANCE + b"\n" + CHEAP.encode())

    def test_what_is_handed_over(self):
        for notes, does, status, printed, said in ENDS:
            with self.subTest(notes=notes, does=does):
                self.searches(notes, does)
                run = self.begin(wait=does == WAITS)
                if does == WAITS:
                    run.terminate()
                self.ends_with(run, status, printed, said)

    def test_files(self):
        for checks, is_handed_over, said in CHECKS:
            self.searches(NOTES, checks=checks)
            for name in ("out", "whole"):
                self.write(name, b"older")
            run = self.begin("plan day -o out --certificate=whole --timetable-only")
            run.terminate()
            self.ends_with(run, 143, "", said)
            for name in ("out", "whole"):
                self.assertEqual((self.top / name).read_text(), CHEAP if is_handed_over else "older")
        self.searches("")
        self.write("out", b"older")
        run = self.begin("plan day -o out")
        run.terminate()
        self.ends_with(run, 143, "", "no plan was found yet")
        self.assertEqual((self.top / "out").read_text(), "older")

    def test_a_timetable_is_checked_after_what_is_told(self):
        self.write("told", KEPT)
        run = self.begin("replan told")
        run.terminate()
        self.ends_with(run, 143, CHEAP, "and none that keeps the legs or goes on from now costs less than 200")
        self.assertEqual((self.top / "checked").read_bytes(), KEPT + b"\n" + CHEAP.encode())

    def test_an_answer_that_is_gone_on_from_is_no_part_of_what_is_checked(self):
        self.write("both", INSTANCE + DEAR.encode())
        run = self.begin("improve both")
        run.terminate()
        self.ends_with(run, 143, CHEAP, FIGURES)
        self.assertEqual((self.top / "checked").read_bytes(), INSTANCE + b"\n" + CHEAP.encode())

    def test_a_quote_has_figures_alone(self):
        said = "the cheapest plan so far costs 250, and none costs less than 200 (a gap of 20.0 %); with it "
        for notes, more in ((QUOTED, "the cheapest plan so far costs 300, and none costs less than 220 (a gap of 26.7 %)"), (NOTES, "there is no plan yet")):
            for words, name in (("quote day", "the last shipment"), ("quote --shipment S1 day", "S1")):
                self.searches(notes)
                run = self.begin(words)
                run.send_signal(signal.SIGINT)
                self.ends_with(run, 130, "", f"without {name} {said}{more}")

    def test_what_keeps_the_notes_is_killed(self):
        run = self.begin()
        os.kill(process_of(run.pid, "notes.awk"), signal.SIGKILL)
        run.terminate()
        self.ends_with(run, 143, CHEAP, "stopped by SIGTERM")

    def test_a_write_that_fails(self):
        with open("/dev/full", "wb") as full:
            run = self.begin(stdout=full)
            run.terminate()
            self.assertIn(b"a write failed (status 31)", run.communicate()[1])
        self.assertEqual(run.returncode, 31)
        self.leaves_nothing()

    def test_notes_that_the_user_asks_for(self):
        run = self.begin("plan day --notes")
        run.terminate()
        self.assertTrue(self.ends_with(run, 143, CHEAP, FIGURES).startswith(NOTES))
        self.assertEqual((self.top / "runs").read_text().splitlines(), ["plan --notes", "plan --notes", "check"])
        text = f"a word of the loader\n{NOTES}another\n"
        self.searches(text, "echo answer,optimal,250; exit 0")
        self.assertEqual(self.ends_with(self.begin("plan --notes day", wait=False), 0, "answer,optimal,250\n"), text)

    def test_quiet(self):
        run = self.begin(quiet=True)
        run.terminate()
        self.assertEqual(self.ends_with(run, 143, CHEAP), "")
        with open(self.top / "day") as day:
            run = self.begin("plan", quiet=True, wait=False, stdin=day)
            self.wait_for(lambda: self.program() == run.pid)
        run.terminate()
        self.assertEqual(self.ends_with(run, -signal.SIGTERM, ""), "")


class Moments(Searches):
    """Signals that come early, late and twice."""

    def test_before_the_program_starts(self):
        for name in SIGNALS:
            self.write("out", b"older")
            run = self.begin("plan -o out", wait=False, stdin=subprocess.PIPE)
            self.wait_for(lambda: list(self.folder.glob("freight.*/input")))
            run.send_signal(name)
            self.ends_with(run, -name, "")
            self.assertEqual((self.top / "out").read_text(), "older")

    def test_a_signal_that_is_sent_twice_at_once(self):
        run = self.begin()
        for _ in range(2):
            os.killpg(run.pid, signal.SIGTERM)
        self.ends_with(run, 143, CHEAP)

    def test_a_program_that_heeds_no_signal(self):
        self.searches(NOTES, "trap '' TERM; " + WAITS)
        run = self.begin()
        run.terminate()
        self.ends_with(run, 143, CHEAP)

    def test_a_second_signal_ends_at_once(self):
        self.searches(NOTES, checks=f"echo $$ >'{self.top}/checking'; {WAITS}")
        self.write("out", b"older")
        run = self.begin("plan day -o out")
        run.send_signal(signal.SIGINT)
        self.wait_for(lambda: (self.top / "checking").exists() and (self.top / "checking").read_text())
        self.send_until_it_ends(run, signal.SIGINT)
        self.ends_with(run, 130, "")
        self.wait_for(lambda: not is_alive(int((self.top / "checking").read_text())))
        self.assertEqual((self.top / "out").read_text(), "older")

    def send_until_it_ends(self, run, name):
        while run.poll() is None:
            os.killpg(run.pid, name)
            time.sleep(0.1)

    def test_an_answer_that_is_being_handed_on_stays_whole(self):
        self.write("long", LONG.encode())
        self.searches(NOTES, f"cat '{self.top}/long'; exit 10")
        run = self.begin(wait=False)
        front = run.stdout.read(1)
        os.killpg(run.pid, signal.SIGTERM)
        self.ends_with(run, 10, LONG[len(front) :])
        run = self.begin(wait=False)
        run.stdout.read(1)
        self.send_until_it_ends(run, signal.SIGTERM)
        text = run.communicate()[0].decode()
        self.assertEqual((run.returncode, LONG[1:].startswith(text)), (143, True))
        self.leaves_nothing()


@unittest.skipIf(proved() is None, "the proved program of these sources isn't here")
class Proved(Searches):
    """With the proved program, on a day that it plans for minutes."""

    def setUp(self):
        super().setUp()
        self.repository.shipped.write_bytes(pathlib.Path(proved()).read_bytes())
        self.repository.record(self.repository.shipped)
        self.day = str(TOP / "examples/france-day.csv")

    def is_noted(self):
        return any(it.read_text().endswith("end\n") for it in self.folder.glob("freight.*/timetable.*"))

    def test_a_plan_that_is_stopped_is_accepted(self):
        for name in SIGNALS:
            run = self.begin(f"plan {self.day} -o out")
            os.killpg(run.pid, name)
            text, said = run.communicate()
            self.assertEqual((run.returncode, text), (128 + name, b""), said)
            self.assertIn(b"which check accepts", said)
            self.ends((0, "accepted,direct\n"), ["check", self.day, str(self.top / "out")])

    def test_what_goes_on_with_a_day_is_accepted(self):
        now = self.write("now", b"now,480\n")
        run = self.begin(f"replan {self.day} {now} -o out")
        run.terminate()
        text, said = run.communicate()
        self.assertEqual((run.returncode, text), (143, b""), said)
        self.assertIn(b"which check accepts", said)
        self.ends((0, "accepted,direct\n"), ["check", self.day, now, str(self.top / "out")])

    def test_a_program_that_is_killed(self):
        run = self.begin(f"plan {self.day}")
        os.kill(process_of(run.pid, f"{self.repository.shipped.name} plan"), signal.SIGKILL)
        text, said = run.communicate()
        self.assertEqual(run.returncode, 137, said)
        self.ends((0, "accepted,direct\n"), ["check", self.day, "-"], input=text)


if __name__ == "__main__":
    unittest.main()
