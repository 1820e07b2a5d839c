"""Which program ./freight runs, and how it starts it: in a small repository, with stand-ins for the kit and the program."""

import os
import pathlib
import pty
import resource
import subprocess
import sys
import time
import unittest

sys.dont_write_bytecode = True
sys.path.insert(0, str(pathlib.Path(__file__).resolve().parent))
from programs import TOP, proved  # noqa: E402
from repository import ENOUGH, INSTANCE, UNFINISHED, InRepository  # noqa: E402


class Runs(InRepository):
    def setUp(self):
        super().setUp()
        self.repository.forget()

    def ran(self, name, **more):
        """That a program answers, and says nothing beside it but what is expected of a build."""
        done = self.repository.run(**more)
        self.assertEqual((done.returncode, done.stdout.decode()), (0, f"answer,{name},104\n"), done.stderr)
        return done.stderr.decode()

    def refuses(self, **more):
        done = self.repository.run(**more)
        self.assertEqual((done.returncode, done.stdout), (2, b""))
        self.assertIn("no proved program of these sources is here", done.stderr.decode())

    def test_the_shipped_program_runs_with_the_kit_and_without(self):
        self.repository.ship()
        self.assertEqual(self.ran("shipped"), "")
        self.assertEqual(self.ran("shipped", kit=False), "")
        self.assertEqual(self.repository.lines("builds"), [])

    def test_an_edit_builds_once(self):
        self.repository.ship()
        self.repository.edit("fp_app")
        self.assertIn("an estimated 15 to 40 minutes", self.ran("built"))
        self.assertEqual(self.ran("built"), "")
        self.assertEqual(self.ran("built", kit=False), "")
        self.assertEqual(len(self.repository.lines("builds")), 1)
        self.repository.edit("freight")
        self.ran("built")
        self.assertEqual(len(self.repository.lines("builds")), 2)

    def test_an_edit_of_what_the_program_does_not_stand_on_builds_nothing(self):
        self.repository.ship()
        self.repository.edit("fp_other")
        self.assertEqual(self.ran("shipped"), "")

    def test_without_kit_and_program_nothing_runs(self):
        self.refuses(kit=False)
        self.repository.ship()
        self.repository.edit("freight")
        self.refuses(kit=False)
        self.assertEqual(self.repository.lines("runs"), [])

    def test_a_foreign_program_does_not_run(self):
        self.repository.ship()
        self.repository.place(self.repository.shipped, self.repository.program("foreign"))
        self.refuses(kit=False)
        self.repository.place(self.repository.built, self.repository.program("foreign"))
        self.refuses(kit=False)
        self.ran("built")
        self.repository.place(self.repository.built, self.repository.program("foreign"))
        self.refuses(kit=False)
        self.assertFalse([it for it in self.repository.lines("runs") if "foreign" in it])

    def test_an_edit_during_the_build_is_not_taken_for_built(self):
        edit = f"echo '// more' >>'{self.repository.top}/crates/fp_app/src/lib.rt'"
        self.repository.place(self.repository.top / "kit/rt", self.repository.kit(wait=edit))
        done = self.repository.run()
        self.assertEqual((done.returncode, done.stdout), (2, b""))
        self.assertIn("the sources were changed while the program was built", done.stderr.decode())

    def test_runs_that_start_together_build_once(self):
        self.repository.place(self.repository.top / "kit/rt", self.repository.kit(wait="sleep 1"))
        words = [self.repository.top / "freight", "direct"]
        runs = [subprocess.Popen(words, stdin=subprocess.DEVNULL, stdout=subprocess.PIPE, stderr=subprocess.PIPE, env=self.repository.names(True, False)) for _ in range(3)]
        for it in runs:
            self.assertEqual(it.communicate(timeout=ENOUGH)[0], b"answer,built,104\n")
        self.assertEqual(len(self.repository.lines("builds")), 1)


class Answers(InRepository):
    def test_words_are_looked_at_before_the_input(self):
        reading, writing = os.pipe()
        for words in ("", "direct more -x", "plan --turns 3"):
            self.ends((20, "refused,words\n"), words, "./freight help", stdin=reading)
        os.close(writing)
        os.close(reading)

    def test_an_answer_is_explained_from_the_run_that_gave_it(self):
        done = self.repository.run("plan --rounds 0")
        self.assertEqual((done.returncode, done.stdout), (10, UNFINISHED.encode()))
        self.assertIn("no plan costs less than 200", done.stderr.decode())
        # The words are tried over no input, and then the program runs once, with its notes.
        self.assertEqual(self.repository.lines("runs"), ["shipped plan --rounds 0", "shipped plan --rounds 0 --notes"])

    def test_quiet(self):
        done = self.repository.run("plan", quiet=True)
        self.assertEqual((done.returncode, done.stderr), (10, b""))
        self.assertEqual(self.repository.lines("runs"), ["shipped plan"])
        self.ends((20, "refused,words\n"), "plann", quiet=True)
        self.repository.edit("fp_app")
        self.assertEqual(self.repository.run(quiet=True).stderr, b"")

    def test_reads_and_writes_that_fail(self):
        with open("/dev/full", "wb") as full:
            done = self.repository.run(stdout=full)
        self.assertEqual(done.returncode, 31)
        self.assertIn("a write failed", done.stderr.decode())
        folder = os.open(self.repository.top, os.O_RDONLY)
        done = self.repository.run(stdin=folder)
        os.close(folder)
        self.assertEqual((done.returncode, done.stdout), (30, b""))
        self.assertIn("a read of standard input failed", done.stderr.decode())

    def test_a_terminal_sees_what_is_waited_for(self):
        self.repository.ship(wait="sleep 3")
        ours, theirs = pty.openpty()
        run = subprocess.Popen([self.repository.top / "freight", "direct"], stdin=theirs, stdout=subprocess.PIPE, stderr=theirs, env=self.repository.names(False, False))
        os.close(theirs)
        time.sleep(1)
        os.write(ours, INSTANCE + b"\x04")
        self.assertEqual(run.communicate(timeout=ENOUGH)[0], b"answer,shipped,104\n")
        text = os.read(ours, 100_000).decode()
        os.close(ours)
        self.assertIn("waiting for records on standard input", text)
        self.assertIn("freight: 2 s", text)
        self.assertTrue(text.endswith("\x1b[K"), text)


@unittest.skipIf(proved() is None, "the proved program of these sources isn't here")
class Start(unittest.TestCase):
    def test_it_takes_less_than_a_second(self):
        """Of processor time, which other work on the machine doesn't lengthen."""
        before = resource.getrusage(resource.RUSAGE_CHILDREN)
        with open(TOP / "examples/carrier-day.csv", "rb") as day:
            done = subprocess.run([TOP / "freight", "direct"], stdin=day, capture_output=True, timeout=ENOUGH)
        after = resource.getrusage(resource.RUSAGE_CHILDREN)
        self.assertEqual(done.stdout, (TOP / "examples/carrier-day.csv.stdout").read_bytes())
        self.assertLess(after.ru_utime + after.ru_stime - before.ru_utime - before.ru_stime, 1)


if __name__ == "__main__":
    sys.exit(unittest.main())
