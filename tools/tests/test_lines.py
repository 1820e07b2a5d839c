"""What a terminal sees while the program searches: a sentence before, a line in one place, and a clean line after; and what others see."""

import fcntl
import os
import pathlib
import pty
import re
import signal
import subprocess
import sys
import termios
import unittest

sys.dont_write_bytecode = True
sys.path.insert(0, str(pathlib.Path(__file__).resolve().parent))
from searches import CHEAP, DEAR, NOTES, Searches  # noqa: E402

LINE = re.compile(r"freight: \d+ s, cost 250, bound 200, gap 20\.0 %, rounds 3, branches 1")
# All that is seen of a search that Ctrl-C stops: until when it goes on, the line, drawn once or more, and what stopped it.
DRAWN = r"(\x1b\[\?7l\rfreight: [^\r\n]*\x1b\[K\x1b\[\?7h)+"
STOPPED = rf"^freight: the search goes on [^\r\n]*\r\n{DRAWN}\r\x1b\[Kfreight: stopped by Ctrl-C \(SIGINT\): [^\r\n]*\r\n$"
SECOND = re.compile(r"freight: \d+ s, search 2 of 2, cost 300, bound 220, gap 26\.7 %, rounds 0, branches 0")
QUOTED = f"{NOTES}{DEAR}note,0,0,300,220\n"

# Words, and what is said before the search.
BEFORE = (
    ("plan day", "its 400 rounds or 4000 branches are used up, which may take hours: Ctrl-C hands over the best timetable so far"),
    ("plan day --rounds=07 --branches 9", "its 7 rounds or 9 branches are used up"),
    ("replan day", "its 400 rounds or 4000 branches are used up"),
    ("quote day", "two searches go on, each until its plan is proved the cheapest, or its 400 rounds or 4000 branches are used up"),
    ("plan day --seconds 60", ""),
)


class Terminal(Searches):
    """A run whose standard error, and standard input, are a terminal of its own."""

    def setUp(self):
        super().setUp()
        self.ours, theirs = pty.openpty()
        self.addCleanup(os.close, self.ours)
        self.theirs, self.text = theirs, ""

    def start(self, words, **more):
        streams = {"stdin": self.theirs, "stderr": self.theirs, "preexec_fn": lambda: fcntl.ioctl(0, termios.TIOCSCTTY, 0)}
        run = self.begin(words, **{**streams, **more})
        os.close(self.theirs)
        return run

    def see(self, pattern):
        """Reads the terminal until it has shown something."""
        while not re.search(pattern, self.text):
            self.text += os.read(self.ours, 100_000).decode()

    def seen(self):
        """All that the terminal has shown, once nobody writes to it any more."""
        try:
            while text := os.read(self.ours, 100_000).decode():
                self.text += text
        except OSError:
            pass
        return self.text


class Lines(Terminal):
    def test_the_line_and_ctrl_c(self):
        run = self.start("plan day")
        self.see(LINE)
        os.write(self.ours, b"\x03")
        self.assertEqual((run.communicate()[0].decode(), run.returncode), (CHEAP, 130))
        # The terminal echoes the key where it comes: before a line that is still drawn, or amid it.
        self.assertRegex(self.seen().replace("^C", "", 1), STOPPED)
        self.assertNotIn("note,", self.text)
        self.assertNotIn("leg,", self.text)
        self.leaves_nothing()

    def test_an_answer_leaves_a_clean_line(self):
        self.searches(NOTES, f"until [ -e '{self.top}/go' ]; do sleep 0.05; done; echo answer,optimal,250; exit 0")
        run = self.start("plan day --seconds 60")
        self.see(LINE)
        self.write("go", b"")
        self.assertEqual((run.communicate()[0].decode(), run.returncode), ("answer,optimal,250\n", 0))
        self.assertTrue(self.seen().endswith("\x1b[K"), self.text)
        self.assertNotIn("goes on", self.text)

    def test_a_quote_has_two_searches(self):
        self.searches(QUOTED)
        run = self.start("quote day")
        self.see(SECOND)
        run.send_signal(signal.SIGINT)
        self.assertEqual(run.wait(), 130)

    def test_notes_that_the_user_asks_for_are_all_that_is_seen(self):
        run = self.start("plan day --notes")
        self.see("note,3,1,250,200")
        run.send_signal(signal.SIGTERM)
        run.wait()
        self.assertTrue(self.seen().startswith(NOTES.replace("\n", "\r\n") + "freight: stopped"), self.text)

    def test_quiet(self):
        run = self.start("plan day", quiet=True)
        run.send_signal(signal.SIGTERM)
        self.assertEqual((run.communicate()[0].decode(), run.returncode, self.seen()), (CHEAP, 143, ""))


class Before(Terminal):
    def test_until_when_a_search_goes_on(self):
        os.close(self.theirs)
        for words, said in BEFORE:
            ours, self.theirs = pty.openpty()
            self.searches("", "echo answer,optimal,250; exit 0")
            run = self.start(words, wait=False)
            run.wait()
            text = os.read(ours, 100_000).decode() if said else ""
            os.close(ours)
            self.assertIn(said, text)
            self.assertEqual(text.count("\n"), 1 if said else 0)


class Elsewhere(Searches):
    def test_without_a_terminal_nothing_is_said(self):
        for words in ("plan day", "replan day", "quote day"):
            self.searches(NOTES, "echo answer,optimal,250; exit 0")
            self.assertEqual(self.ends_with(self.begin(words, wait=False), 0, "answer,optimal,250\n"), "")
            self.assertIn(f"{words.split()[0]} --notes", self.repository.lines("runs"))


if __name__ == "__main__":
    unittest.main()
