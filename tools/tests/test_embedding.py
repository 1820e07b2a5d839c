"""The pages on calling the program and on the launcher: each of their blocks is run as it stands, from the top of a repository."""

import os
import pathlib
import shlex
import signal
import subprocess
import sys
import unittest

sys.dont_write_bytecode = True
sys.path.insert(0, str(pathlib.Path(__file__).resolve().parent))
from pages_written import blocks  # noqa: E402
from programs import TOP, proved  # noqa: E402
from repository import INSTANCE, UNFINISHED, InRepository  # noqa: E402
from searches import CHEAP, Searches  # noqa: E402

EMBEDDING, LAUNCHER = (TOP / "docs" / name for name in ("embedding.md", "launcher.md"))
NAMES = ("1", "2", "a day", "it's", 'a "quoted" day')

# Runs the job of an array for each task that has a day, as a queue would, and keeps the status of each.
QUEUE = """#!/bin/sh
[ "$1 $2" = '--array=1-31 --wrap' ] || exit 99
for task in 1 2 31; do
  SLURM_ARRAY_TASK_ID=$task sh -c "$3" >>tasks.out 2>&1
  echo "$task $?" >>tasks
done
"""


def block_with(word):
    (found,) = [it for it in blocks(EMBEDDING) if word in it]
    return found


class Blocks(InRepository):
    def setUp(self):
        super().setUp()
        for name in ("carrier-day.csv", "carrier-day.csv.plan.stdout"):
            self.write(f"examples/{name}", (TOP / f"examples/{name}").read_bytes())
        for name in NAMES:
            self.write(f"days/{name}.csv", (TOP / "examples/carrier-day.csv").read_bytes())
        self.repository.place(self.top / "kit/sbatch", QUEUE)

    def types(self, block, status=0):
        """Runs a block, as Python where it is that, and gives what it prints."""
        language = [sys.executable] if block.startswith("import ") else ["bash", "-u"]
        done = subprocess.run([*language, "-c", block], cwd=self.top, capture_output=True, text=True, env=self.repository.names(True, False))
        self.assertEqual(done.returncode, status, block + done.stderr)
        return done.stdout

    def answers(self):
        return {it.name: it.read_text() for it in (self.top / "days").glob("*.answer")}


class Queues(Blocks):
    """With the stand-in, of which each plan is unfinished."""

    def test_xargs(self):
        self.types(block_with("xargs"))
        self.assertEqual(self.answers(), {f"{name}.csv.answer": UNFINISHED for name in NAMES})
        self.assertEqual(self.types(block_with("grep -l")).splitlines(), sorted(f"days/{name}.csv.answer" for name in NAMES))
        (self.top / "days/folder.csv").mkdir()
        self.types(block_with("xargs"), 123)

    def test_slurm(self):
        self.write("days/1.answer", b"older")
        self.types(block_with("sbatch"))
        self.assertEqual((self.top / "tasks").read_text().splitlines(), ["1 0", "2 0", "31 30"])
        self.assertEqual(self.answers(), {"1.answer": UNFINISHED, "2.answer": UNFINISHED})
        self.assertIn("days/31.csv isn't here", (self.top / "tasks.out").read_text())

    def test_what_a_kill_leaves(self):
        self.write("days/.freight.7.0", b"half")
        self.types(block_with("rm -f"))
        self.assertEqual(list((self.top / "days").glob(".freight*")), [])


class Stopped(Searches):
    """Queues that are stopped while a day is planned: the signal goes to all of their processes."""

    def setUp(self):
        super().setUp()
        self.write("days/1.csv", INSTANCE)

    def queue(self, command, name, answer):
        """Stops a queue, and waits until the day has its answer: its status."""
        names = self.repository.names(False, False, {"TMPDIR": str(self.folder), "SLURM_ARRAY_TASK_ID": "1"})
        run = subprocess.Popen(["sh", "-c", command], cwd=self.top, env=names, stderr=subprocess.DEVNULL, start_new_session=True)
        self.addCleanup(run.wait)
        self.wait_for(self.is_noted)
        os.killpg(run.pid, name)
        self.wait_for(lambda: (self.top / answer).exists())
        self.assertEqual((self.top / answer).read_text(), CHEAP)
        self.wait_for(lambda: not list(self.folder.iterdir()))
        self.leaves_nothing()
        return run.wait()

    def test_xargs(self):
        self.queue(block_with("xargs"), signal.SIGINT, "days/1.csv.answer")
        done = subprocess.run(["sh", "-c", block_with("grep -l")], cwd=self.top, capture_output=True, text=True)
        self.assertEqual(done.stdout, "days/1.csv.answer\n")

    def test_slurm(self):
        self.assertEqual(self.queue(shlex.split(block_with("sbatch"))[-1], signal.SIGTERM, "days/1.answer"), 143)


@unittest.skipIf(proved() is None, "the proved program of these sources isn't here")
class Whole(Blocks):
    """With the proved program, every block in its order."""

    def setUp(self):
        super().setUp()
        self.repository.shipped.write_bytes(pathlib.Path(proved()).read_bytes())
        self.repository.record(self.repository.shipped)

    def test_the_launcher(self):
        """What stands after a dollar is typed, and prints the lines below it. There may be no `man` here."""
        for block in blocks(LAUNCHER):
            if block.startswith("$ "):
                typed, printed = block[2:].split("\n", 1)
                self.assertEqual(self.types(f"{typed} 2>&1", 20), printed)
            elif "man -l" not in block:
                self.assertTrue(self.types(block), block)

    def test_all(self):
        printed = {block: self.types(block) for block in blocks(EMBEDDING)}
        plan = (self.top / "examples/carrier-day.csv.plan.stdout").read_text()
        self.assertEqual((self.top / "answer.csv").read_text(), plan)
        self.assertEqual(set(self.answers().values()), {plan})
        self.assertEqual(printed[block_with("import subprocess")], "0 answer,optimal,182900\n")
        self.assertEqual(printed[block_with("grep -l")], "none\n")

    def test_the_streams(self):
        day = (TOP / "examples/carrier-day.csv").read_bytes()
        for words in (["plan"], ["plann"]):
            self.assertEqual(subprocess.run([proved(), *words], input=day, capture_output=True).stderr, b"")
        run = subprocess.Popen([proved(), "direct"], stdin=subprocess.PIPE, stdout=subprocess.PIPE)
        run.stdout.close()
        run.stdin.write(day)
        run.stdin.close()
        self.assertEqual(run.wait(), 31)


if __name__ == "__main__":
    unittest.main()
