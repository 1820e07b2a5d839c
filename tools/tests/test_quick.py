"""tools/quick: what it runs, and how it ends, in a repository of its own and without the kit."""

import pathlib
import shutil
import subprocess
import sys
import unittest

sys.dont_write_bytecode = True
sys.path.insert(0, str(pathlib.Path(__file__).resolve().parent))
from repository import InRepository  # noqa: E402

TEST = "import unittest\n\n\nclass One(unittest.TestCase):\n    def test(self):\n        self.assertTrue({})\n"

# What the example and the test give, the status, and what is said.
CASES = (
    ("answer,shipped,104\n", True, 0, ("examples: passed, 1 as stored", "tests: passed, Ran 1 test", "it proves nothing")),
    ("answer,other,104\n", True, 1, ("examples: failed", "tests: passed", "or another text than examples/one.csv.stdout")),
    ("answer,shipped,104\n", False, 1, ("examples: passed", "tests: failed", "False is not true")),
)


class Quick(InRepository):
    def setUp(self):
        super().setUp()
        shutil.rmtree(self.top / "tools/tests")
        self.write("examples/one.csv", b"terminal,A\n")
        self.write("examples/one.csv.args", b"direct\n")

    def quick(self):
        return subprocess.run([self.top / "tools/quick"], capture_output=True, text=True, env=self.repository.names(False, False))

    def test_ends(self):
        for printed, holds, status, parts in CASES:
            self.write("examples/one.csv.stdout", printed.encode())
            self.write("tools/tests/test_one.py", TEST.format(holds).encode())
            done = self.quick()
            self.assertEqual((done.returncode, done.stderr), (status, ""))
            for part in parts:
                self.assertIn(part, done.stdout)

    def test_without_a_program(self):
        self.repository.edit("freight")
        done = self.quick()
        self.assertEqual((done.returncode, done.stdout), (1, ""))
        self.assertIn("no proved program of these sources is here", done.stderr)


if __name__ == "__main__":
    unittest.main()
