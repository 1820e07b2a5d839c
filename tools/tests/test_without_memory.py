"""What a run may do where memory is wanting: each way to do otherwise is told."""

import pathlib
import sys
import unittest

sys.dont_write_bytecode = True
sys.path.insert(0, str(pathlib.Path(__file__).resolve().parents[1]))

from freight_text.refusals import Run, is_allowed  # noqa: E402

WHOLE = Run(0, b"answer,direct,104\nend\n")

# The run, and whether it did what it may.
RUNS = (
    (Run(40, b""), True),
    (WHOLE, True),
    (Run(40, b"answer,"), False),
    (Run(0, b""), False),
    (Run(0, b"answer,direct,103\nend\n"), False),
    (Run(21, b"refused,0,12\n"), False),
    (Run(-11, b""), False),
)


class Memory(unittest.TestCase):
    def test_runs(self):
        for run, may in RUNS:
            with self.subTest(run=run):
                self.assertEqual(is_allowed(run, WHOLE), may)


if __name__ == "__main__":
    unittest.main()
