"""The pages for users: each command of theirs is typed as it stands, from the top of the repository, and prints what stands below it."""

import pathlib
import re
import subprocess
import sys
import tempfile
import unittest
from concurrent.futures import ThreadPoolExecutor
from dataclasses import dataclass

sys.dont_write_bytecode = True
sys.path.insert(0, str(pathlib.Path(__file__).resolve().parent))
from carrier_tables import needs_zones  # noqa: E402
from pages_written import blocks  # noqa: E402
from programs import TOP, proved  # noqa: E402

PAGES = ("README.md", "docs/guide.md", "docs/tables.md", "docs/page.md")
# How a line begins that is typed, and what a line has that runs as it stands: files of the repository or of /tmp, or no file.
COMMAND = re.compile(r"(\./freight|cat) ")
RUNS = re.compile(r"examples/|/tmp/|freight trial")
# How an output begins.
OUTPUT = re.compile(r"(answer|fleet|out|quote),|Terminal;")
# An answer, also one whose search isn't finished.
ENDS = (0, 10)


def typed(page):
    """The blocks of a page that are typed, each with the output that stands below it, or an empty text."""
    found = []
    for block in (part for it in blocks(TOP / page) for part in it.split("\n\n")):
        if all(COMMAND.match(line) for line in block.splitlines()) and RUNS.search(block):
            found.append([block, ""])
        elif OUTPUT.match(block) and found:
            found[-1][1] = block
    return found


def is_within(part, text):
    """Whether some lines stand in a text, one after the other but where a line `..` stands for others."""
    pattern = "".join("(?:.*\n)*?" if line == ".." else re.escape(line) + "\n" for line in part.splitlines())
    return re.search(f"^{pattern}", text, re.M) is not None


@dataclass
class Run:
    """A block that was typed: the lines that ended as no answer does, and whether what the page says of the output stands in it."""

    block: str
    failed: list
    is_right: bool


def run(block, output, folder):
    """Types a block, with a folder in the place of /tmp."""
    failed, printed = [], ""
    for line in block.replace("/tmp/", f"{folder}/").splitlines():
        done = subprocess.run(["bash", "-c", line], cwd=TOP, capture_output=True, text=True, timeout=600)
        printed += done.stdout
        if done.returncode not in ENDS:
            failed.append(f"{line}: {done.returncode}, {done.stderr}")
    printed += "".join(it.read_text("utf-8-sig") for it in pathlib.Path(folder).iterdir())
    return Run(block, failed, is_within(output, printed))


def runs(page):
    """The blocks of a page, typed one after the other."""
    with tempfile.TemporaryDirectory() as folder:
        return [run(block, output, folder) for block, output in typed(page)]


@needs_zones
@unittest.skipIf(proved() is None, "the proved program of these sources isn't here")
class Pages(unittest.TestCase):
    def test_commands(self):
        with ThreadPoolExecutor(len(PAGES)) as pool:
            found = dict(zip(PAGES, pool.map(runs, PAGES)))
        for page, blocks_run in found.items():
            self.assertTrue(blocks_run, page)
            for it in blocks_run:
                with self.subTest(it.block, page=page):
                    self.assertEqual((it.failed, it.is_right), ([], True))


if __name__ == "__main__":
    unittest.main()
