"""What a page does in a browser and on paper, where Chromium is installed: rows in focus, the filter, the sheets."""

import pathlib
import re
import shutil
import subprocess
import sys
import tempfile
import unittest

sys.dont_write_bytecode = True
sys.path.insert(0, str(pathlib.Path(__file__).resolve().parent))

from test_picture import DIRECT, FLEET, many_shipments, page_text  # noqa: E402

# What a reader does, as scripts.
ROW = "document.querySelector('#shipments tr[data-show]')"
CLICK = f"{ROW}.click()"
FOCUS = f"{ROW}.focus()"
DOWN = f"{FOCUS};document.activeElement.dispatchEvent(new KeyboardEvent('keydown',{{key:'ArrowDown',bubbles:true}}))"
CHOOSE = "form=document.querySelector('.filter');form.elements['%s'].value='%s';form.dispatchEvent(new Event('change'))"


def chromium(folder, text, words):
    """What Chromium writes on standard output for a page."""
    path = pathlib.Path(folder, "page.html")
    path.write_text(text, encoding="utf-8")
    asked = ["chromium", "--headless", "--no-sandbox", "--disable-gpu", f"--user-data-dir={folder}/profile", *words, path.as_uri()]
    return subprocess.run(asked, capture_output=True, text=True, timeout=600).stdout


def after(script, text):
    """The page as it stands after a script."""
    with tempfile.TemporaryDirectory() as folder:
        return chromium(folder, text.replace("</body>", f"<script>{script}</script></body>"), ["--dump-dom"])


def lit(shown, tag):
    """The attributes of the elements of a kind that are lit."""
    return [it for it in re.findall(rf"<{tag} ([^>]*)>", shown) if re.search(r'class="[^"]*\bon\b', it)]


def in_sight(shown, tag):
    return [it for it in re.findall(rf"<{tag} ([^>]*)>", shown) if "hidden" not in it]


@unittest.skipUnless(shutil.which("chromium"), "Chromium isn't installed")
class Browser(unittest.TestCase):
    def test_a_row_shows_its_shipments_way(self):
        text = page_text(answer=DIRECT)
        for script, shipment in ((CLICK, 0), (FOCUS, 0), (DOWN, 1)):
            shown = after(script, text)
            ways = lit(shown, "polyline")
            self.assertEqual(len(ways), 1)
            self.assertIn(f'data-way="{shipment}"', ways[0])
            legs = {0: 2, 1: 1}[shipment]
            self.assertEqual(len(lit(shown, "path")), legs)
            # The shipment's row, and for each leg a row of the departures, of the terminal that it leaves, and of the one that it enters.
            self.assertEqual(len(lit(shown, "tr")), 1 + 3 * legs + len(re.findall(rf'data-show="g" data-t="\d+" data-s="[^"]*\b{shipment}\b', shown)))

    def test_the_filter_leaves_what_is_chosen(self):
        shown = after(CHOOSE % ("t", "3"), page_text(answer=DIRECT, fleet=None))
        self.assertIn("Terminal: LILLE. 2 of 4 shipments, 2 of 8 departures.", shown)
        self.assertEqual([re.search(r'id="(.*?)"', it)[1] for it in in_sight(shown, "section") if 'class="sheet"' in it], ["terminal-3"])
        self.assertEqual(len([it for it in in_sight(shown, "path") if "departure" in it]), 2)

    def test_the_chart_of_many_shipments_opens_with_a_choice(self):
        text = page_text(*many_shipments(151))
        self.assertNotRegex(after("", text), r"<details [^>]*open")
        self.assertRegex(after(CHOOSE % ("s", "5"), text), r"<details [^>]*open")

    def test_sheets_of_paper(self):
        with tempfile.TemporaryDirectory() as folder:
            chromium(folder, page_text(fleet=FLEET), ["--no-pdf-header-footer", f"--print-to-pdf={folder}/page.pdf"])
            data = pathlib.Path(folder, "page.pdf").read_bytes()
        # The chart, the tables, the table of terminals and a sheet for each of four, the table of trucks and a sheet for each of two.
        self.assertEqual(len(re.findall(rb"/Type\s*/Page\b", data)), 1 + 1 + 5 + 3)


if __name__ == "__main__":
    unittest.main()
