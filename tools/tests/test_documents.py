"""Whether the pages agree with the tree: links lead to files, what a page names stands in the sources, each promise has its
clause, the map has each crate, and no call of the walk goes back."""

import itertools
import pathlib
import re
import unittest

TOP = pathlib.Path(__file__).resolve().parents[2]
DOCS = TOP / "docs"
CRATES = sorted(TOP.glob("crates/*/README.md"))
PAGES = (TOP / "README.md", *sorted(DOCS.glob("*.md")), *CRATES)
NAMING = [DOCS / f"{name}.md" for name in ("architecture", "arguments", "changing", "promises")]
LINK = re.compile(r"\]\(([^)\s]+)\)")
CODE = re.compile(r"`([^`]+)`")
BLOCK = re.compile(r"^```.*?^```", re.MULTILINE | re.DOTALL)
NAME = re.compile(r"[A-Za-z]\w*(?:-\w+)*")
CALL = re.compile(r" ?(\d+) (\w+)[│├└ ─]+(?=\w)")


def links(page):
    """What a page links to in the repository, without the place in it."""
    named = LINK.findall(page.read_text())
    return [link.split("#")[0] for link in named if "://" not in link and not link.startswith("#")]


def code(text):
    """What is written as code in the lines of a text, not in blocks of their own."""
    return CODE.findall(BLOCK.sub("", text))


def names(text):
    """The names in a text that are written as code: of `fp_app::run` and `Points::add` the last one."""
    words = (it.split("::")[-1] for it in code(text))
    return {word for word in words if NAME.fullmatch(word)}


def paths(text):
    """The paths in a crate that are written as code, as `src/lib.rt` and `specs/Plans`; words in capitals stand for others."""
    written = (it for it in code(text) if re.fullmatch(r"(src|specs|proofs)/[\w./]+", it))
    return {it for it in written if not re.search(r"[A-Z]{3}", it)}


def stands(path, crate="*"):
    """Whether a path stands in some crate, or in this one."""
    return any(any(TOP.glob(f"crates/{crate}/{path}{ending}")) for ending in ("", ".rt", ".antt"))


def sources():
    """All words of the crates' sources, with the names of crates and of files."""
    files = [file for kind in ("src", "specs", "proofs") for file in TOP.glob(f"crates/*/{kind}/**/*.*t*")]
    words = {file.stem for file in files} | {crate.name for crate in TOP.glob("crates/*")}
    for file in files:
        words.update(NAME.findall(file.read_text()))
    return words


def crates():
    """The crates of crates.txt, the lowest first, each with its layer."""
    layer, found = "", {}
    for line in (TOP / "crates.txt").read_text().splitlines():
        title = re.match(r"# (\d+) ", line)
        layer = title[1] if title else layer
        if re.match(r"\w+:", line):
            found[line.split(":")[0]] = layer
    return found


def calls():
    """The lines of the walk: of each its layer, its crate, and how far to the right its call stands."""
    walk = (DOCS / "architecture.md").read_text().split("## The walk of an instance")[1].split("```")[1]
    found = [CALL.match(line) for line in walk.splitlines()[1:]]
    return [(call[1], call[2], call.end()) for call in found]


class Documents(unittest.TestCase):
    def test_links_lead_to_files(self):
        for page in PAGES:
            for link in links(page):
                with self.subTest(page=str(page.relative_to(TOP)), link=link):
                    self.assertTrue((page.parent / link).exists())

    def test_names_stand_in_the_sources(self):
        known = sources()
        for page in (*NAMING, *CRATES):
            with self.subTest(page=str(page.relative_to(TOP))):
                self.assertEqual(names(page.read_text()) - known, set())

    def test_paths_stand_in_their_crates(self):
        self.assertEqual([it for it in paths((DOCS / "changing.md").read_text()) if not stands(it)], [])
        for page in CRATES:
            crate = page.parent.name
            self.assertEqual([it for it in paths(page.read_text()) if not stands(it, crate)], [], crate)

    def test_each_promise_names_a_clause_of_run(self):
        top = (TOP / "crates/fp_app/src/top.rt").read_text()
        clauses = set(re.findall(r"ensures (\w+) \{", top[top.index("pub fn run<") :]))
        rows = re.findall(r"^\| (.+?) \| (.+?) \|", (DOCS / "promises.md").read_text(), re.MULTILINE)
        cited = set(itertools.chain(*(names(clause) for _, clause in rows)))
        self.assertEqual(clauses - cited, set(), "clauses that no row names")
        for claim, clause in rows:
            if names(clause):
                self.assertTrue(names(clause) & clauses, claim)

    def test_the_map_has_each_crate_in_order(self):
        page = (DOCS / "architecture.md").read_text()
        self.assertEqual(re.findall(r"^\| \[(\w+)\]", page, re.MULTILINE), list(crates()))

    def test_no_call_of_the_walk_goes_back(self):
        order = list(crates())
        above = []
        for layer, crate, right in calls():
            self.assertEqual(layer, crates()[crate], crate)
            above = [call for call in above if call[1] < right]
            if above:
                self.assertLessEqual(order.index(crate), order.index(above[-1][0]), (above[-1][0], crate))
            above.append((crate, right))


if __name__ == "__main__":
    unittest.main()
