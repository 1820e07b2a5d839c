"""The description of the words: what is made from it, that the program agrees with it, and which word is said to be at fault."""

import os
import pathlib
import re
import shutil
import subprocess
import sys
import tempfile
import unittest

sys.dont_write_bytecode = True
HERE = pathlib.Path(__file__).resolve().parent
sys.path[:0] = [str(HERE), str(HERE.parent)]
from freight_tables import export_words, import_words  # noqa: E402
from freight_text.page import command as page_command  # noqa: E402
from freight_words.description import COMMANDS, STATUSES, command_named, numbers_of, options_of  # noqa: E402
from freight_words.files import made  # noqa: E402
from programs import TOP, proved  # noqa: E402

PLAIN_FILE = str(TOP / "README.md")

# Words of which one is at fault, and what is said of it.
FAULTS = (
    ("", "no command stands here"),
    ("plann", '"plann" is no command: did you mean plan?'),
    ("chekc", "did you mean check?"),
    ("x", '"x" is no command\n'),
    ("yard -1", "yard has no option -1\n"),
    (PLAIN_FILE, "is a file, and a command stands before it"),
    ("plan --rounds 5000", "--rounds takes 0 to 4,000, and 5000 is out of that range"),
    ("plan --rounds=5000", "and 5000 is out of that range"),
    ("plan --scale 0", "--scale takes 1 to 1,000,000,000, and 0 is out"),
    ("plan --branches many", '--branches takes a whole number, 0 to 100,000, and "many" is none'),
    ("plan --branches", '--branches takes a whole number, 0 to 100,000, and "" is none'),
    ("plan --branches -5", 'and "-5" is none'),
    ("plan --branches 00000000001", "in at most ten digits, and 00000000001 has 11"),
    ("plan --seconds 0", "--seconds takes 1 to 86,400, and 0 is out of that range"),
    ("bound --seconds=86401", "and 86401 is out of that range"),
    ("quote --seconds 086", "--seconds takes 1 to 86,400 without a 0 before it, and 086 has one"),
    ("plan --seconds 5 --seconds=5", "--seconds stands here twice"),
    ("check --seconds 5", "check doesn't take --seconds: it is an option of plan, improve, bound, replan, quote"),
    ("plan --round 5", "plan has no option --round: did you mean --rounds?"),
    ("plan --round=5", "did you mean --rounds?"),
    ("plan --turns 3", "plan has no option --turns\n"),
    ("plan --rounds 5 --rounds=6", "--rounds stands here twice"),
    ("plan --spans --spans", "--spans stands here twice"),
    ("plan --spans=3", "--spans takes no value"),
    ("bound --rounds 5", "bound doesn't take --rounds: it is an option of plan, improve, replan, quote"),
    ("replan --scale 7", "replan doesn't take --scale: it is an option of plan, improve"),
    ("plan --", "-- is no word here"),
    ("yard", "yard takes SEED too, 0 to 2,147,483,647"),
    ("yard 2147483648", "SEED takes 0 to 2,147,483,647, and 2147483648 is out of that range"),
    ("yard day.csv", 'SEED takes a whole number, 0 to 2,147,483,647, and "day.csv" is none'),
    ("trial 7 8", "trial takes SHIPMENTS too, 0 to 500"),
    ("trial 7 1 30", "TERMINALS takes 2 to 100, and 1 is out of that range"),
    ("trial 7 8 30 9", 'trial takes SEED TERMINALS SHIPMENTS and no word more, and "9" is one'),
    ("help plann", '"plann" is no command: did you mean plan?'),
    ("help plan bound", "help doesn't take these words together"),
)

# Words that the program never sees in these places: options of the launcher.
OWN_FAULTS = (
    ("plan -o", "-o takes the name of a file"),
    ("plan -o= day.csv", "-o takes the name of a file"),
    ("plan -o -", "without -o the answer goes to standard output"),
    ("plan -o a --output b", "--output stands here twice"),
    ("plan --certificate a --certificate=a", "--certificate stands here twice"),
    ("plan --allow-empty=yes", "--allow-empty takes no value"),
    ("quote --shipment", "--shipment takes the name of a shipment"),
    ("quote --shipment= day.csv", "--shipment takes the name of a shipment"),
    ("quote --shipment -P1 day.csv", '--shipment takes no name that begins with -, and "-P1" does: write its record behind all others'),
    ("quote --shipment=-- day.csv", 'and "--" does'),
    ("quote --shipment P1 --shipment=P1", "--shipment stands here twice"),
    ("plan --shipment P1", "plan doesn't take --shipment: it is an option of quote"),
    ("quote --shipments P1", "quote has no option --shipments: did you mean --shipment?"),
    ("plan --timetable", "plan has no option --timetable: did you mean --timetable-only?"),
    ("bound --certificate a", "bound doesn't take --certificate: it is an option of direct, plan, improve, replan"),
    ("trial 7 8 30 --allow-empty", "trial doesn't take --allow-empty"),
)

# Words in which none is at fault.
RIGHT = (
    "direct", "plan", "plan --rounds 4000 --branches=0 --scale 1 --spans", "plan --seconds=86400", "bound --spans --seconds 1", "check", "yard 0000000001", "fleet",
    "replan --spans --rounds 0", "quote --branches 100000", "improve --notes --scale=7 --rounds 0",
)  # fmt: skip

# Words of a quote, and the words of the program and the files that the launcher makes of them.
QUOTES = (
    ("quote --shipment P1 day.csv", "quote.P1.|.day.csv."),
    ("quote day.csv --rounds 5 --shipment=P1 --spans -", "quote.P1.--rounds.5.--spans.|.day.csv.-."),
    ("quote --shipment=a=b day.csv", "quote.a=b.|.day.csv."),
    ("quote --shipment=\u00e9*'$x day.csv", "quote.\u00e9*'$x.|.day.csv."),
    ("quote --rounds --shipment P1", "quote.--rounds.--shipment.|.P1."),
    ("quote P1", "quote.|.P1."),
)  # fmt: skip

SOURCES = "say() { echo \"$*\"; }; for part in words command_line faults; do . tools/launcher/$part.bash; done; refused() { read_words \"$@\" || echo refused; }; "


def in_launcher(command, cases):
    """What a command of the launcher's own prints of each case's words, all in one run."""
    loop = 'while [ $# -gt 0 ]; do mapfile -t given < <(printf %s "$1" | tr " " "\\n"); (COMMAND "${given[@]}"); printf "\\0"; shift; done'
    done = subprocess.run(["bash", "-uc", SOURCES + loop.replace("COMMAND", command), "bash", *cases], cwd=TOP, capture_output=True, text=True)
    return done.stdout.split("\0")[:-1], done.stderr


class Faults(unittest.TestCase):
    def test_the_word_at_fault(self):
        cases = FAULTS + OWN_FAULTS
        printed, errors = in_launcher("fault_of", [words for words, _ in cases])
        self.assertEqual((errors, len(printed)), ("", len(cases)))
        for (words, part), text in zip(cases, printed):
            with self.subTest(words=words):
                self.assertIn(part, text)
                self.assertRegex(text.splitlines()[1], r"^./freight help( [a-z]+)? has the (words|commands)$")
                self.assertEqual(len(text.splitlines()), 2)

    def test_no_word_at_fault(self):
        more = ["plan -o a day.csv --certificate=b --allow-empty --timetable-only", "quote day.csv --shipment P1", "quote --shipment=- --rounds 0"]
        printed, errors = in_launcher("fault_after", [*RIGHT, *more])
        self.assertEqual(("".join(printed), errors), ("", ""))

    def test_the_launcher_refuses_its_own_options(self):
        own = [words for words, part in OWN_FAULTS if "did you mean" not in part and "doesn't take" not in part]
        for cases, wanted in ((own, "refused\n"), (RIGHT, "")):
            printed, errors = in_launcher("refused", cases)
            self.assertEqual((printed, errors), ([wanted] * len(cases), ""))

    def test_the_name_of_a_shipment_is_the_first_word_of_the_program(self):
        printed, errors = in_launcher('told() { read_words "$@"; printf "%s." "${words[@]}" "|" "${files[@]}"; }; told', [words for words, _ in QUOTES])
        self.assertEqual((printed, errors), ([text for _, text in QUOTES], ""))

    @unittest.skipIf(proved() is None, "the proved program of these sources isn't here")
    def test_the_program_judges_the_same(self):
        for words, refused in [*((it, True) for it, _ in FAULTS + OWN_FAULTS), *((it, False) for it in RIGHT)]:
            done = subprocess.run([proved(), *words.split()], stdin=subprocess.DEVNULL, capture_output=True)
            self.assertEqual(done.returncode == 20, refused, words)

    @unittest.skipIf(proved() is None, "the proved program of these sources isn't here")
    def test_ranges_are_the_program_s(self):
        for command in COMMANDS:
            for option in numbers_of(command):
                for number, refused in ((option.range.least, False), (option.range.most, False), (option.range.most + 1, True)):
                    words = [command.name, option.name, str(number)]
                    done = subprocess.run([proved(), *words], stdin=subprocess.DEVNULL, capture_output=True)
                    self.assertEqual(done.returncode == 20, refused, words)


class Made(unittest.TestCase):
    def test_files_are_what_the_script_makes(self):
        for path, text in made().items():
            with self.subTest(path=path):
                self.assertEqual((TOP / path).read_text(), text, "tools/words makes it anew")
        self.assertEqual(sorted(it.stem for it in (TOP / "tools/launcher/help").iterdir()), sorted(it.name for it in COMMANDS if it.name != "help"))

    def test_options_of_scripts(self):
        parsers = {"import": import_words.words(), "export": export_words.words(), "picture": page_command.parser()}
        for name, parser in parsers.items():
            known = [word for it in options_of(command_named(name)) for word in (it.short, it.name) if word]
            self.assertEqual(sorted(known), sorted(word for it in parser._actions for word in it.option_strings))

    def test_the_usage_is_narrow(self):
        for line in (TOP / "tools/usage.txt").read_text().splitlines():
            self.assertLessEqual(len(line), 132)

    def test_statuses_of_the_pages(self):
        rows = re.findall(r"^\| (\d+) \|", (TOP / "docs/embedding.md").read_text(), re.M)
        self.assertEqual([int(it) for it in rows], [it.number for it in STATUSES])

    @unittest.skipUnless(shutil.which("groff"), "groff isn't here")
    def test_the_manual_page_has_no_fault(self):
        done = subprocess.run(["groff", "-man", "-ww", "-Tutf8", TOP / "docs/freight.1"], capture_output=True)
        self.assertEqual((done.returncode, done.stderr), (0, b""))


# What is typed, and what bash, zsh and fish offer for it, or some of it.
COMPLETED = (
    ("pl", {"plan"}), ("im", {"import", "improve"}), ("re", {"replan"}), ("--v", {"--version"}), ("help ya", {"yard"}), ("plan --ro", {"--rounds"}),
    ("quote --sh", {"--shipment"}), ("bound --s", {"--seconds", "--spans"}), ("bound --ro", set()), ("plan --timetable", {"--timetable-only"}), ("trial 1 2 3 --a", set()),
)  # fmt: skip


class Completions(unittest.TestCase):
    def test_bash(self):
        for typed, offered in COMPLETED:
            words = ["freight", *typed.split()]
            asked = f"COMP_WORDS=({' '.join(words)}) COMP_CWORD={len(words) - 1}; _freight; printf '%s\\n' \"${{COMPREPLY[@]}}\""
            done = subprocess.run(["bash", "-c", f". tools/completions/freight.bash; {asked}"], cwd=TOP, capture_output=True, text=True)
            self.assertEqual((set(done.stdout.split()), done.stderr), (offered, ""), typed)

    @unittest.skipUnless(shutil.which("fish"), "fish isn't here")
    def test_fish(self):
        home = tempfile.TemporaryDirectory()
        self.addCleanup(home.cleanup)
        for typed, offered in COMPLETED:
            asked = f"source tools/completions/freight.fish; complete -C 'freight {typed}'"
            done = subprocess.run(["fish", "--no-config", "-c", asked], cwd=TOP, capture_output=True, text=True, env={**os.environ, "HOME": home.name})
            self.assertEqual({it.split("\t")[0] for it in done.stdout.splitlines()}, offered, typed)

    @unittest.skipUnless(shutil.which("zsh"), "zsh isn't here")
    def test_zsh(self):
        """What the function hands to zsh's own ones, which a terminal alone would run."""
        shown = "_arguments() { print -l -- ${@%%\\[*} }; _describe() { print -l -- ${${(P)2}%%:*} }; "
        for typed, offered in COMPLETED:
            words = ["freight", *typed.split()]
            asked = f"{shown} words=({' '.join(words)}) CURRENT={len(words)}; . tools/completions/_freight"
            done = subprocess.run(["zsh", "-f", "-c", asked], cwd=TOP, capture_output=True, text=True)
            begins = {it.split(")")[-1] for it in done.stdout.splitlines() if it.split(")")[-1].startswith(words[-1])}
            self.assertEqual((begins & offered or begins, done.stderr), (offered, ""), typed)


if __name__ == "__main__":
    unittest.main()
