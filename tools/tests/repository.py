"""A small repository of its own, with stand-ins for the kit and the program, in which ./freight runs."""

import hashlib
import os
import pathlib
import shutil
import subprocess
import tempfile
import unittest

from programs import TOP

INSTANCE = (TOP / "examples/one-arc.csv").read_bytes()
ENOUGH = 600

# What the stand-in prints after `plan`, and its lines of a timetable.
UNFINISHED = "answer,unfinished,300,200,rounds\nleg,S1\ntruck,A\npoint,A,1,1\nleaf,1\nend\n"
TIMETABLE = "answer,unfinished,300,200,rounds\nleg,S1\ntruck,A\nend\n"

# Says which program it is, and keeps a list of its runs and what it read last. `direct` answers, `plan` ends unfinished, with a
# certificate, `bound` refuses what it reads, `yard 1` shows what it read, `quote` keeps its name, `fleet` has the status that the
# file `ends` has, and `trial` that of its seed. It takes --notes at the end, and writes none.
PROGRAM = """#!/bin/sh
echo "{name} $*" >>"{top}/runs"
words=$*
case ${{words% --notes}} in
direct | bound | 'yard 1') cat >"{top}/read" || exit 30 ;;
plan | 'plan --rounds 0') cat >"{top}/read" || exit 30; printf %s '{plan}'; exit 10 ;;
*--shipment*) echo refused,words; exit 20 ;;
quote*) cat >"{top}/read" || exit 30; printf %s "$2" >"{top}/named" ;;
fleet) exit "$(cat "{top}/ends")" ;;
trial*) exit "$2" ;;
*) echo refused,words; exit 20 ;;
esac
{wait}
case $1 in
direct) echo answer,{name},104 ;;
quote) echo quote,S,1,2 ;;
bound) echo refused,1,1; exit 21 ;;
yard) cat "{top}/read" ;;
esac
"""

# Builds what lies ready as `next`, like the kit does, and keeps a list of its builds.
KIT = """#!/bin/sh
[ "$1" != version ] || {{ echo kit-of-tests; exit; }}
echo "$*" >>"{top}/builds"
{wait}
mkdir -p out
cp "{top}/next" out/freight
"""


class Repository:
    """A repository with one crate above another, and where the kit is if it's there."""

    def __init__(self, folder):
        self.top = pathlib.Path(folder)
        for name in ("freight", "tools"):
            copy = shutil.copytree if (TOP / name).is_dir() else shutil.copy
            copy(TOP / name, self.top / name)
        (self.top / "crates.txt").write_text("freight: fp_app\nfp_app:\nfp_other:\n")
        for crate in ("freight", "fp_app", "fp_other"):
            (self.top / "crates" / crate / "src").mkdir(parents=True)
            self.edit(crate)
        (self.top / "kit").mkdir()
        self.built, self.shipped = self.top / "crates/freight/out/freight", self.top / "dist/freight-x86_64-linux"
        self.place(self.top / "kit/rt", self.kit())
        self.place(self.top / "next", self.program("built"))

    def program(self, name, wait=":"):
        return PROGRAM.format(name=name, top=self.top, wait=wait, plan=UNFINISHED)

    def kit(self, wait=":"):
        return KIT.format(top=self.top, wait=wait)

    def place(self, path, text):
        path.parent.mkdir(parents=True, exist_ok=True)
        path.write_text(text)
        path.chmod(0o755)

    def edit(self, crate):
        with open(self.top / "crates" / crate / "src/lib.rt", "a") as file:
            file.write("// one more line\n")

    def record(self, path, kit=False):
        """Writes down of which sources a program is, on a machine with the kit or without it."""
        sources = subprocess.run([self.top / "tools/sources"], capture_output=True, text=True, check=True).stdout.strip()
        subprocess.run([self.top / "tools/record", path, f"{path}.record", sources], env=self.names(kit, False), check=True)

    def checksum(self, path):
        return hashlib.sha256(path.read_bytes()).hexdigest()

    def ship(self, **more):
        self.place(self.shipped, self.program("shipped", **more))
        self.record(self.shipped)

    def forget(self):
        """Takes the shipped program away."""
        shutil.rmtree(self.shipped.parent)

    def lines(self, name):
        return (self.top / name).read_text().splitlines() if (self.top / name).exists() else []

    def names(self, kit, quiet, more=None):
        """The environment of a run."""
        path = f"{self.top}/kit:/usr/bin:/bin" if kit else "/usr/bin:/bin"
        kept = {name: value for name, value in os.environ.items() if name not in ("FREIGHT_QUIET", "TMPDIR")}
        return {**kept, "PATH": path, **({"FREIGHT_QUIET": "1"} if quiet else {}), **(more or {})}

    def run(self, words="direct", kit=True, quiet=False, start=None, names=None, **ends):
        """A run with some words, of `start` if that is another path to the launcher; `names` are more of the environment."""
        words = words.split() if isinstance(words, str) else words
        ends = {"stdout": subprocess.PIPE, **({} if "stdin" in ends else {"input": INSTANCE}), **ends}
        command = [start or self.top / "freight", *words]
        return subprocess.run(command, stderr=subprocess.PIPE, env=self.names(kit, quiet, names), timeout=ENOUGH, **ends)


class InRepository(unittest.TestCase):
    """Tests in a repository that has a shipped program."""

    def setUp(self):
        folder = tempfile.TemporaryDirectory()
        self.addCleanup(folder.cleanup)
        self.repository = Repository(folder.name)
        self.top = self.repository.top
        self.repository.ship()

    def ends(self, wanted, words, said="", **more):
        """That a run ends with a status and prints a text, and that what it says has some words."""
        done = self.repository.run(words, **more)
        self.assertEqual((done.returncode, done.stdout.decode()), wanted, done.stderr.decode())
        self.assertIn(said, done.stderr.decode())
        return done.stderr.decode()

    def write(self, name, data):
        """A file in the repository: its path."""
        path = self.top / name
        path.parent.mkdir(parents=True, exist_ok=True)
        path.write_bytes(data)
        return str(path)
