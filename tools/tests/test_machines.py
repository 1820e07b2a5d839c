"""Other machines: no /proc, no locks, no room, no Python or an old one, and a program that doesn't start."""

import os
import pathlib
import shutil
import subprocess
import sys
import unittest

sys.dont_write_bytecode = True
sys.path.insert(0, str(pathlib.Path(__file__).resolve().parent))
from programs import TOP  # noqa: E402
from repository import INSTANCE, UNFINISHED, InRepository  # noqa: E402

ANSWER = "answer,shipped,104\n"
REFUSED = "refused,1,1\n"

# Scripts that run beside the program, and what of bash goes through /proc or a temporary file.
SCRIPTS = ("freight", "tools/records", "tools/record", "tools/sources", *sorted(f"tools/launcher/{it.name}" for it in (TOP / "tools/launcher").glob("*.bash")))
THROUGH_FILES = ("<(", ">(", "<<", "/dev/fd", "/dev/std", "/proc", "coproc", "tee ")

# What the launcher needs beside bash: with these commands alone on the path it answers. With awk it keeps notes too.
COMMANDS = (
    "cat", "chmod", "cut", "dirname", "find", "grep", "mkfifo", "mktemp", "mv", "readlink", "rm", "sed", "sha256sum", "sort", "tail", "tr", "uname", "wc", "xargs",
    "env", "bash", "sh",
)  # fmt: skip

# With which status the program ends, and what is said of it.
STARTS = (
    (1, "glibc 2.34 or later"),
    (126, f"it is for x86-64 Linux, this machine is {os.uname().sysname} {os.uname().machine}"),
    (127, "the loader that it needs, is not here"),
    (137, "the program was ended by signal 9, without an answer"),
)


def can_mount():
    """Whether a run may have mounts of its own here."""
    done = subprocess.run(["unshare", "-m", "mount", "-t", "tmpfs", "none", "/proc"], capture_output=True) if shutil.which("unshare") else None
    return done is not None and done.returncode == 0


class Path(InRepository):
    """With a path of its own: commands that are missing, and stand-ins for some."""

    def setUp(self):
        super().setUp()
        self.path = self.top / "path"
        self.path.mkdir()
        for name in COMMANDS:
            (self.path / name).symlink_to(shutil.which(name))

    def place(self, name, text):
        (self.path / name).unlink(missing_ok=True)
        self.repository.place(self.path / name, "#!/bin/sh\n" + text)

    def ran(self, wanted, words, said="", **more):
        names = {"PATH": str(self.path), **more.pop("names", {})}
        return self.ends(wanted, words, said, names=names, **more)

    def test_few_commands_are_needed(self):
        self.assertEqual(self.ran((0, ANSWER), "direct"), "")
        self.assertEqual(self.ran((0, ANSWER), ["direct", self.write("day", INSTANCE)]), "")
        self.ran((0, ""), ["direct", "-o", str(self.top / "out")])

    def test_notes_need_awk(self):
        self.ran((10, UNFINISHED), "plan")
        (self.path / "awk").symlink_to(shutil.which("awk"))
        self.ran((10, UNFINISHED), "plan")
        self.assertEqual(self.repository.lines("runs"), ["shipped plan"] * 3 + ["shipped plan --notes"])

    def test_python(self):
        wanted = "install Python 3.9 or later, with its whole library"
        self.ran((21, REFUSED), "bound", f"status 21: {wanted}")
        self.place("python3", "exit 1")
        self.ran((21, REFUSED), "bound", wanted)
        self.ran((2, ""), "picture day answer", "picture needs Python 3.9 or later")
        self.assertEqual(self.ran((21, REFUSED), "bound", quiet=True), "")
        self.place("python3", f'exec {sys.executable} "$@"')
        self.assertNotIn("install", self.ran((21, REFUSED), "bound"))

    def test_an_old_python(self):
        old = 'case $* in -c*) shift; exec {} -c "import sys; sys.version_info = (3, 8); $1" ;; esac; echo traceback >&2'
        self.place("python3", old.format(sys.executable))
        self.assertNotIn("traceback", self.ran((21, REFUSED), "bound", "install Python 3.9"))

    def test_scripts_of_an_old_python(self):
        for name in ("import", "export", "picture", "explain"):
            script = f"import sys, runpy; sys.version_info = (3, 8); runpy.run_path('tools/{name}')"
            done = subprocess.run([sys.executable, "-c", script], cwd=TOP, capture_output=True, text=True)
            self.assertEqual((done.returncode, done.stderr), (1, f"freight {name}: it needs Python 3.9 or later\n"))

    def test_folders(self):
        gone = {"TMPDIR": "/nowhere"}
        self.ran((0, ANSWER), "direct", "/nowhere isn't a folder that can be written to: /tmp is used", names=gone)
        self.place("mktemp", "exit 1")
        for words in (["direct"], ["direct", self.write("day", INSTANCE)], ["direct", self.write("one", b"x"), self.write("two", b"y")]):
            said = self.ran((0, ANSWER), words, "/tmp isn't a folder that can be written to, and no other folder will do")
            self.assertEqual(len(said.splitlines()), 1)
        self.assertEqual((self.top / "read").read_bytes(), b"x\ny")
        self.assertEqual(self.ran((21, REFUSED), "bound", "no other folder").count("\n"), 1)

    def test_a_read_that_fails_where_nothing_is_kept(self):
        self.place("mktemp", "exit 1")
        folder = os.open(self.top, os.O_RDONLY)
        self.ran((30, ""), ["direct", self.write("day", INSTANCE), "-"], "a read failed", stdin=folder)
        os.close(folder)

    def test_no_pipe_and_no_room(self):
        self.place("mkfifo", "exit 1")
        self.ran((0, ANSWER), "direct", "/tmp has no room, and no other folder")

    def test_locks(self):
        """Without a lock nothing is waited for, and with one that another run has it is."""
        self.place("rt", f'exec {self.top}/kit/rt "$@"')
        for name in ("mkdir", "cp"):
            (self.path / name).symlink_to(shutil.which(name))
        for flock in (None, "echo no locks here >&2; exit 1", "case $1 in -n) exit 75 ;; esac"):
            self.repository.edit("fp_app")
            if flock:
                self.place("flock", flock)
            said = self.ran((0, "answer,built,104\n"), "direct", "proving and building it")
            self.assertEqual("another run is building" in said, flock is not None and "75" in flock)
            self.assertNotIn("no locks here", said)


class Starts(InRepository):
    def test_a_program_that_does_not_start(self):
        for status, said in STARTS:
            self.write("ends", str(status).encode())
            for words in ("fleet", f"trial {status} 2 0"):
                text = self.ends((status, ""), words, said)
                self.assertEqual(text.count("\n"), 1)
                self.assertEqual(self.ends((status, ""), words, quiet=True), "")

    def test_no_program_at_all(self):
        self.repository.shipped.write_bytes(b"\x7fELF of no machine")
        self.repository.record(self.repository.shipped)
        self.ends((126, ""), "direct", "the program can't be run here (status 126)")


class Mounts(InRepository):
    """In a place with mounts of its own, where such a place can be made."""

    def within(self, mounts, words):
        script = f'set -e\n{mounts}\nexec "$@"'
        command = ["unshare", "-m", "sh", "-c", script, "sh", self.top / "freight", *words]
        done = subprocess.run(command, input=INSTANCE, capture_output=True, env=self.repository.names(False, False))
        return done.returncode, done.stdout.decode(), done.stderr.decode()

    def test_scripts_need_no_proc(self):
        for name in SCRIPTS:
            text = "\n".join(line for line in (TOP / name).read_text().splitlines() if not line.lstrip().startswith("#"))
            self.assertEqual([it for it in THROUGH_FILES if it in text], [], name)

    @unittest.skipUnless(can_mount(), "no mounts can be made here")
    def test_no_proc(self):
        mounts = "mount -t tmpfs none /proc"
        self.assertEqual(self.within(mounts, ["direct"]), (0, ANSWER, ""))
        self.assertEqual(self.within(mounts, ["direct", self.write("day", INSTANCE)]), (0, ANSWER, ""))
        self.assertEqual(self.within(mounts, ["bound"])[:2], (21, REFUSED))

    @unittest.skipUnless(can_mount(), "no mounts can be made here")
    def test_a_full_folder(self):
        small = self.top / "small"
        small.mkdir()
        mounts = f"mount -t tmpfs -o size=100k none {small}\nexport TMPDIR={small}"
        self.assertEqual(self.within(mounts, ["direct"]), (0, ANSWER, f"freight: {small} has no room: /tmp is used (TMPDIR names the folder)\n"))
        large = self.write("large", b"\n" * 3_000_000 + INSTANCE)
        mounts = mounts.replace("100k", "2m")
        status, text, said = self.within(mounts, ["direct", large])
        self.assertEqual((status, text), (0, ANSWER))
        self.assertIn("has no room for the input: the answer comes without a word", said)
        self.assertEqual((self.top / "read").stat().st_size, 3_000_000 + len(INSTANCE))
        pipe = self.top / "pipe"
        for more, words in ((f"exec <{large}", ["direct"]), (f"mkfifo {pipe}; cat {large} >{pipe} &", ["direct", str(pipe)])):
            status, text, said = self.within(f"{mounts}\n{more}", words)
            self.assertEqual((status, text), (30, ""))
            self.assertIn("name the file in place of handing it on", said)
        self.assertEqual(self.within(mounts, ["direct", "-o", str(small / "out")])[:2], (0, ""))

    @unittest.skipUnless(can_mount(), "no mounts can be made here")
    def test_an_answer_that_does_not_fit_leaves_the_older_one(self):
        small = self.top / "small"
        small.mkdir()
        mounts = f"mount -t tmpfs -o size=40k none {small}; echo older >{small}/out; head -c 100000 /dev/zero >{small}/rest 2>/dev/null || true"
        script = f'{mounts}; "$@"; echo $? $(cat {small}/out) $(ls -A {small})'
        command = ["unshare", "-m", "sh", "-c", script, "sh", self.top / "freight", "direct", "-o", small / "out"]
        done = subprocess.run(command, input=INSTANCE, capture_output=True, env=self.repository.names(False, False))
        self.assertEqual(done.stdout, b"31 older out rest\n", done.stderr)
        self.assertIn(b"no file was written in part", done.stderr)


if __name__ == "__main__":
    unittest.main()
