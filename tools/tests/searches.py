"""A stand-in that searches: it writes notes, and then waits until it is ended, so that a test stops it where it wants to."""

import os
import pathlib
import subprocess
import time

from repository import ENOUGH, INSTANCE, InRepository

# What is noted last, and what stands in for the answer; CUT is the front of a timetable that a kill has cut off.
DEAR = "answer,direct,300\nleg,S1,A,B,0,4\ntruck,A,B,0,1,4\nend\n"
CHEAP = "answer,direct,250\nleg,S1,A,B,1,5\ntruck,A,B,1,1,4\nend\n"
CUT = "answer,direct,240\nleg,S1,A,B,2"
NOTES = f"{DEAR}note,0,0,300,100\n{CHEAP}note,3,1,250,200\n"

# Over no input it ends at once, since then its words are tried. It writes what stands in the file `notes` and then does what stands
# in the file `does`. `check` keeps what it read as `checked`, and does what stands in the file `checks`.
SEARCH = """#!/bin/sh
echo "$*" >>"{top}/runs"
input=$(cat && echo .)
[ "$input" != . ] || exit 0
if [ "$1" = check ]; then
  printf %s "${{input%.}}" >"{top}/checked"
  . "{top}/checks"
fi
case "$*" in *--notes*) cat "{top}/notes" >&2 ;; esac
echo $$ >"{top}/searches"
. "{top}/does"
"""
WAITS = "exec sleep 600\n"
ACCEPTS = "echo accepted,direct; exit 0\n"
REJECTS = "echo rejected,1; exit 12\n"


class Searches(InRepository):
    """A repository whose program searches."""

    def setUp(self):
        super().setUp()
        self.repository.place(self.repository.shipped, SEARCH.format(top=self.top))
        self.repository.record(self.repository.shipped)
        self.folder = self.top / "folder"
        self.folder.mkdir()
        self.searches(NOTES)
        self.write("day", INSTANCE)

    def searches(self, notes, does=WAITS, checks=ACCEPTS):
        for name, text in (("notes", notes), ("does", does), ("checks", checks)):
            self.write(name, text.encode())

    def begin(self, words="plan day", quiet=False, wait=True, **more):
        """A run of a group of its own that has read all notes, where it's waited for that."""
        (self.top / "searches").unlink(missing_ok=True)
        names = self.repository.names(False, quiet, {"TMPDIR": str(self.folder)})
        streams = {"stdin": subprocess.DEVNULL, "stdout": subprocess.PIPE, "stderr": subprocess.PIPE, **more}
        run = subprocess.Popen([self.top / "freight", *words.split()], cwd=self.top, env=names, bufsize=0, start_new_session=True, **streams)
        self.addCleanup(self.end, run)
        if wait:
            self.wait_for(lambda: run.poll() is not None or self.is_noted())
        return run

    def is_noted(self):
        """Whether the program waits, and all timetables that it noted are kept."""
        count = min(2, (self.top / "notes").read_text().count("end\n"))
        kept = list(self.folder.glob("freight.*/timetable.*"))
        return self.program() and len(kept) == count and all(it.read_text().endswith("end\n") for it in kept)

    def program(self):
        """The number of the program's process, once it waits."""
        path = self.top / "searches"
        return int(path.read_text() or 0) if path.exists() else 0

    def wait_for(self, event):
        while not event():
            time.sleep(0.01)

    def end(self, run):
        if run.poll() is None:
            os.killpg(run.pid, 9)
            run.wait()
        for stream in (run.stdout, run.stderr):
            if stream:
                stream.close()

    def ends_with(self, run, status, printed, said=""):
        """That a run ends with a status, prints a text, says some words, and leaves nothing: all that it says."""
        text, words = (it.decode() for it in run.communicate(timeout=ENOUGH))
        self.assertEqual((run.returncode, text), (status, printed), words)
        self.assertIn(said, words)
        self.leaves_nothing()
        return words

    def leaves_nothing(self):
        """That neither a folder nor a file nor a process is left."""
        self.assertEqual([*self.folder.iterdir(), *self.top.glob(".freight*")], [])
        self.wait_for(lambda: not is_alive(self.program()))


def is_alive(process):
    """Whether a process is there and isn't one that has ended and isn't asked for."""
    try:
        return pathlib.Path(f"/proc/{process}/stat").read_text().rsplit(")", 1)[1].split()[0] != "Z"
    except FileNotFoundError:
        return False
