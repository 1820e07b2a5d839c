"""Runs programs: the proved one, others beside it, and small ones over some of the repository's crates."""
import contextlib
import os
import shutil
import subprocess
import sys
import tempfile
import threading
import time

TOP = os.path.dirname(os.path.dirname(os.path.abspath(__file__)))


def built_program():
    """The program that is named on the command line, or else the proved one, built here or in dist/."""
    if len(sys.argv) > 1:
        if not os.access(sys.argv[1], os.X_OK):
            sys.exit(f"{sys.argv[1]} is no program: name one, or none for the one that is built here")
        return sys.argv[1]
    for place in ("crates/freight/out/freight", "dist/freight-x86_64-linux"):
        path = os.path.join(TOP, place)
        if os.path.exists(path):
            return path
    sys.exit("no program is built here: run .ci/run (or ./freight direct < examples/one-arc.csv), or name one")


def measured(words, text="", limit=None, **ends):
    """What a program prints on a text, its seconds and its megabytes. It is ended after the seconds of the limit."""
    with tempfile.TemporaryFile() as source:
        source.write(text.encode())
        source.seek(0)
        start = time.monotonic()
        child = subprocess.Popen(words, stdin=source, stdout=subprocess.PIPE, **ends)
        if limit is not None:
            end = threading.Timer(limit, child.kill)
            end.start()
        printed = child.stdout.read().decode()
        child.stdout.close()
        _, _, usage = os.wait4(child.pid, 0)
        if limit is not None:
            end.cancel()
        return printed, time.monotonic() - start, usage.ru_maxrss / 1024


def planned(words, text):
    """The figures of a program with the command `plan`: cost, bound, ending, seconds and megabytes; and what it prints."""
    printed, seconds, megabytes = measured(words, text)
    fields = printed.split("\n", 1)[0].split(",")
    if fields[:2] == ["answer", "optimal"]:
        found = (int(fields[2]), int(fields[2]), "optimal")
    elif fields[:2] == ["answer", "unfinished"]:
        found = (int(fields[2]), int(fields[3]), fields[4])
    elif fields == ["refused", "words"]:
        sys.exit(f"{words[0]} has no command plan: build the program of these sources with .ci/run, or name another")
    else:
        sys.exit(f"{words[0]} says {','.join(fields)!r}")
    return (*found, seconds, megabytes), printed


def check_answer(program, name, text, printed):
    """The seconds in which the program's `check` accepts an answer to an instance; the run ends where it doesn't."""
    checked, seconds, _ = measured([program, "check"], text + printed)
    if not checked.startswith("accepted,"):
        sys.exit(f"{name}: check says {checked!r}")
    return seconds


def is_wanted(name):
    """Whether a row is to be run: where ONLY is set, those whose names have its word."""
    return os.environ.get("ONLY", "") in name


def row_of(cost, bound, ending, seconds, megabytes):
    """Figures as they stand in a table; nothing was found where there is no cost."""
    return f"{'-' if cost is None else cost:>8} {bound:>8} {ending:9} {seconds:8.1f} {megabytes:6.0f}"


def splits_of(printed):
    """How many splits of each kind the tree of an answer has: by an arc, by a time, by trucks and by a way, as 3/0/2/1."""
    kinds = [line.split(",", 2)[1] for line in printed.splitlines() if line.startswith("split,")]
    return "/".join(str(kinds.count(kind)) for kind in ("arc", "time", "trucks", "way"))


HEADS = f"{'cost':>8} {'bound':>8} {'ending':9} {'seconds':>8} {'MB':>6}"


def laid_out(folder, source, crates, uses):
    """Lays a program out as the crate `bench` of a repository in a folder; where that crate lies."""
    if shutil.which("rt") is None:
        sys.exit("this benchmark compiles a small program and needs the Rattle kit (the command rt)")
    for line in crates:
        name = line.split(":")[0]
        shutil.copytree(os.path.join(TOP, "crates", name), os.path.join(folder, "crates", name), ignore=shutil.ignore_patterns("out"))
    place = os.path.join(folder, "crates", "bench")
    os.makedirs(os.path.join(place, "src"))
    with open(os.path.join(place, "src", "main.rt"), "w") as file:
        file.write(source)
    with open(os.path.join(folder, "crates.txt"), "w") as file:
        file.write("\n".join(crates + ["bench: " + " ".join(uses)]) + "\n")
    return place


def run(source, crates, uses):
    """What the program prints. `crates` are the lines of crates.txt below it, `uses` the crates that it names."""
    with tempfile.TemporaryDirectory() as folder:
        place = laid_out(folder, source, crates, uses)
        done = subprocess.run(["rt", "try", "--seconds", "300"], cwd=place, stdout=subprocess.PIPE, stderr=subprocess.PIPE)
        if b"run=ended status=0" not in done.stderr:
            sys.exit(done.stderr.decode()[-2000:])
        return done.stdout.decode()


@contextlib.contextmanager
def proved(source, crates, uses):
    """The program, proved and built as the repository's own is: where it lies. It is run once with no words and no input."""
    with tempfile.TemporaryDirectory() as folder:
        place = laid_out(folder, source, crates, uses)
        done = subprocess.run(["rt", "run"], cwd=place, stdin=subprocess.DEVNULL, stdout=subprocess.PIPE, stderr=subprocess.PIPE)
        program = os.path.join(place, "out", "bench")
        if not os.path.exists(program):
            sys.exit((done.stdout + done.stderr).decode()[-2000:])
        yield program
