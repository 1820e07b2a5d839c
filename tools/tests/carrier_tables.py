"""A carrier's tables in tests: `import` and `export` run on files that are written for them."""

import contextlib
import io
import json
import pathlib
import sys
import tempfile
import unittest
import zoneinfo
from dataclasses import dataclass

TOP = pathlib.Path(__file__).resolve().parents[2]
sys.path.insert(0, str(TOP / "tools"))

from freight_tables import export_command, import_command  # noqa: E402

try:
    import openpyxl
except ImportError:
    openpyxl = None

needs_openpyxl = unittest.skipIf(openpyxl is None, "openpyxl isn't installed, which reads and writes .xlsx")
needs_zones = unittest.skipUnless(zoneinfo.available_timezones(), "this machine has no table of zones")
CARRIER = TOP / "examples/carrier"
DATA = pathlib.Path(__file__).resolve().parent / "data"
TERMINALS = "Name;Hold\nOrléans;00:30\nLyon;45 min\n"
LANES = "From;To;Travel time;Capacity;Cost per truck;Cost per unit\nOrléans;Lyon;04:30;33;480;1,5\n"
SHIPMENTS = "Shipment;From;To;Size;Ready;Due\nS 1;Orléans;Lyon;2,5;08:30;17:00\n"
TABLES = {"terminals.csv": TERMINALS, "lanes.csv": LANES, "shipments.csv": SHIPMENTS}


@dataclass
class Done:
    """How a command ended: its status, what it said, and the files that stand in its folder then, by name."""

    status: int
    said: str
    files: dict

    @property
    def lines(self):
        """The records of the instance."""
        return self.files["day.csv"].decode().splitlines()

    @property
    def names(self):
        return json.loads(self.files["day.names.json"])

    def record(self, kind):
        """The fields of the first record of a kind."""
        return next(it for it in self.lines if it.startswith(kind + ",")).split(",")

    def faults(self):
        return self.said.partition("nothing is written\n")[2].splitlines()


def run(main, files, words):
    """Runs a command in a folder with some files: words that name a file there stand for it."""
    with tempfile.TemporaryDirectory() as name:
        folder, said = pathlib.Path(name), io.StringIO()
        for file, content in files.items():
            (folder / file).write_bytes(content if isinstance(content, bytes) else content.encode())
        written = [str(folder / it) if it in files or it.startswith(("day.", "out.")) else it for it in words]
        with contextlib.redirect_stderr(said):
            status = main(written)
        found = {it.name: it.read_bytes() for it in folder.iterdir()}
        return Done(status, said.getvalue().replace(f"{folder}/", ""), found)


def imported(files, *words):
    return run(import_command.main, files, ["-o", "day.csv", *files, *words])


def exported(files, *words):
    return run(export_command.main, files, words)


def edited(table, before, after):
    """The usual tables with one text in one of them changed."""
    assert before in TABLES[table], before
    return {**TABLES, table: TABLES[table].replace(before, after)}


def dated(ready, due):
    """The usual tables with other times of their shipment."""
    return edited("shipments.csv", "08:30;17:00", f"{ready};{due}")
