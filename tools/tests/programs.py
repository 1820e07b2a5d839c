"""The proved program of these sources, for tests that look at what it prints."""

import functools
import pathlib
import subprocess

TOP = pathlib.Path(__file__).resolve().parents[2]


@functools.cache
def proved():
    """Where it lies, or None where none is here that runs on this machine."""
    asked = '. tools/records; find_program && "$program" direct </dev/null >&2 && echo "$program"'
    return subprocess.run(["bash", "-c", asked], cwd=TOP, capture_output=True, text=True).stdout.strip() or None
