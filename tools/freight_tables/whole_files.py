"""Files that are read whole, and written whole or not at all."""

import os
import pathlib
import sys
import tempfile

from .faults import WordsRefusal


def reason(error):
    return (error.strerror or str(error)).lower()


def read(path):
    """The bytes of a file; a sentence where it can't be read."""
    try:
        return pathlib.Path(path).read_bytes()
    except OSError as error:
        raise WordsRefusal(f"{path} can't be read: {reason(error)}") from None


def is_special(path):
    """Whether a path is a device or a pipe, which is written to and not replaced."""
    return os.path.exists(path) and not os.path.isfile(path) and not os.path.isdir(path)


def prepared(path, data):
    """A new file beside the one to write that holds the bytes already, with the rights that a new file gets."""
    mask = os.umask(0)
    os.umask(mask)
    handle, name = tempfile.mkstemp(prefix=f".{path.name}.", dir=path.parent)
    try:
        with os.fdopen(handle, "wb") as file:
            file.write(data)
        os.chmod(name, 0o666 & ~mask)
    except OSError:
        os.unlink(name)
        raise
    return name


def remove(names):
    for name in names:
        if os.path.exists(name):
            os.unlink(name)


def write(files):
    """Writes each (path, bytes): all bytes are on disk before the first file gets its name."""
    ready = {}
    for path, data in files:
        target = pathlib.Path(path).resolve()
        try:
            if target.is_dir():
                raise IsADirectoryError(0, "it is a folder")
            if is_special(target):
                target.write_bytes(data)
            else:
                ready[prepared(target, data)] = target
        except OSError as error:
            remove(ready)
            raise WordsRefusal(f"{path} can't be written: {reason(error)}; nothing was written") from None
    for name, target in ready.items():
        os.replace(name, target)


def to_output(data):
    """Writes to standard output; a sentence where that fails."""
    try:
        sys.stdout.buffer.write(data)
        sys.stdout.buffer.flush()
    except OSError as error:
        sys.stdout = open(os.devnull, "w")  # So that nothing is written once more at the end.
        raise WordsRefusal(f"standard output can't be written: {reason(error)}") from None
