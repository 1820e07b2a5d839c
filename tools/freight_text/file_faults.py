"""A sentence on a file that can't be used, with the file's name in front."""


class FileFault(Exception):
    """A sentence on what is wrong with a file, or with words that stand for one."""


def at(record, words):
    """The sentence on a record of a file."""
    return f"line {record.line}: {words}"


def of_file(path, read):
    """What a function gives. Its FileFault gets the name of the file."""
    try:
        return read()
    except FileFault as fault:
        raise FileFault(f"{path}: {fault}") from None
