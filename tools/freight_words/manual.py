"""The manual page, for `man`."""

from .description import COMMANDS, EXAMPLES, LIMITS, RECORDS, STATUSES, TITLE, VERSION, WHOLE
from .texts import all_options, operands, option_line, script_options, sentence, takers

MADE = '.\\" Made by tools/words from tools/freight_words/description.py: change that, and run tools/words.'
ABOUT = (
    "freight runs a proved planner. The program reads records and writes an answer, and its exit status tells what kind of answer it is. "
    "This launcher takes the program that the sources beside it gave, hands files on to it, and says on standard error what an answer means."
)
FILES = (
    ("dist/freight-x86_64-linux", "the proved program, which may be copied and run alone"),
    ("docs/launcher.md, docs/formats.md, docs/embedding.md", "the launcher; every field, line and refusal; programs that call this one"),
)


def escaped(text):
    """A text as roff shows it: no character of it is taken for a request."""
    text = text.replace("\\", "\\e").replace("-", "\\-").replace("'", "\\(aq")
    return "\\&" + text if text.startswith(".") else text


def entry(head, *lines):
    """A head in bold, and under it some lines."""
    return [".TP", f".B {escaped(head)}", *(escaped(it) for it in lines)]


def option_entry(option):
    names = ", ".join(filter(None, [option.short, option.name]))
    return entry(f"{names} {option.value}".strip(), sentence(option_line(option)), f"Taken by {', '.join(takers(option))}.")


def status_entry(status):
    kept = " It is an answer: \\-o keeps it." if status.is_answer else ""
    return entry(str(status.number), sentence(status.line))[:-1] + [escaped(sentence(status.line)) + kept]


def joined(groups):
    return [line for group in groups for line in group]


def manual():
    """The text of docs/freight.1."""
    forms = [["freight " + f"{it.name} {operands(it)}".strip(), sentence(it.line)] for it in COMMANDS]
    lines = [
        MADE, f'.TH FREIGHT 1 "" "freight {VERSION}" "User Commands"', ".SH NAME", f"freight \\- {escaped(TITLE)}",
        ".SH SYNOPSIS", ".B freight", ".I COMMAND", "[\\fIOPTION\\fR]... [\\fIFILE\\fR]...",
        ".SH DESCRIPTION", escaped(ABOUT), ".PP", *joined([escaped(it), ".br"] for it in RECORDS)[:-1],
        ".SH COMMANDS", *joined(entry(*it) for it in forms),
        ".SH OPTIONS", "Each is written at most once, in any order, its value as a word of its own or after =.", *joined(map(option_entry, all_options() + script_options())),
        *joined(entry(it.name, sentence(it.line), "It stands in place of a command.") for it in WHOLE if it.name != "--help"),
        ".SH LIMITS", escaped(sentence(LIMITS)), ".SH EXIT STATUS", *joined(map(status_entry, STATUSES)),
        ".SH ENVIRONMENT", *entry("FREIGHT_QUIET", "Where it is set, standard error is silent."),
        *entry("TMPDIR", "Where the input is kept while the program runs. Without room there the answer comes all the same."),
        ".SH FILES", *joined(entry(*it) for it in FILES),
        ".SH EXAMPLES", *joined(entry(command, sentence(line)) for command, line in EXAMPLES),
    ]  # fmt: skip
    return "\n".join(lines) + "\n"
