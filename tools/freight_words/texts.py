"""The usage, and the page of each command: what `help` prints."""

import textwrap

from .description import COMMANDS, EXAMPLES, LIMITS, RECORDS, STATUSES, TITLE, VERSION, WHOLE, options_of

WIDTH = 130
HANDED = "The words go to tools/{script}, which isn't proved and needs Python 3.9 or later; tools/{script} --help says more of its options."
MORE = (
    "Ctrl-C or SIGTERM ends a search of plan and replan with the best timetable so far, and one of quote with its figures so far.",
    "FREIGHT_QUIET=1 keeps standard error silent. ./freight help COMMAND has a command's options.",
    "docs/launcher.md has files, statuses and completions, docs/formats.md every field, line and refusal.",
)


def aligned(rows):
    """Rows of two, the second all from one column."""
    width = max(len(left) for left, _ in rows)
    return [f"  {left:{width}}  {right}" for left, right in rows]


def option_form(option):
    """How an option is written, as `-o, --output FILE`."""
    names = f"{option.short}, {option.name}" if option.short else option.name
    return f"{names} {option.value}".rstrip()


def option_line(option):
    """What an option is, with its range and what there is without it."""
    if not option.range:
        return option.line
    without = "no limit" if option.without is None else f"{option.without:,}"
    return f"{option.line}: {option.range}, {without} without it"


def operands(command):
    """What stands after the command and its options, as `SEED INSTANCE ANSWER`."""
    return " ".join([it.name for it in command.places] + [command.reads or command.form]).strip()


def takers(option):
    """The names of the commands that take an option."""
    return [it.name for it in COMMANDS if option in options_of(it)]


def all_options():
    """Each option of a command once, in the order in which commands name them, those of the program first."""
    named = [option for it in COMMANDS for option in it.options] + [option for it in COMMANDS for option in it.own]
    return list(dict.fromkeys(named))


def script_options():
    """Each option of a script once."""
    return list(dict.fromkeys(option for it in COMMANDS for option in it.script_options))


def option_rows():
    """Each option with what it is, and after those of the program the commands that take them."""
    rows = []
    for option in all_options():
        own = not any(option in it.options for it in COMMANDS)
        rows.append((option_form(option), option_line(option) + ("" if own else f" ({', '.join(takers(option))})")))
    return rows


def status_lines():
    """Every status in a few words, over some lines."""
    words = "; ".join(f"{it.number} {it.line.split(':')[0]}" for it in STATUSES)
    return textwrap.wrap(f"Statuses: {words}.", WIDTH)


def usage():
    """The text of tools/usage.txt."""
    commands = [(f"./freight {it.name} {operands(it)}", it.line) for it in COMMANDS]
    version = [it for it in WHOLE if it.name == "--version"]
    lines = [f"freight {VERSION}: {TITLE}", "", *aligned(commands + [(f"./freight {it.name}", it.line) for it in version])]
    lines += ["", *aligned(EXAMPLES), "", "Options, each at most once, in any order, also as --rounds=N:", *aligned(option_rows())]
    lines += ["", *RECORDS, f"Limits: {LIMITS}.", *status_lines(), *MORE]
    return "\n".join(lines) + "\n"


def sentence(text):
    return text[0].upper() + text[1:] + "."


def page(command):
    """The text of `help COMMAND`."""
    options = options_of(command)
    form = " ".join(filter(None, ["./freight", command.name, "[OPTION..]" if len(options) > 1 else "", operands(command)]))
    rows = [(it.name, f"a number, {it.range}") for it in command.places] + [(option_form(it), option_line(it)) for it in options]
    lines = [form, "", sentence(command.line), "", *aligned(rows)]
    if command.reads:
        lines += ["", *RECORDS]
    if command.script:
        lines += ["", HANDED.format(script=command.script)]
    return "\n".join(lines + ["", "./freight help has all commands, limits and statuses; docs/launcher.md says more."]) + "\n"


def pages():
    """The name of each command, with its page. The page of `help` is the usage."""
    return {it.name: usage() if it.name == "help" else page(it) for it in COMMANDS}
