"""The words of ./freight: each command with what it reads, its options and their ranges, and a line on each.

The words of the program are those that the proved program takes. The launcher's own words are never handed to it.
"""

from dataclasses import dataclass

VERSION = "0.2"
TITLE = "plans for less-than-truckload carriers, proved"
SUGGESTED = "./freight plan day.csv"


@dataclass(frozen=True)
class Range:
    """Whole numbers of 1 to 10 digits, from the least to the most. Zeros may stand before one that is `padded`."""

    least: int
    most: int
    padded: bool = True

    def __str__(self):
        return f"{self.least:,} to {self.most:,}"


@dataclass(frozen=True)
class Option:
    """An option: what it is called, what its value is called and where it lies (none: it takes no value), and a line on it.

    `without` is the number that the program has where the option is missing (none: there is no end then), and `short` a second way to write it.
    """

    name: str
    line: str
    value: str = ""
    range: Range = None
    without: int = None
    short: str = ""


@dataclass(frozen=True)
class Place:
    """A number that stands right after the command."""

    name: str
    range: Range


@dataclass(frozen=True)
class Command:
    """A command: what it reads, its numbers, the program's options and the launcher's, and a line on it.

    `script` names the script of tools/ to which the words are handed on; such a command isn't one of the program, and its script
    reads its options, `script_options`. `form` is what stands after such a command.
    """

    name: str
    line: str
    reads: str = ""
    places: tuple = ()
    options: tuple = ()
    own: tuple = ()
    script: str = ""
    script_options: tuple = ()
    form: str = ""


ROUNDS = Option("--rounds", "the most rounds that may add time points", "N", Range(0, 4_000), 400)
BRANCHES = Option("--branches", "the most splits of the search's tree", "N", Range(0, 100_000), 4_000)
SECONDS = Option("--seconds", "it ends then with the best it has", "N", Range(1, 86_400, padded=False))
SCALE = Option("--scale", "how many parts of prices make a unit of money", "N", Range(1, 1_000_000_000), 1_000_000)
SPANS = Option("--spans", "prices of runs of classes too: it takes longer, and mostly proves more")
NOTES = Option("--notes", "cost, bound and each cheaper timetable on standard error meanwhile")
TRUCKS = Option("--trucks", "what each truck runs too, with its load")

HELP = Option("--help", "this page, on standard output", short="-h")
OUTPUT = Option("--output", "the answer goes to FILE: whole, or not at all", "FILE", short="-o")
CERTIFICATE = Option("--certificate", "the whole answer goes to FILE, certificate and all: whole, or not at all", "FILE")
SHIPMENT = Option("--shipment", "the shipment that is priced, in place of the last one; its name doesn't begin with -", "NAME")
TIMETABLE_ONLY = Option("--timetable-only", "shows the lines answer, leg, truck and end alone, and no certificate")
ALLOW_EMPTY = Option("--allow-empty", "an instance without shipments is as good as any: status 0, and no warning")

NAMES, FLEET = Option("--names", "the file of names that import wrote", "FILE"), Option("--fleet", "what fleet printed: adds what each truck runs", "FILE")
IMPORT = (
    Option("--output", "the instance goes to FILE, and its names beside it", "FILE", short="-o"),
    Option("--names", "where the names go, in place of beside the instance", "FILE"),
    Option("--columns", "which heading a column has, as shipments.size=Colis, or a file of such lines", "TEXT"),
    Option("--zone", "the zone of the clocks, as Europe/Paris", "TEXT"),
    Option("--day", "the day of clock times without a date, as 2026-12-31", "TEXT"),
    Option("--dates", "how 03/04/2026 is read: day-first or month-first", "TEXT"),
    Option("--decimal", "how 1,234 is read: point or comma", "TEXT"),
    Option("--time-unit", "what a bare number of time counts: min or h", "TEXT"),
)
EXPORT = (
    Option("--output", "the tables go to FILE", "FILE", short="-o"),
    NAMES,
    Option("--instance", "the instance: sizes, capacities, due times and slack are shown too", "FILE"),
    FLEET,
    Option("--by", "which timetable: terminal, shipment or truck", "TEXT"),
    Option("--to", "which form: csv, json or xlsx", "TEXT"),
)
PICTURE = (
    NAMES,
    FLEET,
    Option("--zero", "the moment of time 0, as 2026-03-02T00:00", "TEXT"),
    Option("--unit", "the unit of time, as 30s: a minute without it", "TEXT"),
)

SEED = Range(0, 2_147_483_647)
SEARCH = (ROUNDS, BRANCHES, SECONDS, SPANS, NOTES)
PLAN = (ROUNDS, BRANCHES, SCALE, SECONDS, SPANS, NOTES)
READER = (OUTPUT, ALLOW_EMPTY, HELP)
QUOTER = (SHIPMENT, *READER)
PLANNER = (OUTPUT, CERTIFICATE, TIMETABLE_ONLY, ALLOW_EMPTY, HELP)

COMMANDS = (
    Command("direct", "each shipment's fastest timetable; it joins nothing", "INSTANCE", own=PLANNER),
    Command("plan", "the cheapest timetable, with all that tells why", "INSTANCE", options=PLAN, own=PLANNER),
    Command("improve", "the cheapest timetable, going on from the answer's, so at most as dear", "INSTANCE [KEPT] ANSWER", options=PLAN, own=PLANNER),
    Command("bound", "a number under which no plan costs", "INSTANCE", options=(SECONDS, SPANS), own=READER),
    Command("check", "whether an answer's certificate is accepted for the instance", "INSTANCE [KEPT] ANSWER", own=READER),
    Command("yard", "each terminal's sheet of the answer's timetable, and one run of it", "INSTANCE [KEPT] ANSWER", (Place("SEED", SEED),), own=READER),
    Command("fleet", "the fewest trucks that run the answer's timetable, and which line each runs next", "INSTANCE [KEPT] ANSWER", options=(TRUCKS,), own=READER),
    Command("replan", "the cheapest timetable that keeps the legs of trucks that roll, or goes on from now", "INSTANCE KEPT", options=SEARCH, own=PLANNER),
    Command("quote", "what the last shipment, or one of a name, adds to the cost: at least and at most", "INSTANCE", options=SEARCH, own=QUOTER),
    Command(
        "trial",
        "what plan answers of an instance that is drawn; it reads nothing",
        places=(Place("SEED", SEED), Place("TERMINALS", Range(2, 100)), Place("SHIPMENTS", Range(0, 500))),
        own=(OUTPUT, HELP),
    ),
    Command("import", "a carrier's tables to an instance", own=(HELP,), script="import", script_options=IMPORT, form="TABLE.. -o day.csv"),
    Command(
        "export",
        "an answer back in the names, dates and units of the tables",
        own=(HELP,),
        script="export",
        script_options=EXPORT,
        form="ANSWER --names FILE",
    ),
    Command(
        "picture",
        "a timetable as a page for a browser",
        own=(HELP,),
        script="picture",
        script_options=PICTURE,
        form="INSTANCE ANSWER [CHECKED]",
    ),
    Command("help", "this page, or the page of a command", own=(HELP,), form="[COMMAND]"),
)

# What stands for a command without being one: each with a line on it.
WHOLE = (Option("--help", "this page, on standard output", short="-h"), Option("--version", "the version, the program's checksum and its kit"))

RECORDS = (
    "INSTANCE is CSV: terminal,NAME[,HOLD]   arc,FROM,TO,TIME,CAPACITY,TRUCK,FREIGHT   shipment,NAME,FROM,TO,SIZE,RELEASE,DUE",
    "KEPT, after it: kept,SHIPMENT,FROM,TO,DEPART[,ARRIVE]   now,TIME.   ANSWER is what plan, direct or replan printed of them.",
    "Files are read one after the other, as cat would; without a file it's standard input that is read, and - stands for it.",
)
LIMITS = "100 terminals, 1,000 arcs, 500 shipments, times to 100,000, 16 MB of input, 128 MB for check, yard, fleet and improve"


@dataclass(frozen=True)
class Status:
    """What an end tells, whether it has an answer that -o keeps, and whether the program ends so or the launcher alone."""

    number: int
    line: str
    is_answer: bool = False
    launcher: bool = False


STATUSES = (
    Status(0, "the answer", True),
    Status(1, "the loader couldn't start the program: its C library is older than glibc 2.34", launcher=True),
    Status(2, "no proved program of these sources is here, or it couldn't be built", launcher=True),
    Status(10, "a plan that isn't proved the cheapest, with a bound", True),
    Status(11, "no plan exists, or none that keeps the legs or goes on from now", True),
    Status(12, "the certificate isn't accepted", True),
    Status(13, "the answer, of an instance without shipments: a warning", True, True),
    Status(20, "the words are none of the forms"),
    Status(21, "the records have a fault"),
    Status(22, "the input is too long"),
    Status(30, "a read failed"),
    Status(31, "a write failed"),
    Status(40, "memory is wanting"),
    Status(41, "the system gave no words"),
    Status(126, "the program can't be run: not executable, or made for another machine", launcher=True),
    Status(127, "the program, or what it needs to start, isn't there", launcher=True),
    Status(129, "a search was stopped by SIGHUP: the best timetable so far is handed over", launcher=True),
    Status(130, "a search was stopped by SIGINT, which is Ctrl-C: likewise", launcher=True),
    Status(143, "a search was stopped by SIGTERM: likewise", launcher=True),
)

EXAMPLES = (
    ("./freight plan examples/carrier-day.csv -o answer.csv", "plan a day, and keep the answer"),
    ("./freight check examples/carrier-day.csv answer.csv", "have it checked"),
    ("./freight fleet examples/carrier-day.csv answer.csv", "see which truck runs what"),
)


def command_named(name):
    """The command of a name."""
    return next(it for it in COMMANDS if it.name == name)


def numbers_of(command):
    """The options of a command that take a number."""
    return [it for it in command.options if it.range]


def options_of(command):
    """All options of a command: the program's, its script's, and the launcher's."""
    return [*command.options, *command.script_options, *command.own]
