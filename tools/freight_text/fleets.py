"""The trucks of a timetable, each with the departures that it runs, from what `fleet` prints."""

from collections import Counter, defaultdict, deque
from dataclasses import dataclass

from .faults.findings import counted
from .faults.line_fields import count_fault, digit_faults, named, range_faults, shown
from .file_faults import FileFault, at
from .timetables import Departure

# More trucks than these aren't shown one by one.
MOST_TRUCKS = 10_000
TIME, COUNT = (0, 10**6), (0, MOST_TRUCKS)
# The fields of the lines of `fleet` that trucks are made of, after the first; a name that no departure has needs no test of its own.
FLEET = {
    "start": (("FROM", "terminal"), ("TO", "terminal"), ("DEPART", TIME), ("COUNT", COUNT)),
    "turn": (("FROM", "terminal"), ("VIA", "terminal"), ("DEPART", TIME), ("TO", "terminal"), ("NEXT", TIME), ("COUNT", COUNT)),
}
OTHER = "this is the fleet of another timetable"


@dataclass(frozen=True)
class Truck:
    """A truck, numbered from 1, and the departures that it runs, one after the other."""

    number: int
    departures: tuple[Departure, ...]


def lines_of(record):
    """The truck lines that a line of `fleet` names, as Departure.key has them."""
    fields = record.fields
    first = (fields[1], fields[2], int(fields[3]))
    return [first, (fields[2], fields[4], int(fields[5]))] if record.kind == "turn" else [first]


def line_fault(keys, record):
    """What is wrong with a start or a turn, or None. The keys are those of the timetable's departures."""
    form, texts = FLEET[record.kind], record.fields[1:]
    if len(texts) != len(form):
        return count_fault([record.kind], form, len(record.fields))
    fields = named(form, texts)
    faults = [words for words, _ in digit_faults(fields)] + list(range_faults(fields))
    strange = [] if faults else [it for it in lines_of(record) if it not in keys]
    faults += [f"the answer has no truck line from {tail} to {head} at {depart}: {OTHER}" for tail, head, depart in strange]
    return faults[0] if faults else None


def check_lines(records, departures):
    """Raises FileFault where records aren't what `fleet` prints, or name lines that no departure is."""
    first = shown(",".join(records[0].fields)) if records else ""
    if not records:
        raise FileFault("it's empty: what fleet prints is wanted")
    if records[0].kind in ("rejected", "refused"):
        raise FileFault(f"fleet found no plan ({first}): there are no trucks to show")
    if records[0].kind != "fleet":
        raise FileFault(f"its first line is {first}, and what fleet prints begins with fleet")
    keys = {it.key for it in departures}
    for it in records:
        words = line_fault(keys, it) if it.kind in FLEET else None
        if words:
            raise FileFault(at(it, words))
    if records[-1].kind != "end":
        raise FileFault('the line "end" is missing: the file was cut')
    trucks = sum(int(it.fields[4]) for it in records if it.kind == "start")
    if trucks > MOST_TRUCKS:
        raise FileFault(f"it has {trucks:,} trucks, and up to {MOST_TRUCKS:,} are shown one by one")


def starts_and_turns(records):
    """How many trucks begin with each departure, and after each departure which ones are run next by how many."""
    starts, turns = Counter(), defaultdict(list)
    for it in records:
        if it.kind == "start":
            starts[lines_of(it)[0]] += int(it.fields[4])
        elif it.kind == "turn":
            before, after = lines_of(it)
            turns[before].append((after, int(it.fields[6])))
    return starts, turns


def followed(departures, starts, turns):
    """The trucks, numbered as they begin. Those that meet in a departure are alike: the one that came first goes on first."""
    waiting, runs = defaultdict(deque), []
    for departure in sorted(departures, key=lambda it: it.depart):
        for _ in range(starts[departure.key]):
            waiting[departure.key].append(len(runs))
            runs.append([])
        here = waiting[departure.key]
        for truck in here:
            runs[truck].append(departure)
        for after, count in turns[departure.key]:
            for _ in range(min(count, len(here))):
                waiting[after].append(here.popleft())
    return [Truck(number, tuple(it)) for number, it in enumerate(runs, 1)]


def check_counts(departures, trucks):
    """Raises FileFault where not as many trucks run a departure as it takes."""
    runs = Counter(it.key for truck in trucks for it in truck.departures)
    for it in departures:
        if runs[it.key] != it.trucks:
            line = f"the line from {it.tail} to {it.head} at {it.depart}"
            raise FileFault(f"{line} gets {counted(runs[it.key], 'truck')}, and takes {it.trucks}: {OTHER}")


def trucks_of(records, departures):
    """The trucks of a timetable's departures, from the records that `fleet` printed. Raises FileFault where these are others'."""
    check_lines(records, departures)
    trucks = followed(departures, *starts_and_turns(records))
    check_counts(departures, trucks)
    return trucks
