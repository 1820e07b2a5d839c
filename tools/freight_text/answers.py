"""What an answer of the program says beside itself, in words, for standard error."""

import re

from . import rejections
from .days import stuck_words
from .faults import readings
from .instances import instance_of, least_times
from .options import option
from .records import records_of

STATUSES = {
    30: "a read of standard input failed; nothing was written",
    31: "a write failed: what was written is the front of the answer",
    40: "there wasn't memory enough; nothing was written",
    41: "the system didn't hand over the words as text; nothing was done",
}
SMALL, LARGE = 16_777_216, 134_217_728
LIMITS = {
    **dict.fromkeys(("direct", "plan", "bound", "replan", "quote"), SMALL), **dict.fromkeys(("check", "yard", "fleet", "improve"), LARGE),
}  # fmt: skip
# Beyond so many bytes the place of a fault isn't looked for, since that would take longer than the answer did.
READ_AGAIN = 32_000_000
# A line of what is told after an instance: a kept leg, or the present.
TOLD_LINE = re.compile(rb'(?:^|[\r\n])[ \t"]*(?:kept|now)[ \t",]')

# What a search can use up: the most that it may be given, what it has without the option, and what each one does.
BUDGETS = {
    "rounds": (4_000, 400, "a round adds time points, so that more departures are told apart"),
    "branches": (100_000, 4_000, "a branch parts the plans of a leaf into two, so that the bound can rise"),
}


def infeasible_words(records, name, time):
    instance = instance_of(records)
    shipment = instance.shipments[name]
    room = shipment.due - shipment.release
    if time == "none":
        reached = len(least_times(instance, shipment.origin)) - 1
        return [
            f"line {shipment.line}: no way leads from {shipment.origin} to {shipment.destination} for {name}",
            f"from {shipment.origin} {reached} other terminals can be reached",
        ]
    return [f"line {shipment.line}: {name} takes {int(time):,} at the fastest, and has {room:,} from RELEASE to DUE"]


def spent_words(words, spent):
    """What was used up, and what more of it buys."""
    if spent == "time":
        return f"its {option(words, '--seconds', 0):,} seconds were over: with more the cost may fall or the bound rise"
    most, without, effect = BUDGETS[spent]
    used = option(words, f"--{spent}", without)
    if used == most:
        return f"all {used:,} {spent} were used, as many as there may be: {effect}; a smaller instance is searched further"
    more = min(most, 2 * used or without)
    spans = "" if "--spans" in words else "--spans or "
    return f"all {used:,} {spent} were used: {effect}; with {spans}--{spent} {more} (at most {most}) it takes longer, and the cost may fall or the bound rise"


def keeps_records(command, data):
    """Whether a search is among the plans that keep legs or go on with a day."""
    return command == "replan" or command == "improve" and TOLD_LINE.search(data) is not None


def unfinished_words(words, data, cost, bound, spent):
    gap = cost - bound
    none = "no plan that keeps the legs" if keeps_records(words[0], data) else "no plan"
    return [
        f"{none} costs less than {bound:,}, and the one printed costs {cost:,}: at most {gap:,} more than the cheapest, {100 * gap / cost:.1f} % of its cost",
        spent_words(words, spent),
    ]


def quoted_words(name, low, high, added=None, unfinished=None):
    """What a quote tells that isn't one number; one by a name has what the shipment adds, and which search ended unfinished."""
    searches = {"before": "the search without it", "after": "the search with it", "both": "each of the two searches"}
    search = searches.get(unfinished, "a search, of those without it and with it,")
    spent = f"carrying {name} costs {int(low):,} to {int(high):,} more: {search} had used up its rounds, its branches or its time"
    more = "--rounds N, --branches N and --seconds N give the searches more, and bring the two numbers closer together"
    return [spent, *([f"between the two timetables that were found {name} adds {int(added):,}"] if added else []), more]


def unread_words(fields):
    """What is said of an input that is too long to be read again."""
    if fields[0] == "rejected":
        number = int(fields[1])
        return [f"part {number} of the certificate fails: {rejections.PARTS[number]}"]
    if fields[0] == "refused" and len(fields) == 3:
        return [f"record {int(fields[1]):,} has the fault {fields[2]}: docs/formats.md has the codes"]
    return []


def explanation(words, status, data, answer):
    """The lines on an answer: none where it needs no words. `data` and `answer` are what was read and printed."""
    if status in STATUSES:
        return [STATUSES[status]]
    fields = answer.decode("latin-1").split("\n", 1)[0].split(",")
    if fields == ["refused", "long"]:
        return [f"more than {LIMITS.get(words[0], 0):,} bytes came"]
    if fields[:2] == ["answer", "unfinished"]:
        return unfinished_words(words, data, int(fields[2]), int(fields[3]), fields[4])
    if fields[0] == "quote":
        return quoted_words(*fields[1:]) if status == 10 else []
    if len(data) > READ_AGAIN:
        return unread_words(fields)
    records = records_of(data)
    if fields[0] == "refused" and len(fields) == 3:
        return readings.explanation(words, records, data, int(fields[1]), int(fields[2]))
    if fields[0] == "rejected":
        return rejections.explanation(records, int(fields[1]))
    if fields[:2] == ["answer", "infeasible"]:
        return infeasible_words(records, fields[2], fields[3])
    if fields[:2] == ["answer", "stuck"]:
        return stuck_words(records, fields[2])
    if status == 0 and not any(it.kind == "shipment" for it in records):
        return ["the instance has no shipments"]
    return []
