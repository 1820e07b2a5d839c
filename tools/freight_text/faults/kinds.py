"""What a record seems to be whose first field is none of the kinds."""

from ..instances import FIELDS, TOLD
from .contents import is_heading
from .near_names import near_kind
from .spaces import odd_space_hint
from .values import COMMENT, HEADER

# Where a line of a kind stands in a certificate.
GROUPS = {
    "answer": 0, "scale": 1, "unit": 2, "leg": 3, "truck": 4, "point": 5, "table": 6, "share": 6, "span": 6, "weight": 6, "group": 6, "gift": 6, "split": 7, "leaf": 7, "narrow": 7, "end": 8,
}  # fmt: skip
INSTANCE, CERTIFICATE = tuple(FIELDS), tuple(GROUPS)
SEPARATORS = {";": "semicolons", "\t": "tabs", "|": "bars"}
COMMENTS = ("#", "//", "--")
ORDER = "hand on the instance first and then its answer, as in: cat day.csv answer.csv | ./freight check"
KEPT_ORDER = "the instance's records stand before all kept legs: move them up"
CHECKERS = ("check", "yard", "fleet", "improve")
# The first fields of what may follow an instance.
TAILS = {**dict.fromkeys(CHECKERS, (*TOLD, "answer")), "replan": TOLD}
NAMED = {"kept": "kept legs", "now": "present"}
NO_ANSWER = 'an answer begins with its line "answer": none stands before this one'
# First fields of what commands print that is no answer, and what is said of answers that a certificate doesn't begin with.
PRINTED = ("refused", "rejected", "accepted")
UNCHECKED = {
    "bound": "an answer bound shows nothing that can be checked",
    "stuck": "an answer stuck is read after the kept or now records that replan was given: hand these on between the instance and the answer",
}


def separator_hint(text):
    """What is said where something else than commas separates fields; empty where nothing of the kind is there."""
    for separator, name in SEPARATORS.items():
        if separator in text:
            return f"the fields look separated by {name}: save the file with commas, or let ./freight import read the table (docs/tables.md)"
    return ""


def writing_hint(record):
    """What is said of a record by how it is written."""
    text = record.fields[0]
    if text.startswith(COMMENTS):
        return f"{COMMENT}: take such lines out"
    if not text:
        return "the first field is empty: is there a column too many?"
    if "\xef\xbb\xbf" in text:
        return "there is a second byte order mark: save the file with one or none"
    if text.split(",")[0] in INSTANCE + CERTIFICATE and "," in text:
        return "the record stands in quotes as one field: take the quotes out"
    return separator_hint(text) or odd_space_hint(text)


def command_hint(record, command):
    """What is said of a record of an answer or of kept legs, where the command reads an instance."""
    if record.kind in TOLD:
        return f"{command} reads no {NAMED[record.kind]}: ./freight replan, check, yard, fleet and improve do"
    if record.kind in PRINTED:
        return "a command has printed this, and it's no record: take its lines out"
    if record.kind not in CERTIFICATE:
        return ""
    if command in CHECKERS:
        return NO_ANSWER
    if record.ordinal == 1:
        return f"this is an answer: {command} reads an instance, from which it makes one"
    return f"{command} reads an instance alone: an answer after it is for ./freight check, yard, fleet or improve"


def instance_kind_hint(record, command):
    """What a record of no kind seems to be where an instance is read; empty where nothing is known."""
    hint = writing_hint(record) or command_hint(record, command)
    if hint:
        return hint
    if record.ordinal == 1 and is_heading(record):
        return f"{HEADER}: take it out"
    return kind_hint(record, INSTANCE + TAILS.get(command, ()))


def kind_hint(record, kinds):
    """The kind that is meant."""
    near = near_kind(record.kind, kinds)
    if near is None:
        return ""
    return f'"{near}" is one, in small letters' if near == record.kind.lower() else f'is there a typo? "{near}" is one'


def certificate_kind_hint(record):
    """What a record of no kind seems to be where an answer is read."""
    if record.kind in INSTANCE:
        return f"the instance's records stand after the answer: {ORDER}"
    if record.kind in TOLD:
        return "kept and now records are read by ./freight replan, check, yard, fleet and improve, after the instance and before an answer"
    if record.kind == "answer" and record.fields[1:2] and record.fields[1] in UNCHECKED:
        return UNCHECKED[record.fields[1]]
    return writing_hint(record) or kind_hint(record, CERTIFICATE)


def told_kind_hint(record, command):
    """What a record of no kind seems to be among kept legs and the present."""
    if record.kind in INSTANCE:
        return KEPT_ORDER
    if record.kind in CERTIFICATE:
        return "replan reads no answer: take its lines out" if command == "replan" else NO_ANSWER
    return writing_hint(record) or kind_hint(record, TAILS.get(command, TOLD))
