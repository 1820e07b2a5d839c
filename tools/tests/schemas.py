"""Whether a value keeps a JSON schema, for the words that docs/answer.schema.json uses. No package is needed for it."""

import json
import pathlib
import re

ANSWER = json.loads((pathlib.Path(__file__).resolve().parents[2] / "docs/answer.schema.json").read_text())
KINDS = {"object": dict, "array": list, "string": str, "integer": int, "null": type(None)}


def is_kind(value, name):
    return isinstance(value, KINDS[name]) and not isinstance(value, bool)


def answer_faults(value):
    """The places at which a value breaks the schema of an answer."""
    return list(faults(value, ANSWER, ANSWER))


def faults(value, schema, whole, place="it"):
    """The places at which a value breaks a schema, with the word that it breaks; an unknown word is a fault too."""
    for word, wanted in schema.items():
        if word in ("description", "title", "$schema", "$defs"):
            continue
        if word == "$ref":
            yield from faults(value, whole["$defs"][wanted.rpartition("/")[2]], whole, place)
        elif word == "properties" and isinstance(value, dict):
            for name in value.keys() & wanted.keys():
                yield from faults(value[name], wanted[name], whole, f"{place}.{name}")
        elif word == "items" and isinstance(value, list):
            for number, item in enumerate(value):
                yield from faults(item, wanted, whole, f"{place}[{number}]")
        elif not holds(word, wanted, value, schema, whole):
            yield f"{place}: {word}"


def holds(word, wanted, value, schema, whole):
    """Whether a value keeps one word of a schema that has no words for parts of it."""
    if word in ("properties", "items") or word in ("required", "additionalProperties") and not isinstance(value, dict):
        return True
    if word == "type":
        return any(is_kind(value, it) for it in ([wanted] if isinstance(wanted, str) else wanted))
    if word == "const":
        return value == wanted
    if word == "enum":
        return value in wanted
    if word == "pattern":
        return not isinstance(value, str) or re.search(wanted, value) is not None
    if word == "required":
        return all(it in value for it in wanted)
    if word == "additionalProperties":
        return wanted or not value.keys() - schema["properties"].keys()
    if word in ("anyOf", "oneOf"):
        kept = sum(not list(faults(value, it, whole)) for it in wanted)
        return kept == 1 if word == "oneOf" else kept > 0
    return False
