"""What may be said of an answer's cost, in words: no more than what `check` said of it."""

from collections import Counter

NOT_CHECKED = "Not checked: hand the instance and the answer to check, and give its answer as a third file."
# What is proved of the plans that are asked for, all or those that keep legs or go on with a day.
PROVED = {
    "direct": "Checked: the legs are a plan of this cost, with these trucks. Nothing is said of other plans.",
    "optimal": "Checked and proved: no plan{which} is cheaper, with departures in any fraction of the unit of time.",
    "unfinished": "Checked and proved: no plan{which} costs less than the bound, with departures in any fraction of the unit of time.",
    "infeasible": "Checked and proved: no plan exists, with departures in any fraction of the unit of time.",
    "stuck": "Checked and proved: no such plan exists, with departures in any fraction of the unit of time.",
}


def which_words(duty):
    """Which plans are asked for, by what they do; empty where all are."""
    return f" that {duty}" if duty else ""


def verdict(checked, duty):
    """What `check` said of the answer (its fields, or None), in a sentence, with how it is shown; the duty says which plans are asked for."""
    if checked is None:
        return "", NOT_CHECKED
    if checked[0] == "accepted":
        return "yes", PROVED[checked[1]].format(which=which_words(duty))
    return "no", f"Not accepted by check ({','.join(checked)}): nothing on this page is proved."


def gap_words(cost, bound, money):
    """How far a cost is above the cheapest one at most, given a number under which none is. Percent are rounded up."""
    if cost <= bound:
        return "the cheapest there is"
    if not bound:
        return f"at most {money.words(cost)} above the cheapest there can be"
    tenths = -(-1000 * (cost - bound) // bound)
    return f"at most {tenths // 10:,}.{tenths % 10} % above the cheapest there can be"


def claim_words(answer, duty, money):
    """What an answer says of its cost beside others, or nothing."""
    if answer[1] == "optimal":
        return f"the cheapest{which_words(duty) or ' there is'}"
    if answer[1] == "unfinished":
        return gap_words(int(answer[2]), int(answer[3]), money)
    return ""


def cost_words(answer, checked, duty, money):
    """The cost, with what is proved of it, or what the answer says of it and nobody proved."""
    cost, claim = f"Cost {money.words(int(answer[2]))}", claim_words(answer, duty, money)
    bound = f" (no plan{which_words(duty)} costs less than {money.words(int(answer[3]))})" if answer[1] == "unfinished" else ""
    if not claim or checked is not None and checked[0] != "accepted":
        return f"{cost}."
    if checked is None:
        return f"{cost}. The answer says that it is {claim}{bound}, and that is not checked."
    return f"{cost}: {claim}, proved{bound}."


def certificate_words(timetable):
    """What stands behind the claim: how much of what, or nothing."""
    counts = Counter(it.kind for it in timetable.claims)
    if not counts["leaf"]:
        return ""
    names = (
        ("point", "time point", "time points"), ("table", "table", "tables"), ("split", "split", "splits"),
        ("narrow", "narrowing", "narrowings"), ("leaf", "leaf", "leaves"),
    )  # fmt: skip
    parts = [f"{counts[kind]:,} {one if counts[kind] == 1 else many}" for kind, one, many in names if counts[kind]]
    return f"The certificate has {', '.join(parts)}."
