"""The second reading of an input, by the command that read it first."""

from dataclasses import dataclass

from ..days import told_of
from ..instances import TOLD, alone_cost, instance_of, number_of
from ..options import name_among, option
from .certificate_faults import CertificateReading, missing_end_fault
from .findings import NAMES, PRESENT_TWICE, Findings
from .instance_faults import SCALE, InstanceReading, weight_faults
from .kept_faults import KeptReading, no_shipment_fault
from .kinds import CHECKERS, TAILS
from .stuck_faults import StuckReading


@dataclass(frozen=True)
class Parts:
    """The records of an input: those of the instance, those that are told after it, and those from an answer on."""

    own: list
    told: list
    certificate: list


def parts_of(command, records):
    """The parts of an input of a command."""
    kinds, tails = [it.kind for it in records], TAILS.get(command, ())
    end = kinds.index("answer") if "answer" in tails and "answer" in kinds else len(kinds)
    begin = next((place for place, kind in enumerate(kinds[:end]) if kind in TOLD and kind in tails), end)
    return Parts(records[:begin], records[begin:end], records[end:])


def findings_of(words, records, data):
    """The faults of the records of an input that the command of the words reads, and how many there are beyond those listed."""
    command, findings = words[0], Findings()
    parts = parts_of(command, records)
    draft = InstanceReading(command, parts.own, data)
    findings.add_all(draft, parts.own)
    total = None if findings.listed else alone_cost(instance_of(parts.own))
    scale = option(words, "--scale", SCALE)
    add_weights(findings, total, SCALE if command in CHECKERS else scale)
    findings.add_all(KeptReading(command, draft), parts.told)
    if command in CHECKERS and add_answer(command, findings, draft, records, parts):
        add_weights(findings, None if findings.listed else total, scale)
    elif command == "quote":
        add_quoted(findings, draft, name_among(words))
    return findings


def add_quoted(findings, draft, name):
    """The fault of a quote where no shipment has the name, or there is none where no name is given."""
    if not draft.counts["shipment"] if name is None else name not in draft.shipments:
        findings.add(no_shipment_fault(draft, name))


def add_answer(command, findings, draft, records, parts):
    """The faults of an answer: of one that no plan goes on, or of a certificate of what is to be planned, where a plan goes on.

    It gives whether the scale of the words is looked at: not where no plan is told.
    """
    if parts.told and parts.certificate and parts.certificate[0].fields[1:2] == ("stuck",):
        add_certificate(findings, StuckReading(draft), records, parts.certificate)
        return False
    told = None if findings.listed else told_of([*parts.own, *parts.told])
    if told is None:
        add_certificate(findings, CertificateReading(draft, None), records, parts.certificate)
    elif not told.stuck:
        planned = told.planned()
        add_certificate(findings, CertificateReading(draft.left(planned.shipments), alone_cost(planned)), records, parts.certificate)
        if command == "check" and parts.told and not findings.listed:
            add_scale(findings, told.instance, parts.certificate)
    return told is None or not told.stuck


def add_scale(findings, instance, certificate):
    """The fault of a certificate for what is left of a day, where its scale doesn't fit the whole instance."""
    scale = next((number_of(it.fields[1]) for it in certificate if it.kind == "scale"), SCALE)
    add_weights(findings, alone_cost(instance), scale)


def add_weights(findings, total, scale):
    """The fault of an instance at a scale, where its records have none."""
    for fault in weight_faults(total, scale) if total else ():
        findings.add(fault)


def add_certificate(findings, reading, records, certificate):
    """The faults of what stands from `answer` on, and where it should and doesn't."""
    findings.add_all(reading, certificate)
    if not reading.has_ended() and not findings.is_full() and (certificate or not findings.has(1)):
        findings.add(missing_end_fault(records, certificate), len(records) + 1)


def explanation(words, records, data, ordinal, code):
    """The faults of a refused input, the program's first, where the second reading has found the same first one."""
    findings = findings_of(words, records, data)
    first = findings.listed[0] if findings.listed else None
    if first is None or (first.ordinal, first.fault.code) != (ordinal, code):
        name = PRESENT_TWICE if code == 38 and words[0] != "quote" else NAMES.get(code)
        return [f"record {ordinal:,} has the fault {code}, {name}: docs/formats.md says when it comes"]
    return [it.sentence() for it in findings.listed] + findings.rest()
