"""Plain words for what the auditor's lines name by number; docs/PROFILE.md has each in full."""

from __future__ import annotations

from ..judgement import Finding
from ..verdicts import Outcome, Seal, Verdict

WHY: dict[int, str] = {
    1: "a call that ended before this one began has not been done yet in this order",
    2: "its Time Stamp is less than that of the call before it",
    3: "an answer of the batch is missing, is one too many, or has a status that the batch excludes there",
    4: "the answer names another operation than the request",
    5: "it succeeded for an object that does not exist then",
    6: "it succeeded though the object's state excludes it",
    7: "the new object got an identifier that is taken",
    8: "the new object got a name that is taken, and names are declared unique",
    9: "other bytes were shown than those already known of the object",
    10: "no such key has bytes of this length",
    11: "an attribute in the answer is not the object's",
    12: "a required attribute is missing in the answer",
    13: "something is listed that must not be",
    14: "something is not listed that must be",
    15: "the reason of the refusal has no cause",
    16: "the answer repeats another identifier, type or batch item ID than it should",
    17: "an object is shown or changed that the server has to hide from this client",
}
MEANING: dict[Outcome, str] = {
    Outcome.YES: "Explained: the answers can all be explained by the calls having been done one at a time.",
    Outcome.NO: "Not possible in this order: an answer can't be explained where the witness puts it.",
    Outcome.OUTSIDE: "Not judged: a message is outside of what the auditor judges.",
    Outcome.WITNESS: "Not judged: the witness does not fit the transcript.",
    Outcome.MALFORMED: "Not judged: a file is not what it should be.",
    Outcome.GAVE_UP: "No order was found that explains the answers.",
    Outcome.DEVICE: "Not judged: a file could not be read.",
    Outcome.MEMORY: "Not judged: memory ran out.",
    Outcome.LATE: "Not judged: the auditor was given no more time (--seconds).",
    Outcome.BUT_FOR: "Explained but for what the witness sets aside: the other answers can all be explained.",
    Outcome.EXPLAINED: "Explained: one order of the calls explains every answer that is judged.",
    Outcome.NOTHING_JUDGED: "Nothing is judged: each answer is set aside.",
    Outcome.CONVICTED: "Convicted: no order of the calls explains every answer.",
    Outcome.SUSPECTED: "Suspected: these answers are impossible in the orders that were tried. Calls overlap, so "
                       "another order may explain them.",
    Outcome.DIFFERS: "Another inventory: the server tells something else of its objects than its answers left.",
    Outcome.UNDECIDED: "Undecided: the steps or the seconds were used up. What was found by then is not confirmed.",
}
PREMISES = (
    "A yes says that some inventory fits the declaration, and that doing one call after the other from there, by the "
    "rules of the profile and in this order, gives every recorded answer. It does not say that the server really took "
    "this order, that it held what is declared, or that the recorder's marks are right. A no speaks of this order "
    "alone; where a search gives up, it has decided that there is no order only if it had steps left, and every call "
    "has ended, has its items in order and waits for no payload.")


def of_finding(finding: Finding) -> str:
    """What a finding says, in a sentence."""
    where = "the call itself" if finding.item == 0 else f"item {finding.item}"
    return (f"Turn {finding.turn}, call {finding.call}, {where}: {WHY.get(finding.number, finding.name)} "
            f"(reason {finding.number}, {finding.name}).")


def in_words(verdict: Verdict) -> str:
    """What the lines say, in a sentence or two."""
    told = MEANING[verdict.outcome]
    if verdict.outcome is Outcome.NO:
        where = "the call itself" if verdict.item == 0 else f"item {verdict.item}"
        told += (f" Turn {verdict.turn}, call {verdict.call}, {where}: "
                 f"{WHY.get(verdict.number or 0, verdict.name)} (reason {verdict.number}, {verdict.name}).")
    if verdict.outcome is Outcome.OUTSIDE:
        told += f" Call {verdict.call}, {verdict.side}, item {verdict.item}: kind {verdict.number}, {verdict.name}."
    if verdict.decided is not None:
        told += " The auditor has decided: no order does." if verdict.decided else " The auditor has not decided it."
    if verdict.outcome is Outcome.GAVE_UP and verdict.call is not None:
        told += (f" Where it got furthest, call {verdict.call} can't be next: "
                 f"{WHY.get(verdict.number or 0, verdict.name)} (reason {verdict.number}, {verdict.name}).")
    return told


def of_others(searched: Verdict) -> str:
    """What a search says of the orders beside the one that was refused."""
    line = f"(kmip_audit search: {searched.text})"
    if searched.outcome is Outcome.YES:
        return f"Another order does explain every answer {line}."
    if searched.decided:
        return f"No other order explains the answers either: the auditor has decided it {line}."
    return f"Whether another order explains the answers is not decided {line}."


def of_seal(seal: Seal) -> str:
    """What the auditor tells of a sealed transcript: what its head was, to be held against one that was written
    down."""
    without = ("; it has no close: its recorder was killed, or its end was cut off" if seal.is_torn else "")
    return (f"The transcript is sealed, and the auditor tested each seal: recording {seal.recording}, segment "
            f"{seal.segment}, head {seal.head}{without}.")


def in_short(verdict: Verdict) -> str:
    """The reason alone, by which recordings are counted."""
    if verdict.number is None or verdict.outcome is Outcome.GAVE_UP:
        return f"{verdict.outcome.value}, decided" if verdict.decided else verdict.outcome.value
    return f"{verdict.outcome.value}: {verdict.number} {verdict.name}"
