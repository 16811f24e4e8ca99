"""The report as JUnit's XML: a test case for each recording."""

from __future__ import annotations

from xml.etree import ElementTree

from ..judgement import TALLY
from ..plain import plain_lines
from ..verdicts import Outcome
from .basis_in_text import numbers
from .judging import Judged
from .reasons import in_short, in_words
from .text import basis_lines

# What the auditor's own counts are called.
COUNTS = {"judged": "items judged", "all": "items recorded", "request": "items set aside by request",
          "answer": "items set aside by answer", "witness": "items set aside by witness",
          "object": "items set aside by object"}
RIGHT = (Outcome.YES, Outcome.EXPLAINED)
WRONG = (Outcome.NO, Outcome.GAVE_UP, Outcome.BUT_FOR, Outcome.NOTHING_JUDGED, Outcome.CONVICTED, Outcome.SUSPECTED,
         Outcome.UNDECIDED, Outcome.DIFFERS)


def told(recordings: list[Judged]) -> str:
    """The XML: what is explained passes, a no, a finding or a giving up fails, and what can't be judged is an error.
    What each verdict rests on stands in properties of its case, and in what it printed."""
    failures = sum(judged.verdict.outcome in WRONG for judged in recordings)
    errors = sum(judged.verdict.outcome not in (*RIGHT, *WRONG) for judged in recordings)
    suite = ElementTree.Element("testsuite", name="kmip_audit", tests=str(len(recordings)), failures=str(failures),
                                errors=str(errors), time=f"{sum(judged.seconds for judged in recordings):.3f}")
    for judged in recordings:
        case = ElementTree.SubElement(suite, "testcase", classname="kmip_audit", name=plain_lines(judged.folder),
                                      time=f"{judged.seconds:.3f}")
        if judged.read.basis is not None:
            properties = ElementTree.SubElement(case, "properties")
            for name, number in {**dict(numbers(judged.read.basis)), **_tally(judged)}.items():
                ElementTree.SubElement(properties, "property", name=name, value=str(number))
        if judged.verdict.outcome not in RIGHT:
            kind = "failure" if judged.verdict.outcome in WRONG else "error"
            trouble = ElementTree.SubElement(case, kind, message=plain_lines(_message(judged)),
                                             type=in_short(judged.verdict))
            seal = [judged.verdict.seal.line] if judged.verdict.seal else []
            lines = [*judged.printed, *seal, f"$ {judged.command}"]
            trouble.text = plain_lines("\n".join(lines))
        if judged.read.basis is not None:
            printed = ElementTree.SubElement(case, "system-out")
            printed.text = plain_lines("\n".join(basis_lines(judged)))
    return _spelled(suite)


def _message(judged: Judged) -> str:
    """What came out, in a sentence or two; behind the auditor's first line, where that counts findings."""
    return f"{judged.verdict.lines[0]}. {in_words(judged.verdict)}" if judged.found else in_words(judged.verdict)


def _tally(judged: Judged) -> dict[str, int]:
    """What the auditor counts of the items."""
    found = TALLY.fullmatch(judged.found.judgement.tally) if judged.found else None
    return {COUNTS[name]: int(number) for name, number in found.groupdict().items()} if found else {}


def _spelled(suite: ElementTree.Element) -> str:
    return '<?xml version="1.0" encoding="utf-8"?>\n' + ElementTree.tostring(suite, encoding="unicode") + "\n"
