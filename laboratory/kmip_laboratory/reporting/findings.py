"""The findings: each recording whose answers are not explained, with why, ahead of everything else on the page."""

from __future__ import annotations

from ..judgement import Finding
from ..paths import shown
from .explanation import story
from .judging import Judged, operations
from .markup import Markup, Part, element, together
from .reasons import in_short, in_words, of_finding, of_others

NONE = "No finding: of each recording the answers are explained."
# Of one recording so many are listed ahead of everything.
MOST_LISTED = 20


def findings(recordings: list[Judged]) -> Markup:
    """A line for each finding, those first that convict."""
    found = sorted(((number, judged) for number, judged in enumerate(recordings, 1) if not judged.is_explained),
                   key=lambda each: not each[1].is_convicted)
    told = [line for number, judged in found for line in (
        _found(judged, number, len(recordings) > 1) or [_finding(judged, number, len(recordings) > 1)])]
    return together([element("h2", "Findings"), element("ol", *told, of="findings") if told else element("p", NONE)])


def has_story(judged: Judged) -> bool:
    """Whether the page tells the story of an object: the auditor's, or the report's reading of more than one call."""
    return bool(judged.calls) and (story(judged.verdict.explanation) is not None or len(judged.story()) > 1)


def _found(judged: Judged, number: int, has_name: bool) -> list[Markup]:
    """A line for each thing that was found in a recording, each of which is told below."""
    where = f"{shown(judged.folder)}: " if has_name else ""
    found = judged.found.findings if judged.found else []
    lines = [_one(judged, finding, number, place, where) for place, finding in enumerate(found[:MOST_LISTED], 1)]
    if len(found) > MOST_LISTED:
        lines.append(element("li", f"{where}{len(found) - MOST_LISTED:,} more: ", element(
            "a", "all findings of it", href=f"#recording-{number}")))
    return lines


def _one(judged: Judged, finding: Finding, number: int, place: int, where: str) -> Markup:
    call, told = judged.call(finding.call), story(finding.explanation)
    parts: list[Part] = [element("a", f"{where}{judged.verdict.outcome.value}: {finding.number} {finding.name}",
                                 href=f"#finding-{number}-{place}")]
    if call is not None:
        parts.append(f", call {call.number}, {operations(call)}, of client {call.client}")
    if told:
        parts += [": ", element("a", f"the story of object {told.identifier}", href=f"#story-{number}-{place}")]
    return element("li", *parts, element("div", of_finding(finding), of="soft"))


def _finding(judged: Judged, number: int, has_name: bool) -> Markup:
    where = f"{shown(judged.folder)}: " if has_name else ""
    parts: list[Part] = [element("a", where + in_short(judged.verdict), href=f"#recording-{number}")]
    refused, told = judged.refused(), story(judged.verdict.explanation)
    if refused is not None:
        parts.append(f", call {refused.number}, {operations(refused)}, of client {refused.client}")
    if has_story(judged):
        words = f"the story of object {told.identifier}" if told else "the object's story"
        parts += [": ", element("a", words, href=f"#story-{number}")]
    others = "" if judged.searched is None else f" {of_others(judged.searched)}"
    return element("li", *parts, element("div", in_words(judged.verdict) + others, of="soft"))
