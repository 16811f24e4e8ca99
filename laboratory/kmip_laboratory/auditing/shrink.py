"""For each of the first findings the few calls that convict already, where a declaration is given."""

from __future__ import annotations

from pathlib import Path
from typing import Optional

from ..auditor import Auditor
from ..calls import Call, read_transcript
from ..judgement import Finding, Judgement
from ..recordings import DECLARATION, TRANSCRIPT
from ..shrinking.parts import has_effect, read_declaration
from ..shrinking.smallest import shrunk, up_to
from ..shrinking.trials import Answer, Trials
from .decide import STEPS_OF_A_PART, decide, write
from .part import MOST_FINDINGS, PART, Part, folder_of, name_source


def shrunk_parts(folder: Path, found: Judgement, auditor: Auditor, budget: int) -> list[Part]:
    """The few calls of each of the first findings in the folder's recording that no order explains; a folder in it gets
    them. Where none of these has any, the few of the whole."""
    parts = _of_findings(folder, found.findings, auditor, min(budget, STEPS_OF_A_PART))
    if parts:
        return parts
    calls = decide(folder, auditor, budget).part
    return [Part(folder / PART, calls)] if calls else []


def _of_findings(folder: Path, findings: list[Finding], auditor: Auditor, budget: int) -> list[Part]:
    parts: list[Part] = []
    transcript = read_transcript(str(folder / TRANSCRIPT))
    declaration = read_declaration(str(folder / DECLARATION))
    with Trials(transcript, declaration, False, budget, auditor) as trials:
        may_be_shrunk = bool(findings) and trials.judges(transcript.calls)
        for place, finding in enumerate(findings[:MOST_FINDINGS] if may_be_shrunk else [], 1):
            left = _few(trials, finding, _without_others(finding, findings, transcript.calls))
            numbers = [call.number for call in left or []]
            if left and numbers not in [part.calls for part in parts]:
                write(folder_of(folder, place), trials, left)
                name_source(folder_of(folder, place), folder, transcript)
                parts.append(Part(folder_of(folder, place), numbers, place))
    return parts


def _without_others(finding: Finding, findings: list[Finding], calls: list[Call]) -> list[Call]:
    """The calls without those of other findings that had no effect: what stays speaks of this finding."""
    others = {other.call for other in findings} - {finding.call}
    return [call for call in calls if call.number not in others or has_effect(call)]


def _few(trials: Trials, finding: Finding, calls: list[Call]) -> Optional[list[Call]]:
    """The smallest part that was found of the calls up to a finding that name its objects."""
    named = next((call for call in calls if call.number == finding.call), None)
    if named is None or named.stamp is None:
        return None
    kept = trials.parts.of(named)
    calls = up_to([call for call in calls if trials.parts.of(call) <= kept], named.stamp)
    if trials.answer(calls)[0] is Answer.EXPLAINED:
        return None
    return shrunk(trials, calls)
