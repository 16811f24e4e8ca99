"""A recording that was judged by `kmip_audit judge`: what was found, and which calls are set aside, as the report needs
it."""

from __future__ import annotations

from pathlib import Path
from typing import NamedTuple, Optional

from ..calls import Call
from ..judgement import TALLY, Aside, Finding, Judgement
from ..operations import JUDGED, operation_name
from ..verdicts import Outcome, Verdict


class Found(NamedTuple):
    """What was said of the recording, the identifiers of which nothing is judged, and by call why it is set aside."""

    judgement: Judgement
    asides: list[Aside]
    why: dict[int, str]

    @property
    def findings(self) -> list[Finding]:
        """What was found."""
        return self.judgement.findings


class Files(NamedTuple):
    """The files of a judgement: the transcript, the declaration where one was given, the one that was used, and the
    witness that was made, which need not be there."""

    transcript: Path
    declaration: Optional[Path]
    used: Path
    witness: Path


def found_of(judgement: Judgement, asides: list[Aside], calls: list[Call], turns: dict[int, int]) -> Found:
    """What was found in these calls, with the turns that they have."""
    since = {told.identifier: (_turn(turns, told.call), told) for told in asides}
    found = {finding.call for finding in judgement.findings}
    why = {call.number: told for call in calls if call.number not in found and (told := _why(call, turns, since))}
    return Found(judgement, asides, why)


def verdict_of(judgement: Judgement) -> Verdict:
    """The judgement as a verdict, which names the call of the first finding."""
    first = next(iter(judgement.findings), None)
    return Verdict(Outcome(judgement.sort.value), judgement.head, judgement.status, seal=judgement.seal,
                   call=first.call if first else None)


def in_words_of(found: Found) -> list[str]:
    """How many items were judged, as the auditor counts them; nothing where it doesn't tell it."""
    told = TALLY.fullmatch(found.judgement.tally)
    if told is None:
        return []
    return [f"The auditor judged {told['judged']} of {told['all']} items. It set aside {told['request']} by the "
            f"request, {told['answer']} by the answer, {told['witness']} as findings and {told['object']} by their "
            "object."]


def _why(call: Call, turns: dict[int, int], since: dict[str, tuple[int, Aside]]) -> str:
    """Why nothing of a call is judged: its operations are not, or all objects that it names are set aside by then;
    nothing where that is not so."""
    unjudged = [piece.operation for piece in call.pieces if piece.operation not in JUDGED]
    if call.pieces and len(unjudged) == len(call.pieces):
        names = sorted({operation_name(number) if number is not None else "no operation" for number in unjudged})
        return f"{', '.join(names)} is not judged"
    named = frozenset().union(*(piece.identifiers | piece.answered for piece in call.pieces))
    told = [since[name][1] for name in sorted(named) if name in since and since[name][0] <= _turn(turns, call.number)]
    if not named or len(told) < len(named):
        return ""
    more = f", and so are the {len(told) - 1} others that it names" if len(told) > 1 else ""
    return f"object {told[0].identifier} is set aside since {told[0].since}{more}"


def _turn(turns: dict[int, int], call: int) -> int:
    """Where a call stands in the order, or by its number where there is none."""
    return turns.get(call, call)
