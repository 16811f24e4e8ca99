"""Asks the auditor to search an order of some calls, and whether its giving up says that there is none."""

from __future__ import annotations

import contextlib
import os
import tempfile
from enum import Enum
from types import TracebackType
from typing import Iterable, NamedTuple, Optional

from ..auditor import Auditor
from ..calls import Call, Transcript
from ..recording.order import turns
from ..recordings import DECLARATION, TRANSCRIPT, WITNESS
from ..trouble import Trouble
from ..verdicts import Outcome, Verdict
from .parts import Declaration, Parts, is_plain


class Answer(Enum):
    """What a search says of some calls."""

    EXPLAINED = "an order explains them"
    IMPOSSIBLE = "no order explains them"
    UNKNOWN = "the search decided nothing"


class Files(NamedTuple):
    """A transcript and a declaration, as bytes."""

    transcript: bytes
    declaration: bytes


class Trials:
    """Searches of calls of one transcript. Each choice of calls is asked of once."""

    def __init__(self, transcript: Transcript, declaration: Declaration, whole: bool, budget: int,
                 auditor: Auditor) -> None:
        self._transcript = transcript
        self._declaration = declaration
        self._whole = whole
        self._budget = budget
        self._auditor = auditor
        self._made = contextlib.ExitStack()
        self._folder = ""
        self._answers: dict[frozenset[int], tuple[Answer, Verdict]] = {}
        self.parts = Parts(transcript.calls, declaration, whole)

    def __enter__(self) -> Trials:
        self._folder = self._made.enter_context(tempfile.TemporaryDirectory(prefix="kmip_record-shrink-"))
        return self

    def __exit__(self, kind: Optional[type[BaseException]], error: Optional[BaseException],
                 trace: Optional[TracebackType]) -> None:
        self._made.close()

    @property
    def asked(self) -> int:
        """How many searches there were."""
        return len(self._answers)

    def impossible(self, calls: Iterable[Call]) -> bool:
        """Whether the search decides that no order explains these calls."""
        return self.answer(list(calls))[0] is Answer.IMPOSSIBLE

    def judges(self, calls: list[Call]) -> bool:
        """Whether a search judges all of these calls."""
        return self._searched(calls).outcome in (Outcome.YES, Outcome.GAVE_UP)

    def answer(self, calls: list[Call]) -> tuple[Answer, Verdict]:
        """What a search says of these calls, and its line."""
        chosen = frozenset(call.number for call in calls)
        if chosen not in self._answers:
            self._answers[chosen] = self._asked(calls)
        return self._answers[chosen]

    def files(self, calls: list[Call]) -> Files:
        """The files of these calls alone."""
        marks = [(call.begin, call.marks[0]) for call in calls]
        marks += [(call.end, call.marks[1]) for call in calls if call.end is not None]
        named: set[str] = set(self._declaration.entries)
        if not self._whole:
            named = set().union(*(self.parts.named[call.number] for call in calls))
        return Files(self._transcript.header + b"".join(mark for _, mark in sorted(marks)),
                     self._declaration.spelled(named))

    def order(self, calls: list[Call]) -> Optional[list[int]]:
        """An order that explains these calls, where a search finds one."""
        found = self._searched(calls).outcome is Outcome.YES
        return turns(os.path.join(self._folder, WITNESS)) if found else None

    def _searched(self, calls: list[Call]) -> Verdict:
        transcript, declaration, out = (os.path.join(self._folder, name)
                                        for name in (TRANSCRIPT, DECLARATION, WITNESS))
        for name, data in zip((transcript, declaration), self.files(calls)):
            with open(name, "wb") as file:
                file.write(data)
        return self._auditor.search(transcript, declaration, out, self._budget)

    def _asked(self, calls: list[Call]) -> tuple[Answer, Verdict]:
        verdict = self._searched(calls)
        if verdict.outcome is Outcome.YES:
            return Answer.EXPLAINED, verdict
        if verdict.outcome is not Outcome.GAVE_UP:
            raise Trouble(f"the auditor does not judge this recording: {verdict.text}; leave out what it names, and "
                          "shrink the rest")
        decided = all(map(is_plain, calls)) and verdict.decides(self._budget)
        return (Answer.IMPOSSIBLE if decided else Answer.UNKNOWN), verdict
