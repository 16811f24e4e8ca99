"""What a recording has in it, counted while it is made: operations, versions, failures, and where the auditor will
stop. It says what stands in the messages, and no verdict."""

from __future__ import annotations

from collections import Counter
from typing import Counter as Counts, NamedTuple, Optional

from ..glimpse import FAILED, PENDING, SUCCESS, UNDONE, Glimpse, Part
from ..operations import JUDGED, READ_OVER, operation_name
from ..versions import JUDGED as JUDGED_VERSION, TRANSLATED, Version

KNOWN = {operation.value for operation in JUDGED | READ_OVER}


def outside_of(asked: Optional[Glimpse], answered: Optional[Glimpse]) -> Optional[str]:
    """Why the auditor will call a message of this call outside, as far as first sight tells; None where it does not."""
    if asked is None:
        return "a request that is no message"
    if asked.version != JUDGED_VERSION:
        return f"version {asked.version or 'none'}"
    if answered is None:
        return None
    if answered.version != JUDGED_VERSION:
        return f"version {answered.version or 'none'} of the answer"
    parts = asked.parts if not answered.is_refusal else []
    return next(filter(None, map(_outside_part, parts, answered.parts)), None)


def _outside_part(asked: Part, answered: Part) -> Optional[str]:
    if answered.status == PENDING:
        return "an answer that is pending"
    if answered.status in (SUCCESS, UNDONE) and asked.operation not in KNOWN:
        return f"{operation_name(asked.operation or 0)} that did not fail"
    return None


class Stop(NamedTuple):
    """Calls that the auditor will stop at for one cause: how many, and the first of them."""

    calls: int
    first: int


class Account:
    """Counts calls as they begin and end."""

    def __init__(self) -> None:
        self.calls = 0
        self.versions: Counts[Optional[Version]] = Counter()
        self.operations: Counts[int] = Counter()
        self.failed = 0
        self.stops: dict[str, Stop] = {}
        self._open: dict[int, Optional[Glimpse]] = {}

    def begin(self, call: int, asked: Optional[Glimpse]) -> None:
        """Counts a request."""
        self._open[call] = asked
        self.calls += 1
        self.versions[asked.version if asked else None] += 1
        for part in asked.parts if asked else []:
            self.operations[part.operation or 0] += 1

    def end(self, call: int, answered: Optional[Glimpse]) -> None:
        """Counts an answer."""
        for part in answered.parts if answered else []:
            self.failed += part.status == FAILED
        self._stop_at(call, self._open.pop(call), answered)

    def _stop_at(self, call: int, asked: Optional[Glimpse], answered: Optional[Glimpse]) -> None:
        cause = outside_of(asked, answered)
        if cause:
            stop = self.stops.get(cause, Stop(0, call))
            self.stops[cause] = Stop(stop.calls + 1, min(stop.first, call))

    def lines(self) -> list[str]:
        """The account, as lines for a person."""
        for call, asked in list(self._open.items()):
            self._stop_at(call, asked, None)
        versions = listed({str(version or "none"): count for version, count in self.versions.most_common()})
        operations = listed({operation_name(number): count for number, count in self.operations.most_common()})
        lines = [f"by version: {versions}; by operation: {operations}; {self.failed} items failed, {len(self._open)} "
                 "calls are open"] if self.calls else []
        for cause, stop in sorted(self.stops.items(), key=lambda entry: entry[1].first):
            lines.append(f"the auditor will stop at call {stop.first}, for {cause}: {stop.calls} calls are so; "
                         f"{advice(cause)}")
        return lines


def listed(counts: dict[str, int]) -> str:
    """Counts by their names, in their order."""
    return ", ".join(f"{name} {count}" for name, count in counts.items()) or "none"


def advice(cause: str) -> str:
    """What can be done about a cause."""
    if cause in {f"version {version}" for version in TRANSLATED}:
        return "`kmip_record translate` writes such calls as 2.1"
    return "`kmip_record sift` leaves out what has no effect"
