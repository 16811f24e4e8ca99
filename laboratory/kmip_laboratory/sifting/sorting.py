"""Which calls of a transcript may be left out, which uses of keys in it can't be, and at which others the auditor will
stop."""

from __future__ import annotations

from collections import Counter
from typing import Counter as Counts, NamedTuple, Optional

from ..glimpse import FAILED, Glimpse, Part, identifiers
from ..operations import JUDGED, READ_OVER, operation_name
from ..recording.calls import Call
from ..versions import JUDGED as JUDGED_VERSION
from .effects import HARMLESS
from .uses import Impossible, Lives, lines

KNOWN = frozenset(operation.value for operation in JUDGED | READ_OVER)
HARMLESS_NUMBERS = frozenset(operation.value for operation in HARMLESS)
REFUSED = "refused as a whole"
REFUSED_OTHERWISE = "refused in another version"


class Kept(NamedTuple):
    """What is counted of a call: its kind, what it asks, its version and its client."""

    kind: str
    names: str
    version: str
    client: str


class Waiting(NamedTuple):
    """A call that is left out unless it used a key that can't be used: why, and what is counted of it."""

    cause: str
    counted: Kept


class Unknown(NamedTuple):
    """Calls of an operation whose effect is not known: how many, which objects they name, and the first of them."""

    calls: int
    objects: frozenset[str]
    first: int


def cause_to_leave_out(asked: Optional[Glimpse], answered: Optional[Glimpse],
                       harmless: frozenset[int]) -> Optional[str]:
    """Why a call can have had no effect on what is judged; None where it may have had one, or is judged."""
    if asked is None or not asked.parts:
        return None
    if answered and answered.is_refusal:
        return REFUSED
    operations = [part.operation for part in asked.parts]
    if all(operation in harmless for operation in operations):
        return ", ".join(sorted({operation_name(operation or 0) for operation in operations}))
    if answered and answered.version != JUDGED_VERSION and answered.parts and all(
            part.status == FAILED for part in answered.parts):
        return REFUSED_OTHERWISE
    return None


class Sorted:
    """Sorts calls, one after the other. Once all were taken and `settle` was called, `dropped` has the numbers of those
    to leave out."""

    def __init__(self, also: frozenset[int] = frozenset()) -> None:
        self._harmless = HARMLESS_NUMBERS | also
        self.dropped: set[int] = set()
        self.causes: Counts[str] = Counter()
        self.kept = 0
        self.unknown: dict[str, Unknown] = {}
        self.table: Counts[Kept] = Counter()
        self._lives = Lives()
        self._waiting: dict[int, Waiting] = {}
        self._impossible: list[Impossible] = []

    def take(self, call: Call, asked: Optional[Glimpse], answered: Optional[Glimpse]) -> None:
        """Sorts a call in, of which this was asked and answered."""
        used = self._lives.take(call, asked, answered)
        cause = cause_to_leave_out(asked, answered, self._harmless)
        stopping = [] if cause else _stopping(asked, answered)
        for part, answer in stopping:
            self._stop_at(call, part, answer)
        names = ", ".join(operation_name(part.operation or 0) for part in asked.parts) if asked else "no message"
        counted = Kept("unknown effect" if stopping else "judged", names,
                       str(asked.version or "none") if asked else "none", call.client)
        if cause and used:
            self._waiting[call.number] = Waiting(cause, counted)
        elif cause:
            self._leave_out(call.number, Waiting(cause, counted))
        else:
            self._keep(counted)

    def settle(self) -> None:
        """Decides on the calls that used keys, which later calls may tell to be possible."""
        self._impossible = list(self._lives.impossible())
        impossible = {use.call for use in self._impossible}
        for number, waiting in self._waiting.items():
            if number in impossible:
                self._keep(waiting.counted._replace(kind="impossible use"))
            else:
                self._leave_out(number, waiting)
        self._waiting.clear()

    def _leave_out(self, number: int, waiting: Waiting) -> None:
        self.dropped.add(number)
        self.causes[waiting.cause] += 1
        self.table[waiting.counted._replace(kind="harmless")] += 1

    def _keep(self, counted: Kept) -> None:
        self.kept += 1
        self.table[counted] += 1

    def _stop_at(self, call: Call, part: Part, answer: Part) -> None:
        name = operation_name(part.operation or 0)
        seen = self.unknown.get(name, Unknown(0, frozenset(), call.number))
        objects = seen.objects.union(identifiers(call.request, part), identifiers(call.response or b"", answer))
        self.unknown[name] = Unknown(seen.calls + 1, objects, min(seen.first, call.number))

    def impossible_lines(self) -> list[str]:
        """The uses of keys that can't be."""
        return list(lines(self._impossible))

    def unknown_lines(self) -> list[str]:
        """What the auditor will stop at, a line for each operation."""
        return [f"the auditor will stop at {name}, whose effect on what is judged is not known: {seen.calls} of them, "
                f"the first in call {seen.first}, on {_listed(seen.objects)}"
                for name, seen in sorted(self.unknown.items())]

    def table_lines(self) -> list[str]:
        """How many calls there are of which sort, operation, version and client."""
        return [f"{count}  {kind}  {names}  {version}  {client}"
                for (kind, names, version, client), count in sorted(self.table.items())]


def _stopping(asked: Optional[Glimpse], answered: Optional[Glimpse]) -> list[tuple[Part, Part]]:
    """The items of another operation than the judged ones that did not fail, with their answers."""
    parts = zip(asked.parts, answered.parts) if asked and answered else ()
    return [(part, answer) for part, answer in parts if part.operation not in KNOWN and answer.status != FAILED]


def _listed(objects: frozenset[str]) -> str:
    names = sorted(objects)
    more = f" and {len(names) - 5} more" if len(names) > 5 else ""
    return f"objects {', '.join(names[:5])}{more}" if names else "no object that it names"
