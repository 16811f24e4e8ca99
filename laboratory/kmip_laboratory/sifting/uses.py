"""Uses of keys that can't be: an operation that succeeded with an object that was destroyed by then, or whose state
excludes it. Such a call leaves everything as it is, but it is evidence, and is kept.

What is claimed holds in every order of the calls that the marks allow: a call counts as done behind another only where
it began behind the other's end.
"""

from __future__ import annotations

from collections import Counter
from typing import Counter as Counts, Iterator, NamedTuple, Optional

from ..glimpse import FAILED, SUCCESS, UNDONE, Glimpse, Part, identifiers
from ..operations import JUDGED, Operation, operation_name
from ..recording.calls import Call
from ..tags import Tag
from .effects import HARMLESS

# What a state excludes (KMIP 2.1, the attribute State): an object that is Deactivated or Compromised protects nothing
# any more, one that is Pre-Active is not used at all, and of one that is destroyed there is no key.
PROTECTING = frozenset({Operation.ENCRYPT, Operation.SIGN, Operation.MAC})
PROCESSING = frozenset({Operation.DECRYPT, Operation.SIGNATURE_VERIFY, Operation.MAC_VERIFY})
SHOWING = frozenset({Operation.EXPORT})
USES: frozenset[int] = PROTECTING | PROCESSING | SHOWING
BIRTHS = frozenset({Operation.CREATE, Operation.REGISTER})
# All others may activate an object, as far as is known here.
ACTIVATES_NOTHING: frozenset[int] = BIRTHS | frozenset(HARMLESS) | frozenset({
    Operation.LOCATE, Operation.GET, Operation.GET_ATTRIBUTES, Operation.DESTROY})
# The others put what they make or find into the placeholder.
KEEPS_PLACEHOLDER: frozenset[int] = (JUDGED - BIRTHS - {Operation.LOCATE}) | frozenset(HARMLESS)
# An Activation Date in its newer form and in its older.
ACTIVATION_DATE = (Tag.ACTIVATION_DATE.to_bytes(3, "big"), b"Activation Date")


class Use(NamedTuple):
    """An operation that succeeded with an object: in which call, and between which places of the file."""

    call: int
    begin: int
    end: int
    operation: int
    object: str


class Event(NamedTuple):
    """What a call did for good: its number, and the place of its end mark."""

    call: int
    end: int


class Impossible(NamedTuple):
    """A use that can't be: of which object, and why."""

    call: int
    operation: int
    object: str
    why: str


class Lives:
    """What the recorded calls did to objects, and the uses that were made of these."""

    def __init__(self) -> None:
        self._born: set[str] = set()
        self._destroyed: dict[str, Event] = {}
        self._revoked: dict[str, Event] = {}
        # The first place at which a call began that may have activated the object.
        self._stirred: dict[str, int] = {}
        self._uses: list[Use] = []

    def take(self, call: Call, asked: Optional[Glimpse], answered: Optional[Glimpse]) -> bool:
        """Notes what a call did. Whether it used an object."""
        before = len(self._uses)
        for part, answer, names in _items(call, asked, answered):
            for name in names:
                self._note(call, part, answer, name)
        return len(self._uses) > before

    def _note(self, call: Call, part: Part, answer: Optional[Part], name: str) -> None:
        operation = part.operation or 0
        if answer is not None and answer.status == FAILED:
            return
        if operation not in ACTIVATES_NOTHING or _tells_activation(call, part, answer):
            self._stirred[name] = min(self._stirred.get(name, call.first), call.first)
        if answer is None or call.last is None:
            return
        if operation in USES and answer.status in (SUCCESS, UNDONE):
            self._uses.append(Use(call.number, call.first, call.last, operation, name))
        if answer.status != SUCCESS:
            return
        if operation in BIRTHS:
            self._born.add(name)
        for wanted, events in ((Operation.DESTROY, self._destroyed), (Operation.REVOKE, self._revoked)):
            if operation == wanted and name not in events:
                events[name] = Event(call.number, call.last)

    def impossible(self) -> Iterator[Impossible]:
        """The uses that can't be, once all calls were taken."""
        for use in self._uses:
            why = self._why(use)
            if why:
                yield Impossible(use.call, use.operation, use.object, why)

    def _why(self, use: Use) -> Optional[str]:
        destroyed, revoked = self._destroyed.get(use.object), self._revoked.get(use.object)
        if destroyed and destroyed.end < use.begin:
            return f"destroyed in call {destroyed.call}"
        if revoked and revoked.end < use.begin and use.operation in PROTECTING:
            return f"revoked in call {revoked.call}"
        was_stirred = self._stirred.get(use.object, use.end) < use.end
        return "never active" if use.object in self._born and not was_stirred and use.operation not in SHOWING else None


def lines(uses: list[Impossible]) -> Iterator[str]:
    """The uses that can't be, a line for each object, operation and cause."""
    counts: Counts[tuple[int, str, str]] = Counter()
    first: dict[tuple[int, str, str], int] = {}
    for use in uses:
        key = (use.operation, use.object, use.why)
        counts[key] += 1
        first[key] = min(first.get(key, use.call), use.call)
    for key, count in counts.items():
        operation, name, why = key
        yield (f"kept: {count} calls of {operation_name(operation)}, the first of them call {first[key]}, that used "
               f"{name}, which was {why}: a use of a key that can't be")


def _items(call: Call, asked: Optional[Glimpse],
           answered: Optional[Glimpse]) -> Iterator[tuple[Part, Optional[Part], list[str]]]:
    """The items of a call, each with its answer and the objects that it is about: those that it names or is answered,
    or else the one of the item before, which stands in the placeholder."""
    parts = asked.parts if asked else []
    answers: list[Optional[Part]] = [*answered.parts] if answered and not answered.is_refusal else []
    held: list[str] = []
    for place, part in enumerate(parts):
        answer = answers[place] if place < len(answers) else None
        told = identifiers(call.response, answer) if answer and call.response else []
        named = told if part.operation in BIRTHS else identifiers(call.request, part) or told or held
        if part.operation not in KEEPS_PLACEHOLDER:
            held = told if len(told) == 1 else []
        yield part, answer, named


def _tells_activation(call: Call, part: Part, answer: Optional[Part]) -> bool:
    """Whether an Activation Date is asked for or told."""
    asked = call.request[slice(*part.payload)] if part.payload else b""
    told = call.response[slice(*answer.payload)] if answer and answer.payload and call.response else b""
    return any(spelled in asked or spelled in told for spelled in ACTIVATION_DATE)
