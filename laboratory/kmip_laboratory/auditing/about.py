"""Which calls a finding is about, where nothing is declared: all that were about its objects. What others were about is
not known of then anyway, so where these can't be explained the whole can't be (docs/SHRINKING.md)."""

from __future__ import annotations

from typing import Optional, Sequence

from ..calls import Call, Piece, Status
from ..judgement import Finding
from ..operations import JUDGED, Operation
from ..reporting.explanation import story
from ..shrinking.parts import WITHOUT_EFFECT, has_effect

# Version 2.1, as a message spells it.
VERSION = bytes.fromhex("42006A0200000004000000020000000042006B02000000040000000100000000")
# Operations that do something to the objects alone that their requests and answers name, or look at these.
NAMING = frozenset({*JUDGED, Operation.GET_ATTRIBUTE_LIST, Operation.ADD_ATTRIBUTE, Operation.MODIFY_ATTRIBUTE,
                    Operation.DELETE_ATTRIBUTE, Operation.SET_ATTRIBUTE, Operation.ADJUST_ATTRIBUTE, Operation.CHECK,
                    Operation.QUERY, Operation.DISCOVER_VERSIONS, Operation.ENCRYPT, Operation.DECRYPT, Operation.SIGN,
                    Operation.SIGNATURE_VERIFY, Operation.MAC, Operation.MAC_VERIFY, Operation.PING})


def about(finding: Finding, calls: list[Call]) -> Optional[list[Call]]:
    """The calls up to the finding's Time Stamp, behind which nothing has to do with it, that name its object, or one
    with which such a call had to do, and those of which nobody knows what they are about; None where the finding is of
    several objects."""
    told, call = story(finding.explanation), next((call for call in calls if call.number == finding.call), None)
    objects = _named_at(call, finding.item) if call else set()
    if len(objects) != 1 and told:
        objects = {told.identifier}
    if len(objects) != 1 or call is None:
        return None
    calls = [other for other in calls if other.stamp is None or call.stamp is None or other.stamp <= call.stamp]
    while True:
        kept = [call for call in calls if not _is_of_named(call) or _named(call) & objects]
        grown = objects.union(*(_named(call) for call in kept if has_effect(call)))
        if grown == objects:
            return kept
        objects = grown


def without_others(finding: Finding, findings: Sequence[Finding], calls: list[Call]) -> list[Call]:
    """These calls without those of other findings that only looked: what stays speaks of this finding."""
    others = {other.call for other in findings} - {finding.call}
    return [call for call in calls if call.number not in others or not _only_looks(call)]


def _only_looks(call: Call) -> bool:
    """Whether a call changed nothing, whatever it was answered."""
    is_read = VERSION in call.request and VERSION in (call.response or b"")
    return is_read and bool(call.pieces) and all(
        piece.operation in WITHOUT_EFFECT and piece.status != Status.PENDING for piece in call.pieces)


def _named_at(call: Call, item: int) -> set[str]:
    """The objects that an item of a call names."""
    pieces = call.pieces[item - 1:item] if item else []
    return set().union(*(piece.identifiers | piece.answered for piece in pieces))


def _named(call: Call) -> frozenset[str]:
    return frozenset().union(*(piece.identifiers | piece.answered for piece in call.pieces))


def _is_of_named(call: Call) -> bool:
    """Whether a call changed nothing but the objects that it names. Of one that can't be read nobody knows."""
    if not (call.pieces and VERSION in call.request):
        return False
    if not has_effect(call):
        return call.refused or all(map(_looks_or_failed, call.pieces))
    return call.stamp is not None and VERSION in (call.response or b"") and all(map(_does_to_named, call.pieces))


def _looks_or_failed(piece: Piece) -> bool:
    return piece.operation in NAMING or piece.status == Status.FAILED


def _does_to_named(piece: Piece) -> bool:
    if piece.status == Status.FAILED:
        return True
    return piece.operation in NAMING and piece.status != Status.PENDING and (
        bool(piece.identifiers or piece.answered) or piece.operation in (Operation.LOCATE, Operation.QUERY))
