"""Whether a capture has all packets: each byte that was sent has a number, and none may be missing."""

from __future__ import annotations

from collections import defaultdict
from typing import DefaultDict, Iterable, NamedTuple


class Span(NamedTuple):
    """The numbers of the bytes that a packet sends, up to but without `behind`, and the number up to which it says
    that the other side's bytes came."""

    first: int
    behind: int
    acknowledged: int


def have_gap(spans: Iterable[tuple[int, bool, Span]]) -> bool:
    """Whether bytes are missing in some direction of some stream; each packet comes as its stream, whether a client
    sent it, and its span. Packets that came twice or late are no gap."""
    sent: DefaultDict[tuple[int, bool], list[tuple[int, int]]] = defaultdict(list)
    for stream, by_client, span in spans:
        sent[stream, by_client].append((span.first, span.behind))
        # What was acknowledged was sent, so it is a gap where it is not in the capture.
        sent[stream, not by_client].append((span.acknowledged, span.acknowledged))
    return any(_is_torn(pieces) for pieces in sent.values())


def _is_torn(pieces: list[tuple[int, int]]) -> bool:
    reached = 0
    for first, behind in sorted(pieces):
        if first > reached:
            return True
        reached = max(reached, behind)
    return False
