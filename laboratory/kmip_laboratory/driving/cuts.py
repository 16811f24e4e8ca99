"""What befalls a call on a client's side: a connection that is cut, a slow reader, a client that ends."""

from __future__ import annotations

from enum import Enum
from typing import Optional


class Cut(Enum):
    """The values are what the summary counts."""

    BEFORE_SENDING = "cut before sending"
    IN_REQUEST = "cut in the request"
    AFTER_SENDING = "cut after sending"
    IN_ANSWER = "cut in the answer"
    SLOW = "read slowly"
    END = "clients that ended"


HELP: dict[Cut, str] = {
    Cut.BEFORE_SENDING: "share of calls whose connection is cut ahead of the first byte",
    Cut.IN_REQUEST: "share of calls cut in the middle of the request",
    Cut.AFTER_SENDING: "share of calls cut when the request is sent: the call stays open",
    Cut.IN_ANSWER: "share of calls cut in the middle of the answer: the call stays open",
    Cut.SLOW: "share of answers that are read a few bytes at a time",
    Cut.END: "share of calls after which a client goes for good, but for the last one",
}


class Cuts:
    """The shares of calls that each befalls."""

    def __init__(self, shares: dict[Cut, float]) -> None:
        self._shares = shares

    def of(self, luck: float) -> Optional[Cut]:
        """What befalls a call with this luck, which is from 0 to 1."""
        for cut in Cut:
            luck -= self._shares.get(cut, 0.0)
            if luck < 0:
                return cut
        return None
