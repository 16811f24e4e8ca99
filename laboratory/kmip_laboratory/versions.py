"""Protocol versions: which are judged, and which can be translated."""

from __future__ import annotations

from typing import NamedTuple


class Version(NamedTuple):
    """A protocol version."""

    major: int
    minor: int

    def __str__(self) -> str:
        return f"{self.major}.{self.minor}"


JUDGED = Version(2, 1)
NEARLY_JUDGED = Version(2, 0)
OF_OLD = (Version(1, 0), Version(1, 1), Version(1, 2), Version(1, 3), Version(1, 4))
TRANSLATED = (*OF_OLD, NEARLY_JUDGED)
