"""Whether a file has messages of versions that `translate` writes as 2.1: each word that goes over a transcript tells
it, since nothing of such a file is judged."""

from __future__ import annotations

from collections import Counter
from typing import Counter as Counts, Optional

from .glimpse import version_of
from .trouble import say
from .versions import TRANSLATED, Version


class Untranslated:
    """Counts the messages of a file by their older versions."""

    def __init__(self, path: str) -> None:
        self._path = path
        self._counts: Counts[Version] = Counter()

    def take(self, message: Optional[bytes]) -> None:
        """Looks at a message, where there is one."""
        version = version_of(message) if message is not None else None
        if version is not None and version in TRANSLATED:
            self._counts[version] += 1

    @property
    def has_some(self) -> bool:
        """Whether any was seen."""
        return bool(self._counts)

    def tell(self) -> None:
        """Tells what was seen, if anything was."""
        if self._counts:
            counts = ", ".join(f"{count} messages of version {version}"
                               for version, count in sorted(self._counts.items()))
            say(f"{self._path} is not translated: it has {counts}, which the auditor does not judge; `kmip_record "
                "translate` writes them as 2.1")
